class Kinds super java/lang/Object flags 0x0021
field i LI; flags 0x0008
field x I flags 0x0000
method t ()V flags 0x0108
method takes_a (LA;)V flags 0x0108
method takes_b (LB;)V flags 0x0108
method takes_i (LI;)V flags 0x0108
method takes_array ([LA;)V flags 0x0108
method takes_array_b ([LB;)V flags 0x0108
method takes_array_i ([LI;)V flags 0x0108
method takes_ints ([I)V flags 0x0108
method takes_objects ([Ljava/lang/Object;)V flags 0x0108
method takes_object (Ljava/lang/Object;)V flags 0x0108
method takes_error (Ljava/lang/Error;)V flags 0x0108
method loop_joins_two_classes ()V flags 0x0008 stack 4 locals 2
new A
astore_0
L:
aload_0
invokestatic Kinds.takes_a(LA;)V
new B
astore_0
goto L
end
method loop_joins_a_wrong_class ()V flags 0x0008 stack 4 locals 2
new B
astore_0
L:
aload_0
invokestatic Kinds.takes_b(LB;)V
new A
astore_0
goto L
end
method loop_joins_int_and_reference ()V flags 0x0008 stack 4 locals 2
iconst_1
istore_0
L:
iload_0
pop
aconst_null
astore_0
goto L
end
method join_of_unset_and_int ()I flags 0x0008 stack 4 locals 2
iconst_1
ifeq E
iconst_2
istore_0
E:
iload_0
ireturn
end
method join_of_null_and_class ()V flags 0x0008 stack 4 locals 2
iconst_1
ifeq E
new A
astore_1
goto G
E:
aconst_null
astore_1
G:
aload_1
invokestatic Kinds.takes_a(LA;)V
return
end
method a_handler_has_the_locals_before ()V flags 0x0008 stack 4 locals 2
aconst_null
astore_0
S:
iconst_1
istore_0
T:
return
H:
pop
aload_0
pop
return
catch S T H any
end
method a_handler_has_all_locals_of_its_row ()V flags 0x0008 stack 4 locals 2
aconst_null
astore_0
S:
iconst_1
istore_0
nop
T:
return
H:
pop
aload_0
pop
return
catch S T H any
end
method a_handler_holds_its_class ()V flags 0x0008 stack 4 locals 2
S:
invokestatic Kinds.t()V
T:
return
H:
invokevirtual java/lang/Throwable.getMessage()Ljava/lang/String;
pop
return
catch S T H java/lang/Error
end
method a_handler_holds_no_subclass ()V flags 0x0008 stack 4 locals 2
S:
nop
T:
return
H:
invokestatic Kinds.takes_error(Ljava/lang/Error;)V
return
catch S T H java/lang/Throwable
end
method a_handler_of_any_is_throwable ()V flags 0x0008 stack 4 locals 2
S:
nop
T:
return
H:
athrow
catch S T H any
end
method a_row_catches_no_throwable ()V flags 0x0008 stack 4 locals 2
nop
S:
iconst_1
pop
T:
return
H:
pop
return
catch S T H A
end
method a_row_that_is_not_reached ()V flags 0x0008 stack 4 locals 2
goto E
S:
nop
T:
E:
return
H:
pop
return
catch S T H A
end
method null_as_class ()V flags 0x0008 stack 4 locals 2
aconst_null
invokestatic Kinds.takes_a(LA;)V
return
end
method null_as_interface ()V flags 0x0008 stack 4 locals 2
aconst_null
invokestatic Kinds.takes_i(LI;)V
return
end
method null_as_array ()V flags 0x0008 stack 4 locals 2
aconst_null
invokestatic Kinds.takes_array([LA;)V
return
end
method null_as_ints ()V flags 0x0008 stack 4 locals 2
aconst_null
invokestatic Kinds.takes_ints([I)V
return
end
method int_as_class ()V flags 0x0008 stack 4 locals 2
iconst_0
invokestatic Kinds.takes_a(LA;)V
return
end
method interface_takes_a_class_that_is_none ()V flags 0x0008 stack 4 locals 2
new A
invokestatic Kinds.takes_i(LI;)V
return
end
method interface_takes_an_array ()V flags 0x0008 stack 4 locals 2
iconst_1
newarray int
invokestatic Kinds.takes_i(LI;)V
return
end
method interface_takes_no_int ()V flags 0x0008 stack 4 locals 2
iconst_1
invokestatic Kinds.takes_i(LI;)V
return
end
method class_takes_no_interface ()V flags 0x0008 stack 4 locals 2
getstatic Kinds.i:LI;
invokestatic Kinds.takes_a(LA;)V
return
end
method object_takes_an_array ()V flags 0x0008 stack 4 locals 2
iconst_1
newarray int
invokestatic Kinds.takes_object(Ljava/lang/Object;)V
return
end
method array_of_below_as_array_of_above ()V flags 0x0008 stack 4 locals 2
iconst_1
anewarray B
invokestatic Kinds.takes_array([LA;)V
return
end
method array_of_above_as_array_of_below ()V flags 0x0008 stack 4 locals 2
iconst_1
anewarray A
invokestatic Kinds.takes_array_b([LB;)V
return
end
method array_of_arrays_as_array_of_objects ()V flags 0x0008 stack 4 locals 2
iconst_1
anewarray [I
invokestatic Kinds.takes_objects([Ljava/lang/Object;)V
return
end
method ints_as_array_of_objects ()V flags 0x0008 stack 4 locals 2
iconst_1
newarray int
invokestatic Kinds.takes_objects([Ljava/lang/Object;)V
return
end
method bytes_as_ints ()V flags 0x0008 stack 4 locals 2
iconst_1
newarray byte
invokestatic Kinds.takes_ints([I)V
return
end
method array_of_interfaces_takes_no_class ()V flags 0x0008 stack 4 locals 2
iconst_1
anewarray A
invokestatic Kinds.takes_array_i([LI;)V
return
end
method array_of_interfaces_takes_a_class_below ()V flags 0x0008 stack 4 locals 2
iconst_1
anewarray C
invokestatic Kinds.takes_array_i([LI;)V
return
end
method element_of_an_array ()V flags 0x0008 stack 4 locals 2
iconst_1
anewarray B
iconst_0
aaload
invokestatic Kinds.takes_b(LB;)V
return
end
method element_of_an_array_above ()V flags 0x0008 stack 4 locals 2
iconst_1
anewarray A
iconst_0
aaload
invokestatic Kinds.takes_b(LB;)V
return
end
method element_of_an_array_of_arrays ()V flags 0x0008 stack 4 locals 2
iconst_1
anewarray [I
iconst_0
aaload
iconst_0
iaload
pop
return
end
method element_of_null ()V flags 0x0008 stack 4 locals 2
aconst_null
iconst_0
aaload
invokestatic Kinds.takes_b(LB;)V
return
end
method a_stored_element_is_any_reference ()V flags 0x0008 stack 4 locals 2
iconst_1
anewarray B
iconst_0
new A
aastore
return
end
method cast_of_null ()V flags 0x0008 stack 4 locals 2
aconst_null
checkcast B
invokestatic Kinds.takes_b(LB;)V
return
end
method cast_down ()V flags 0x0008 stack 4 locals 2
new A
checkcast B
invokestatic Kinds.takes_b(LB;)V
return
end
method swap_moves_kinds ()V flags 0x0008 stack 4 locals 2
iconst_1
aconst_null
swap
ineg
pop
pop
return
end
method dup_x2_moves_kinds ()V flags 0x0008 stack 4 locals 2
iconst_1
aconst_null
new A
dup_x2
invokestatic Kinds.takes_a(LA;)V
pop
ineg
pop
invokestatic Kinds.takes_a(LA;)V
return
end
method dup2_x2_moves_kinds ()V flags 0x0008 stack 6 locals 2
iconst_1
aconst_null
iconst_1
new A
dup2_x2
pop
ineg
pop
pop
ineg
pop
invokestatic Kinds.takes_a(LA;)V
ineg
pop
return
end
method return_above ()LB; flags 0x0008 stack 4 locals 2
new A
areturn
end
method return_below ()LA; flags 0x0008 stack 4 locals 2
new B
areturn
end
method return_null ()LB; flags 0x0008 stack 4 locals 2
aconst_null
areturn
end
method return_to_an_interface ()LI; flags 0x0008 stack 4 locals 2
new A
areturn
end
method return_of_an_int_in_a_boolean ()Z flags 0x0008 stack 4 locals 2
iconst_2
ireturn
end
method areturn_without_a_result ()V flags 0x0008 stack 4 locals 2
aconst_null
areturn
end
method ireturn_without_a_result ()V flags 0x0008 stack 4 locals 2
iconst_1
ireturn
end
method ireturn_of_a_reference ()LA; flags 0x0008 stack 4 locals 2
iconst_1
ireturn
end
method parameters (SLB;[C)V flags 0x0008 stack 4 locals 3
iload_0
pop
aload_1
invokestatic Kinds.takes_b(LB;)V
aload_2
arraylength
pop
return
end
method parameters_past_the_locals (ILB;[C)V flags 0x0008 stack 4 locals 1
iload_0
pop
return
end
method a_parameter_of_another_class (LA;)V flags 0x0008 stack 4 locals 1
aload_0
invokestatic Kinds.takes_b(LB;)V
return
end
method this_is_the_first_local ()V flags 0x0001 stack 4 locals 2
aload_0
getfield Kinds.x:I
pop
return
end
method this_is_no_other_class ()V flags 0x0001 stack 4 locals 2
aload_0
invokestatic Kinds.takes_a(LA;)V
return
end
method a_field_of_another_class ()V flags 0x0008 stack 4 locals 2
new A
getfield Kinds.x:I
pop
return
end
method throws_null ()V flags 0x0008 stack 4 locals 2
aconst_null
athrow
end
method throws_a_class_that_is_none ()V flags 0x0008 stack 4 locals 2
new A
athrow
end
