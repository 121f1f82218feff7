class Faults super java/lang/Object flags 0x0021
method t ()V flags 0x0108
method two_heights_at_6 ()V flags 0x0008 stack 2 locals 1
iconst_1
iconst_0
ifeq E
iconst_2
E:
pop
return
end
method y1_at_start ()V flags 0x0008 stack 2 locals 1
pop
return
end
method y1_after_a_jump ()V flags 0x0008 stack 2 locals 1
iconst_1
ifeq E
E:
swap
return
end
method y1_at_handler ()V flags 0x0008 stack 2 locals 1
S:
nop
T:
return
H:
pop2
return
catch S T H any
end
method y2_at_start ()V flags 0x0008 stack 2 locals 1
iconst_1
iconst_1
iconst_1
return
end
method y2_of_a_dup ()V flags 0x0008 stack 3 locals 1
iconst_1
iconst_1
dup2
return
end
method y2_of_a_row ()V flags 0x0008 stack 0 locals 1
S:
nop
T:
return
H:
return
catch S T H any
end
method y2_at_handler ()V flags 0x0008 stack 1 locals 1
S:
nop
T:
return
H:
dup
return
catch S T H any
end
method y3_of_a_loop ()V flags 0x0008 stack 3 locals 1
L:
iconst_1
goto L
end
method y3_at_handler ()V flags 0x0008 stack 2 locals 1
S:
nop
T:
goto H
H:
return
catch S T H any
end
method y1_and_y3_at_a_handler ()V flags 0x0008 stack 2 locals 1
S:
nop
T:
goto H
H:
pop
return
catch S T H any
end
method y3_of_a_switch ()V flags 0x0008 stack 2 locals 1
iconst_1
tableswitch 0 A B C
A:
iconst_1
B:
nop
C:
return
end
method y5_at_the_end ()V flags 0x0008 stack 2 locals 1
nop
end
method y5_after_a_branch ()V flags 0x0008 stack 2 locals 1
iconst_1
S:
ifeq S
end
method y5_at_handler ()V flags 0x0008 stack 2 locals 1
S:
nop
T:
return
H:
pop
catch S T H any
end
method y5_of_a_call ()V flags 0x0008 stack 2 locals 1
invokestatic Faults.t()V
end
method y6_load ()V flags 0x0008 stack 2 locals 1
iload_1
return
end
method y6_store ()V flags 0x0008 stack 2 locals 1
iconst_1
istore 4
return
end
method y6_step ()V flags 0x0008 stack 2 locals 1
wide iinc 300 1
return
end
method y6_at_handler ()V flags 0x0008 stack 2 locals 1
S:
nop
T:
return
H:
astore_1
return
catch S T H any
end
method y6_just_inside ()V flags 0x0008 stack 2 locals 1
iconst_1
istore_0
return
end
method y1_and_y3_at_one_pc ()V flags 0x0008 stack 2 locals 1
iconst_1
iconst_0
ifeq E
pop
E:
pop
return
end
method y2_and_y3_at_one_pc ()V flags 0x0008 stack 1 locals 1
iconst_1
ifeq E
iconst_1
E:
iconst_1
return
end
method y2_and_y5_at_one_pc ()V flags 0x0008 stack 0 locals 1
iconst_1
end
method y1_and_y5_at_one_pc ()V flags 0x0008 stack 2 locals 1
pop
end
method y1_and_y6_at_one_pc ()V flags 0x0008 stack 2 locals 1
istore 5
return
end
method y4_and_y5_at_one_pc ()V flags 0x0008 stack 2 locals 1
aconst_null
istore_0
end
method y4_and_y6_at_one_pc ()V flags 0x0008 stack 2 locals 1
aconst_null
istore 5
return
end
method y5_and_y6_at_one_pc ()V flags 0x0008 stack 2 locals 1
iinc 5 1
end
method y6_alone_of_an_unset_load ()V flags 0x0008 stack 2 locals 1
aload 5
pop
return
end
method least_pc_first ()V flags 0x0008 stack 2 locals 1
iconst_1
ifeq E
aconst_null
ineg
pop
E:
pop
return
end
method least_pc_in_the_code_not_on_the_path ()V flags 0x0008 stack 2 locals 1
goto B
A:
pop
return
B:
aconst_null
ineg
goto A
end
method y1_ends_the_path ()V flags 0x0008 stack 2 locals 1
iconst_1
ifeq E
pop
E:
return
end
method a_wrong_kind_goes_on ()V flags 0x0008 stack 2 locals 1
aconst_null
ineg
istore_0
iload_0
pop
return
end
method row_end_is_free ()V flags 0x0008 stack 2 locals 1
S:
nop
T:
iconst_1
iconst_1
pop2
return
H:
pop
return
catch S T H any
end
method handler_in_its_own_row ()V flags 0x0008 stack 2 locals 1
iconst_1
S:
H:
pop
iconst_1
goto H
T:
return
catch S T H any
end
method not_reached_is_free ()V flags 0x0008 stack 2 locals 1
goto E
pop
pop
E:
return
end
