class Right super java/lang/Object flags 0x0021
field s Ljava/lang/String; flags 0x0008
field n I flags 0x0008
field f I flags 0x0000
method v (I)I flags 0x0100
method t (Ljava/lang/String;I)V flags 0x0108
method op_nop ()V flags 0x0008 stack 8 locals 2
nop
return
end
method op_aconst_null ()V flags 0x0008 stack 8 locals 2
aconst_null
return
end
method op_iconst_m1 ()V flags 0x0008 stack 8 locals 2
iconst_m1
return
end
method op_iconst_0 ()V flags 0x0008 stack 8 locals 2
iconst_0
return
end
method op_iconst_1 ()V flags 0x0008 stack 8 locals 2
iconst_1
return
end
method op_iconst_2 ()V flags 0x0008 stack 8 locals 2
iconst_2
return
end
method op_iconst_3 ()V flags 0x0008 stack 8 locals 2
iconst_3
return
end
method op_iconst_4 ()V flags 0x0008 stack 8 locals 2
iconst_4
return
end
method op_iconst_5 ()V flags 0x0008 stack 8 locals 2
iconst_5
return
end
method op_bipush_7 ()V flags 0x0008 stack 8 locals 2
bipush 7
return
end
method op_sipush_700 ()V flags 0x0008 stack 8 locals 2
sipush 700
return
end
method op_ldc_70000 ()V flags 0x0008 stack 8 locals 2
ldc 70000
return
end
method op_ldc_text ()V flags 0x0008 stack 8 locals 2
ldc "text"
return
end
method op_ldc_w_5 ()V flags 0x0008 stack 8 locals 2
ldc_w 5
return
end
method op_ldc_w_other ()V flags 0x0008 stack 8 locals 2
ldc_w "other"
return
end
method op_iload_0 ()V flags 0x0008 stack 8 locals 4
iconst_1
istore_0
iload_0
return
end
method op_aload_0 ()V flags 0x0008 stack 8 locals 4
aconst_null
astore_0
aload_0
return
end
method op_istore_0 ()V flags 0x0008 stack 8 locals 4
iconst_1
istore_0
return
end
method op_astore_0 ()V flags 0x0008 stack 8 locals 4
new java/lang/Object
astore_0
return
end
method op_iload_1 ()V flags 0x0008 stack 8 locals 4
iconst_1
istore_1
iload_1
return
end
method op_aload_1 ()V flags 0x0008 stack 8 locals 4
aconst_null
astore_1
aload_1
return
end
method op_istore_1 ()V flags 0x0008 stack 8 locals 4
iconst_1
istore_1
return
end
method op_astore_1 ()V flags 0x0008 stack 8 locals 4
new java/lang/Object
astore_1
return
end
method op_iload_2 ()V flags 0x0008 stack 8 locals 4
iconst_1
istore_2
iload_2
return
end
method op_aload_2 ()V flags 0x0008 stack 8 locals 4
aconst_null
astore_2
aload_2
return
end
method op_istore_2 ()V flags 0x0008 stack 8 locals 4
iconst_1
istore_2
return
end
method op_astore_2 ()V flags 0x0008 stack 8 locals 4
new java/lang/Object
astore_2
return
end
method op_iload_3 ()V flags 0x0008 stack 8 locals 4
iconst_1
istore_3
iload_3
return
end
method op_aload_3 ()V flags 0x0008 stack 8 locals 4
aconst_null
astore_3
aload_3
return
end
method op_istore_3 ()V flags 0x0008 stack 8 locals 4
iconst_1
istore_3
return
end
method op_astore_3 ()V flags 0x0008 stack 8 locals 4
new java/lang/Object
astore_3
return
end
method op_iload ()V flags 0x0008 stack 8 locals 6
iconst_1
istore 5
iload 5
return
end
method op_aload ()V flags 0x0008 stack 8 locals 6
aconst_null
astore 5
aload 5
return
end
method op_istore ()V flags 0x0008 stack 8 locals 6
iconst_1
istore 5
return
end
method op_astore ()V flags 0x0008 stack 8 locals 6
new java/lang/Object
astore 5
return
end
method op_wide_iload ()V flags 0x0008 stack 8 locals 301
iconst_1
wide istore 300
wide iload 300
return
end
method op_wide_aload ()V flags 0x0008 stack 8 locals 301
aconst_null
wide astore 300
wide aload 300
return
end
method op_wide_istore ()V flags 0x0008 stack 8 locals 301
iconst_1
wide istore 300
return
end
method op_wide_astore ()V flags 0x0008 stack 8 locals 301
new java/lang/Object
wide astore 300
return
end
method op_iinc ()V flags 0x0008 stack 8 locals 2
iconst_1
istore_1
iinc 1 2
return
end
method op_wide_iinc ()V flags 0x0008 stack 8 locals 301
iconst_1
wide istore 300
wide iinc 300 2
return
end
method op_iaload ()V flags 0x0008 stack 8 locals 2
iconst_1
newarray int
iconst_1
iaload
return
end
method op_baload ()V flags 0x0008 stack 8 locals 2
iconst_1
newarray byte
iconst_1
baload
return
end
method op_caload ()V flags 0x0008 stack 8 locals 2
iconst_1
newarray char
iconst_1
caload
return
end
method op_saload ()V flags 0x0008 stack 8 locals 2
iconst_1
newarray short
iconst_1
saload
return
end
method op_baload_boolean ()V flags 0x0008 stack 8 locals 2
iconst_1
newarray boolean
iconst_1
baload
return
end
method op_aaload ()V flags 0x0008 stack 8 locals 2
iconst_1
anewarray java/lang/Object
iconst_1
aaload
return
end
method op_iastore ()V flags 0x0008 stack 8 locals 2
iconst_1
newarray int
iconst_1
iconst_1
iastore
return
end
method op_bastore ()V flags 0x0008 stack 8 locals 2
iconst_1
newarray byte
iconst_1
iconst_1
bastore
return
end
method op_castore ()V flags 0x0008 stack 8 locals 2
iconst_1
newarray char
iconst_1
iconst_1
castore
return
end
method op_sastore ()V flags 0x0008 stack 8 locals 2
iconst_1
newarray short
iconst_1
iconst_1
sastore
return
end
method op_bastore_boolean ()V flags 0x0008 stack 8 locals 2
iconst_1
newarray boolean
iconst_1
iconst_1
bastore
return
end
method op_aastore ()V flags 0x0008 stack 8 locals 2
iconst_1
anewarray java/lang/Object
iconst_1
new java/lang/Object
aastore
return
end
method op_pop ()V flags 0x0008 stack 8 locals 2
iconst_1
pop
return
end
method op_pop2 ()V flags 0x0008 stack 8 locals 2
iconst_1
new java/lang/Object
pop2
return
end
method op_dup ()V flags 0x0008 stack 2 locals 2
new java/lang/Object
dup
return
end
method op_dup_x1 ()V flags 0x0008 stack 8 locals 2
iconst_1
new java/lang/Object
dup_x1
return
end
method op_dup_x2 ()V flags 0x0008 stack 8 locals 2
iconst_1
new java/lang/Object
aconst_null
dup_x2
return
end
method op_dup2 ()V flags 0x0008 stack 8 locals 2
iconst_1
new java/lang/Object
dup2
return
end
method op_dup2_x1 ()V flags 0x0008 stack 8 locals 2
iconst_1
new java/lang/Object
aconst_null
dup2_x1
return
end
method op_dup2_x2 ()V flags 0x0008 stack 8 locals 2
iconst_1
new java/lang/Object
aconst_null
iconst_1
dup2_x2
return
end
method op_swap ()V flags 0x0008 stack 8 locals 2
iconst_1
new java/lang/Object
swap
return
end
method op_iadd ()V flags 0x0008 stack 8 locals 2
iconst_1
iconst_1
iadd
return
end
method op_isub ()V flags 0x0008 stack 8 locals 2
iconst_1
iconst_1
isub
return
end
method op_imul ()V flags 0x0008 stack 8 locals 2
iconst_1
iconst_1
imul
return
end
method op_idiv ()V flags 0x0008 stack 8 locals 2
iconst_1
iconst_1
idiv
return
end
method op_irem ()V flags 0x0008 stack 8 locals 2
iconst_1
iconst_1
irem
return
end
method op_ishl ()V flags 0x0008 stack 8 locals 2
iconst_1
iconst_1
ishl
return
end
method op_ishr ()V flags 0x0008 stack 8 locals 2
iconst_1
iconst_1
ishr
return
end
method op_iushr ()V flags 0x0008 stack 8 locals 2
iconst_1
iconst_1
iushr
return
end
method op_iand ()V flags 0x0008 stack 8 locals 2
iconst_1
iconst_1
iand
return
end
method op_ior ()V flags 0x0008 stack 8 locals 2
iconst_1
iconst_1
ior
return
end
method op_ixor ()V flags 0x0008 stack 8 locals 2
iconst_1
iconst_1
ixor
return
end
method op_ineg ()V flags 0x0008 stack 8 locals 2
iconst_1
ineg
return
end
method op_i2b ()V flags 0x0008 stack 8 locals 2
iconst_1
i2b
return
end
method op_i2c ()V flags 0x0008 stack 8 locals 2
iconst_1
i2c
return
end
method op_i2s ()V flags 0x0008 stack 8 locals 2
iconst_1
i2s
return
end
method op_ifeq ()V flags 0x0008 stack 8 locals 2
iconst_1
ifeq E
E:
return
end
method op_ifne ()V flags 0x0008 stack 8 locals 2
iconst_1
ifne E
E:
return
end
method op_iflt ()V flags 0x0008 stack 8 locals 2
iconst_1
iflt E
E:
return
end
method op_ifge ()V flags 0x0008 stack 8 locals 2
iconst_1
ifge E
E:
return
end
method op_ifgt ()V flags 0x0008 stack 8 locals 2
iconst_1
ifgt E
E:
return
end
method op_ifle ()V flags 0x0008 stack 8 locals 2
iconst_1
ifle E
E:
return
end
method op_if_icmpeq ()V flags 0x0008 stack 8 locals 2
iconst_1
iconst_1
if_icmpeq E
E:
return
end
method op_if_icmpne ()V flags 0x0008 stack 8 locals 2
iconst_1
iconst_1
if_icmpne E
E:
return
end
method op_if_icmplt ()V flags 0x0008 stack 8 locals 2
iconst_1
iconst_1
if_icmplt E
E:
return
end
method op_if_icmpge ()V flags 0x0008 stack 8 locals 2
iconst_1
iconst_1
if_icmpge E
E:
return
end
method op_if_icmpgt ()V flags 0x0008 stack 8 locals 2
iconst_1
iconst_1
if_icmpgt E
E:
return
end
method op_if_icmple ()V flags 0x0008 stack 8 locals 2
iconst_1
iconst_1
if_icmple E
E:
return
end
method op_if_acmpeq ()V flags 0x0008 stack 8 locals 2
aconst_null
new java/lang/Object
if_acmpeq E
E:
return
end
method op_if_acmpne ()V flags 0x0008 stack 8 locals 2
aconst_null
new java/lang/Object
if_acmpne E
E:
return
end
method op_ifnull ()V flags 0x0008 stack 8 locals 2
new java/lang/Object
ifnull E
E:
return
end
method op_ifnonnull ()V flags 0x0008 stack 8 locals 2
new java/lang/Object
ifnonnull E
E:
return
end
method op_goto ()V flags 0x0008 stack 8 locals 2
goto E
E:
return
end
method op_goto_w ()V flags 0x0008 stack 8 locals 2
goto_w E
E:
return
end
method op_tableswitch ()V flags 0x0008 stack 8 locals 2
iconst_1
tableswitch 1 E E F
F:
nop
E:
return
end
method op_lookupswitch ()V flags 0x0008 stack 8 locals 2
iconst_1
lookupswitch E 7 F
F:
nop
E:
return
end
method op_lookupswitch_empty ()V flags 0x0008 stack 8 locals 2
iconst_1
lookupswitch E
E:
return
end
method op_ireturn ()I flags 0x0008 stack 8 locals 2
iconst_1
ireturn
end
method op_areturn ()Ljava/lang/Object; flags 0x0008 stack 8 locals 2
new java/lang/Object
areturn
end
method op_return ()V flags 0x0008 stack 8 locals 2
return
end
method op_athrow ()V flags 0x0008 stack 8 locals 2
new java/lang/Error
athrow
end
method op_getstatic ()V flags 0x0008 stack 8 locals 2
getstatic Right.s:Ljava/lang/String;
return
end
method op_putstatic ()V flags 0x0008 stack 8 locals 2
iconst_1
putstatic Right.n:I
return
end
method op_putstatic_ref ()V flags 0x0008 stack 8 locals 2
ldc "a"
putstatic Right.s:Ljava/lang/String;
return
end
method op_getfield ()V flags 0x0008 stack 8 locals 2
new Right
getfield Right.f:I
return
end
method op_putfield ()V flags 0x0008 stack 8 locals 2
new Right
iconst_1
putfield Right.f:I
return
end
method op_putfield_base ()V flags 0x0008 stack 8 locals 2
aconst_null
iconst_1
putfield Right.f:I
return
end
method op_invokevirtual ()V flags 0x0008 stack 8 locals 2
new Right
iconst_1
invokevirtual Right.v(I)I
return
end
method op_invokevirtual_argument ()V flags 0x0008 stack 8 locals 2
aconst_null
iconst_1
invokevirtual Right.v(I)I
return
end
method op_invokespecial ()V flags 0x0008 stack 8 locals 2
new java/lang/Object
invokespecial java/lang/Object.<init>()V
return
end
method op_invokestatic ()V flags 0x0008 stack 8 locals 2
ldc "a"
iconst_1
invokestatic Right.t(Ljava/lang/String;I)V
return
end
method op_invokeinterface ()V flags 0x0008 stack 8 locals 2
new java/lang/Thread
invokeinterface java/lang/Runnable.run()V
return
end
method op_new ()V flags 0x0008 stack 8 locals 2
new Right
return
end
method op_newarray ()V flags 0x0008 stack 8 locals 2
iconst_1
newarray int
return
end
method op_anewarray ()V flags 0x0008 stack 8 locals 2
iconst_1
anewarray java/lang/String
return
end
method op_anewarray_of_arrays ()V flags 0x0008 stack 8 locals 2
iconst_1
anewarray [I
return
end
method op_arraylength ()V flags 0x0008 stack 8 locals 2
iconst_1
newarray char
arraylength
return
end
method op_checkcast ()V flags 0x0008 stack 8 locals 2
new java/lang/Object
checkcast java/lang/String
return
end
method op_checkcast_array ()V flags 0x0008 stack 8 locals 2
aconst_null
checkcast [I
return
end
method op_instanceof ()V flags 0x0008 stack 8 locals 2
new java/lang/Object
instanceof java/lang/String
return
end
method op_instanceof_array ()V flags 0x0008 stack 8 locals 2
new java/lang/Object
instanceof [I
return
end
