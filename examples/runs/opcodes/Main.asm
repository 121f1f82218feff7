class Main super java/lang/Object flags 0x0021
field i I flags 0x0000
field b B flags 0x0000
field c C flags 0x0000
field s S flags 0x0000
field z Z flags 0x0000
field o LMain; flags 0x0000
field si I flags 0x0008
field sb B flags 0x0008
field sc C flags 0x0008
field ss S flags 0x0008
field sz Z flags 0x0008
field so LMain; flags 0x0008
field k I flags 0x0018 value -77
field kc C flags 0x0018 value 65
field t Ljava/lang/String; flags 0x0018 value "text"
method <init> ()V flags 0x0001 stack 1 locals 1
aload_0
invokespecial java/lang/Object.<init>()V
return
end
method constants ()V flags 0x0008 stack 8 locals 301
iconst_m1
invokestatic Io.show(I)V
iconst_0
invokestatic Io.show(I)V
iconst_1
invokestatic Io.show(I)V
iconst_2
invokestatic Io.show(I)V
iconst_3
invokestatic Io.show(I)V
iconst_4
invokestatic Io.show(I)V
iconst_5
invokestatic Io.show(I)V
bipush -128
invokestatic Io.show(I)V
bipush 127
invokestatic Io.show(I)V
sipush -32768
invokestatic Io.show(I)V
sipush 32767
invokestatic Io.show(I)V
ldc -2147483648
invokestatic Io.show(I)V
ldc_w 2147483647
invokestatic Io.show(I)V
nop
return
end
method ints ()V flags 0x0008 stack 8 locals 301
ldc 7
ldc 3
iadd
invokestatic Io.show(I)V
ldc 7
ldc 3
isub
invokestatic Io.show(I)V
ldc 7
ldc 3
imul
invokestatic Io.show(I)V
ldc 7
ldc 3
idiv
invokestatic Io.show(I)V
ldc 7
ldc 3
irem
invokestatic Io.show(I)V
ldc 7
ldc 3
ishl
invokestatic Io.show(I)V
ldc 7
ldc 3
ishr
invokestatic Io.show(I)V
ldc 7
ldc 3
iushr
invokestatic Io.show(I)V
ldc 7
ldc 3
iand
invokestatic Io.show(I)V
ldc 7
ldc 3
ior
invokestatic Io.show(I)V
ldc 7
ldc 3
ixor
invokestatic Io.show(I)V
ldc -7
ldc 3
iadd
invokestatic Io.show(I)V
ldc -7
ldc 3
isub
invokestatic Io.show(I)V
ldc -7
ldc 3
imul
invokestatic Io.show(I)V
ldc -7
ldc 3
idiv
invokestatic Io.show(I)V
ldc -7
ldc 3
irem
invokestatic Io.show(I)V
ldc -7
ldc 3
ishl
invokestatic Io.show(I)V
ldc -7
ldc 3
ishr
invokestatic Io.show(I)V
ldc -7
ldc 3
iushr
invokestatic Io.show(I)V
ldc -7
ldc 3
iand
invokestatic Io.show(I)V
ldc -7
ldc 3
ior
invokestatic Io.show(I)V
ldc -7
ldc 3
ixor
invokestatic Io.show(I)V
ldc 7
ldc -3
iadd
invokestatic Io.show(I)V
ldc 7
ldc -3
isub
invokestatic Io.show(I)V
ldc 7
ldc -3
imul
invokestatic Io.show(I)V
ldc 7
ldc -3
idiv
invokestatic Io.show(I)V
ldc 7
ldc -3
irem
invokestatic Io.show(I)V
ldc 7
ldc -3
ishl
invokestatic Io.show(I)V
ldc 7
ldc -3
ishr
invokestatic Io.show(I)V
ldc 7
ldc -3
iushr
invokestatic Io.show(I)V
ldc 7
ldc -3
iand
invokestatic Io.show(I)V
ldc 7
ldc -3
ior
invokestatic Io.show(I)V
ldc 7
ldc -3
ixor
invokestatic Io.show(I)V
ldc -2147483648
ldc -1
iadd
invokestatic Io.show(I)V
ldc -2147483648
ldc -1
isub
invokestatic Io.show(I)V
ldc -2147483648
ldc -1
imul
invokestatic Io.show(I)V
ldc -2147483648
ldc -1
idiv
invokestatic Io.show(I)V
ldc -2147483648
ldc -1
irem
invokestatic Io.show(I)V
ldc -2147483648
ldc -1
ishl
invokestatic Io.show(I)V
ldc -2147483648
ldc -1
ishr
invokestatic Io.show(I)V
ldc -2147483648
ldc -1
iushr
invokestatic Io.show(I)V
ldc -2147483648
ldc -1
iand
invokestatic Io.show(I)V
ldc -2147483648
ldc -1
ior
invokestatic Io.show(I)V
ldc -2147483648
ldc -1
ixor
invokestatic Io.show(I)V
ldc 2147483647
ldc 2147483647
iadd
invokestatic Io.show(I)V
ldc 2147483647
ldc 2147483647
isub
invokestatic Io.show(I)V
ldc 2147483647
ldc 2147483647
imul
invokestatic Io.show(I)V
ldc 2147483647
ldc 2147483647
idiv
invokestatic Io.show(I)V
ldc 2147483647
ldc 2147483647
irem
invokestatic Io.show(I)V
ldc 2147483647
ldc 2147483647
ishl
invokestatic Io.show(I)V
ldc 2147483647
ldc 2147483647
ishr
invokestatic Io.show(I)V
ldc 2147483647
ldc 2147483647
iushr
invokestatic Io.show(I)V
ldc 2147483647
ldc 2147483647
iand
invokestatic Io.show(I)V
ldc 2147483647
ldc 2147483647
ior
invokestatic Io.show(I)V
ldc 2147483647
ldc 2147483647
ixor
invokestatic Io.show(I)V
ldc 1
ldc 33
iadd
invokestatic Io.show(I)V
ldc 1
ldc 33
isub
invokestatic Io.show(I)V
ldc 1
ldc 33
imul
invokestatic Io.show(I)V
ldc 1
ldc 33
idiv
invokestatic Io.show(I)V
ldc 1
ldc 33
irem
invokestatic Io.show(I)V
ldc 1
ldc 33
ishl
invokestatic Io.show(I)V
ldc 1
ldc 33
ishr
invokestatic Io.show(I)V
ldc 1
ldc 33
iushr
invokestatic Io.show(I)V
ldc 1
ldc 33
iand
invokestatic Io.show(I)V
ldc 1
ldc 33
ior
invokestatic Io.show(I)V
ldc 1
ldc 33
ixor
invokestatic Io.show(I)V
ldc -1
ldc 31
iadd
invokestatic Io.show(I)V
ldc -1
ldc 31
isub
invokestatic Io.show(I)V
ldc -1
ldc 31
imul
invokestatic Io.show(I)V
ldc -1
ldc 31
idiv
invokestatic Io.show(I)V
ldc -1
ldc 31
irem
invokestatic Io.show(I)V
ldc -1
ldc 31
ishl
invokestatic Io.show(I)V
ldc -1
ldc 31
ishr
invokestatic Io.show(I)V
ldc -1
ldc 31
iushr
invokestatic Io.show(I)V
ldc -1
ldc 31
iand
invokestatic Io.show(I)V
ldc -1
ldc 31
ior
invokestatic Io.show(I)V
ldc -1
ldc 31
ixor
invokestatic Io.show(I)V
ldc 0
ineg
invokestatic Io.show(I)V
ldc 5
ineg
invokestatic Io.show(I)V
ldc -2147483648
ineg
invokestatic Io.show(I)V
ldc 128
i2b
invokestatic Io.show(I)V
ldc 128
i2c
invokestatic Io.show(I)V
ldc 128
i2s
invokestatic Io.show(I)V
ldc -129
i2b
invokestatic Io.show(I)V
ldc -129
i2c
invokestatic Io.show(I)V
ldc -129
i2s
invokestatic Io.show(I)V
ldc 65535
i2b
invokestatic Io.show(I)V
ldc 65535
i2c
invokestatic Io.show(I)V
ldc 65535
i2s
invokestatic Io.show(I)V
ldc 32768
i2b
invokestatic Io.show(I)V
ldc 32768
i2c
invokestatic Io.show(I)V
ldc 32768
i2s
invokestatic Io.show(I)V
ldc 65543
i2b
invokestatic Io.show(I)V
ldc 65543
i2c
invokestatic Io.show(I)V
ldc 65543
i2s
invokestatic Io.show(I)V
return
end
method tests (LMain;)V flags 0x0008 stack 8 locals 301
ldc -1
ifeq T1
iconst_0
goto T2
T1:
iconst_1
T2:
invokestatic Io.show(I)V
ldc 0
ifeq T3
iconst_0
goto T4
T3:
iconst_1
T4:
invokestatic Io.show(I)V
ldc 1
ifeq T5
iconst_0
goto T6
T5:
iconst_1
T6:
invokestatic Io.show(I)V
ldc -1
ifne T7
iconst_0
goto T8
T7:
iconst_1
T8:
invokestatic Io.show(I)V
ldc 0
ifne T9
iconst_0
goto T10
T9:
iconst_1
T10:
invokestatic Io.show(I)V
ldc 1
ifne T11
iconst_0
goto T12
T11:
iconst_1
T12:
invokestatic Io.show(I)V
ldc -1
iflt T13
iconst_0
goto T14
T13:
iconst_1
T14:
invokestatic Io.show(I)V
ldc 0
iflt T15
iconst_0
goto T16
T15:
iconst_1
T16:
invokestatic Io.show(I)V
ldc 1
iflt T17
iconst_0
goto T18
T17:
iconst_1
T18:
invokestatic Io.show(I)V
ldc -1
ifge T19
iconst_0
goto T20
T19:
iconst_1
T20:
invokestatic Io.show(I)V
ldc 0
ifge T21
iconst_0
goto T22
T21:
iconst_1
T22:
invokestatic Io.show(I)V
ldc 1
ifge T23
iconst_0
goto T24
T23:
iconst_1
T24:
invokestatic Io.show(I)V
ldc -1
ifgt T25
iconst_0
goto T26
T25:
iconst_1
T26:
invokestatic Io.show(I)V
ldc 0
ifgt T27
iconst_0
goto T28
T27:
iconst_1
T28:
invokestatic Io.show(I)V
ldc 1
ifgt T29
iconst_0
goto T30
T29:
iconst_1
T30:
invokestatic Io.show(I)V
ldc -1
ifle T31
iconst_0
goto T32
T31:
iconst_1
T32:
invokestatic Io.show(I)V
ldc 0
ifle T33
iconst_0
goto T34
T33:
iconst_1
T34:
invokestatic Io.show(I)V
ldc 1
ifle T35
iconst_0
goto T36
T35:
iconst_1
T36:
invokestatic Io.show(I)V
ldc -2147483648
ldc 2147483647
if_icmpeq T37
iconst_0
goto T38
T37:
iconst_1
T38:
invokestatic Io.show(I)V
ldc 4
ldc 4
if_icmpeq T39
iconst_0
goto T40
T39:
iconst_1
T40:
invokestatic Io.show(I)V
ldc 1
ldc -1
if_icmpeq T41
iconst_0
goto T42
T41:
iconst_1
T42:
invokestatic Io.show(I)V
ldc -2147483648
ldc 2147483647
if_icmpne T43
iconst_0
goto T44
T43:
iconst_1
T44:
invokestatic Io.show(I)V
ldc 4
ldc 4
if_icmpne T45
iconst_0
goto T46
T45:
iconst_1
T46:
invokestatic Io.show(I)V
ldc 1
ldc -1
if_icmpne T47
iconst_0
goto T48
T47:
iconst_1
T48:
invokestatic Io.show(I)V
ldc -2147483648
ldc 2147483647
if_icmplt T49
iconst_0
goto T50
T49:
iconst_1
T50:
invokestatic Io.show(I)V
ldc 4
ldc 4
if_icmplt T51
iconst_0
goto T52
T51:
iconst_1
T52:
invokestatic Io.show(I)V
ldc 1
ldc -1
if_icmplt T53
iconst_0
goto T54
T53:
iconst_1
T54:
invokestatic Io.show(I)V
ldc -2147483648
ldc 2147483647
if_icmpge T55
iconst_0
goto T56
T55:
iconst_1
T56:
invokestatic Io.show(I)V
ldc 4
ldc 4
if_icmpge T57
iconst_0
goto T58
T57:
iconst_1
T58:
invokestatic Io.show(I)V
ldc 1
ldc -1
if_icmpge T59
iconst_0
goto T60
T59:
iconst_1
T60:
invokestatic Io.show(I)V
ldc -2147483648
ldc 2147483647
if_icmpgt T61
iconst_0
goto T62
T61:
iconst_1
T62:
invokestatic Io.show(I)V
ldc 4
ldc 4
if_icmpgt T63
iconst_0
goto T64
T63:
iconst_1
T64:
invokestatic Io.show(I)V
ldc 1
ldc -1
if_icmpgt T65
iconst_0
goto T66
T65:
iconst_1
T66:
invokestatic Io.show(I)V
ldc -2147483648
ldc 2147483647
if_icmple T67
iconst_0
goto T68
T67:
iconst_1
T68:
invokestatic Io.show(I)V
ldc 4
ldc 4
if_icmple T69
iconst_0
goto T70
T69:
iconst_1
T70:
invokestatic Io.show(I)V
ldc 1
ldc -1
if_icmple T71
iconst_0
goto T72
T71:
iconst_1
T72:
invokestatic Io.show(I)V
aload_0
aload_0
if_acmpeq T73
iconst_0
goto T74
T73:
iconst_1
T74:
invokestatic Io.show(I)V
aload_0
aconst_null
if_acmpeq T75
iconst_0
goto T76
T75:
iconst_1
T76:
invokestatic Io.show(I)V
aload_0
aload_0
if_acmpne T77
iconst_0
goto T78
T77:
iconst_1
T78:
invokestatic Io.show(I)V
aload_0
aconst_null
if_acmpne T79
iconst_0
goto T80
T79:
iconst_1
T80:
invokestatic Io.show(I)V
aload_0
ifnull T81
iconst_0
goto T82
T81:
iconst_1
T82:
invokestatic Io.show(I)V
aconst_null
ifnull T83
iconst_0
goto T84
T83:
iconst_1
T84:
invokestatic Io.show(I)V
aload_0
ifnonnull T85
iconst_0
goto T86
T85:
iconst_1
T86:
invokestatic Io.show(I)V
aconst_null
ifnonnull T87
iconst_0
goto T88
T87:
iconst_1
T88:
invokestatic Io.show(I)V
return
end
method locals ()V flags 0x0008 stack 8 locals 301
ldc 10
istore_0
ldc 11
istore_1
ldc 12
istore_2
ldc 13
istore_3
iload_0
invokestatic Io.show(I)V
iload_1
invokestatic Io.show(I)V
iload_2
invokestatic Io.show(I)V
iload_3
invokestatic Io.show(I)V
ldc 20
istore 4
iload 4
invokestatic Io.show(I)V
ldc 21
wide istore 300
iinc 4 -128
iload 4
invokestatic Io.show(I)V
wide iinc 300 -30000
wide iload 300
invokestatic Io.show(I)V
iinc 4 127
wide iinc 300 32767
iload 4
invokestatic Io.show(I)V
wide iload 300
invokestatic Io.show(I)V
ldc 30
newarray int
astore_0
ldc 31
newarray int
astore_1
ldc 32
newarray int
astore_2
ldc 33
newarray int
astore_3
aload_0
arraylength
invokestatic Io.show(I)V
aload_1
arraylength
invokestatic Io.show(I)V
aload_2
arraylength
invokestatic Io.show(I)V
aload_3
arraylength
invokestatic Io.show(I)V
bipush 40
newarray byte
astore 4
aload 4
arraylength
invokestatic Io.show(I)V
bipush 41
newarray char
wide astore 300
wide aload 300
arraylength
invokestatic Io.show(I)V
return
end
method stacks ()V flags 0x0008 stack 8 locals 301
ldc 1
ldc 2
pop
invokestatic Io.show(I)V
ldc 1
ldc 2
ldc 3
pop2
invokestatic Io.show(I)V
ldc 1
ldc 2
dup
invokestatic Io.show(I)V
invokestatic Io.show(I)V
invokestatic Io.show(I)V
ldc 1
ldc 2
ldc 3
dup_x1
invokestatic Io.show(I)V
invokestatic Io.show(I)V
invokestatic Io.show(I)V
invokestatic Io.show(I)V
ldc 1
ldc 2
ldc 3
ldc 4
dup_x2
invokestatic Io.show(I)V
invokestatic Io.show(I)V
invokestatic Io.show(I)V
invokestatic Io.show(I)V
invokestatic Io.show(I)V
ldc 1
ldc 2
ldc 3
dup2
invokestatic Io.show(I)V
invokestatic Io.show(I)V
invokestatic Io.show(I)V
invokestatic Io.show(I)V
invokestatic Io.show(I)V
ldc 1
ldc 2
ldc 3
ldc 4
dup2_x1
invokestatic Io.show(I)V
invokestatic Io.show(I)V
invokestatic Io.show(I)V
invokestatic Io.show(I)V
invokestatic Io.show(I)V
invokestatic Io.show(I)V
ldc 1
ldc 2
ldc 3
ldc 4
ldc 5
dup2_x2
invokestatic Io.show(I)V
invokestatic Io.show(I)V
invokestatic Io.show(I)V
invokestatic Io.show(I)V
invokestatic Io.show(I)V
invokestatic Io.show(I)V
invokestatic Io.show(I)V
ldc 1
ldc 2
swap
invokestatic Io.show(I)V
invokestatic Io.show(I)V
return
end
method elements ()V flags 0x0008 stack 8 locals 301
iconst_2
newarray boolean
astore_0
aload_0
iconst_1
baload
invokestatic Io.show(I)V
aload_0
iconst_1
ldc 3
bastore
aload_0
iconst_1
baload
invokestatic Io.show(I)V
aload_0
iconst_1
ldc -2
bastore
aload_0
iconst_1
baload
invokestatic Io.show(I)V
aload_0
iconst_1
ldc 70000
bastore
aload_0
iconst_1
baload
invokestatic Io.show(I)V
aload_0
iconst_0
baload
invokestatic Io.show(I)V
iconst_2
newarray byte
astore_0
aload_0
iconst_1
baload
invokestatic Io.show(I)V
aload_0
iconst_1
ldc 3
bastore
aload_0
iconst_1
baload
invokestatic Io.show(I)V
aload_0
iconst_1
ldc -2
bastore
aload_0
iconst_1
baload
invokestatic Io.show(I)V
aload_0
iconst_1
ldc 70000
bastore
aload_0
iconst_1
baload
invokestatic Io.show(I)V
aload_0
iconst_0
baload
invokestatic Io.show(I)V
iconst_2
newarray char
astore_0
aload_0
iconst_1
caload
invokestatic Io.show(I)V
aload_0
iconst_1
ldc 3
castore
aload_0
iconst_1
caload
invokestatic Io.show(I)V
aload_0
iconst_1
ldc -2
castore
aload_0
iconst_1
caload
invokestatic Io.show(I)V
aload_0
iconst_1
ldc 70000
castore
aload_0
iconst_1
caload
invokestatic Io.show(I)V
aload_0
iconst_0
caload
invokestatic Io.show(I)V
iconst_2
newarray short
astore_0
aload_0
iconst_1
saload
invokestatic Io.show(I)V
aload_0
iconst_1
ldc 3
sastore
aload_0
iconst_1
saload
invokestatic Io.show(I)V
aload_0
iconst_1
ldc -2
sastore
aload_0
iconst_1
saload
invokestatic Io.show(I)V
aload_0
iconst_1
ldc 70000
sastore
aload_0
iconst_1
saload
invokestatic Io.show(I)V
aload_0
iconst_0
saload
invokestatic Io.show(I)V
iconst_2
newarray int
astore_0
aload_0
iconst_1
iaload
invokestatic Io.show(I)V
aload_0
iconst_1
ldc 3
iastore
aload_0
iconst_1
iaload
invokestatic Io.show(I)V
aload_0
iconst_1
ldc -2
iastore
aload_0
iconst_1
iaload
invokestatic Io.show(I)V
aload_0
iconst_1
ldc 70000
iastore
aload_0
iconst_1
iaload
invokestatic Io.show(I)V
aload_0
iconst_0
iaload
invokestatic Io.show(I)V
iconst_3
anewarray [I
astore_0
aload_0
arraylength
invokestatic Io.show(I)V
aload_0
iconst_2
aaload
ifnull T89
iconst_0
goto T90
T89:
iconst_1
T90:
invokestatic Io.show(I)V
aload_0
iconst_2
bipush 9
newarray int
aastore
aload_0
iconst_2
aaload
arraylength
invokestatic Io.show(I)V
iconst_1
anewarray Main
astore_1
return
end
method types ()V flags 0x0008 stack 8 locals 301
new Main
dup
invokespecial Main.<init>()V
astore_0
aload_0
instanceof Main
invokestatic Io.show(I)V
aconst_null
instanceof Main
invokestatic Io.show(I)V
aload_0
instanceof java/lang/Object
invokestatic Io.show(I)V
aconst_null
instanceof java/lang/Object
invokestatic Io.show(I)V
aload_0
instanceof java/lang/Runnable
invokestatic Io.show(I)V
aconst_null
instanceof java/lang/Runnable
invokestatic Io.show(I)V
aload_0
instanceof java/lang/Thread
invokestatic Io.show(I)V
aconst_null
instanceof java/lang/Thread
invokestatic Io.show(I)V
aload_0
instanceof [I
invokestatic Io.show(I)V
aconst_null
instanceof [I
invokestatic Io.show(I)V
iconst_1
anewarray Main
astore_1
aload_1
instanceof [LMain;
invokestatic Io.show(I)V
aload_1
instanceof [Ljava/lang/Object;
invokestatic Io.show(I)V
aload_1
instanceof java/lang/Object
invokestatic Io.show(I)V
aload_1
instanceof [[I
invokestatic Io.show(I)V
aload_1
instanceof [I
invokestatic Io.show(I)V
aload_1
instanceof Main
invokestatic Io.show(I)V
aload_1
checkcast [Ljava/lang/Object;
arraylength
invokestatic Io.show(I)V
aconst_null
checkcast Main
ifnull T91
iconst_0
goto T92
T91:
iconst_1
T92:
invokestatic Io.show(I)V
return
end
method fields ()V flags 0x0008 stack 8 locals 301
new Main
dup
invokespecial Main.<init>()V
astore_0
aload_0
getfield Main.i:I
invokestatic Io.show(I)V
aload_0
ldc 3
putfield Main.i:I
aload_0
getfield Main.i:I
invokestatic Io.show(I)V
aload_0
ldc -2
putfield Main.i:I
aload_0
getfield Main.i:I
invokestatic Io.show(I)V
aload_0
ldc 70000
putfield Main.i:I
aload_0
getfield Main.i:I
invokestatic Io.show(I)V
ldc 5
putstatic Main.si:I
getstatic Main.si:I
invokestatic Io.show(I)V
ldc -70000
putstatic Main.si:I
getstatic Main.si:I
invokestatic Io.show(I)V
aload_0
getfield Main.b:B
invokestatic Io.show(I)V
aload_0
ldc 3
putfield Main.b:B
aload_0
getfield Main.b:B
invokestatic Io.show(I)V
aload_0
ldc -2
putfield Main.b:B
aload_0
getfield Main.b:B
invokestatic Io.show(I)V
aload_0
ldc 70000
putfield Main.b:B
aload_0
getfield Main.b:B
invokestatic Io.show(I)V
ldc 5
putstatic Main.sb:B
getstatic Main.sb:B
invokestatic Io.show(I)V
ldc -70000
putstatic Main.sb:B
getstatic Main.sb:B
invokestatic Io.show(I)V
aload_0
getfield Main.c:C
invokestatic Io.show(I)V
aload_0
ldc 3
putfield Main.c:C
aload_0
getfield Main.c:C
invokestatic Io.show(I)V
aload_0
ldc -2
putfield Main.c:C
aload_0
getfield Main.c:C
invokestatic Io.show(I)V
aload_0
ldc 70000
putfield Main.c:C
aload_0
getfield Main.c:C
invokestatic Io.show(I)V
ldc 5
putstatic Main.sc:C
getstatic Main.sc:C
invokestatic Io.show(I)V
ldc -70000
putstatic Main.sc:C
getstatic Main.sc:C
invokestatic Io.show(I)V
aload_0
getfield Main.s:S
invokestatic Io.show(I)V
aload_0
ldc 3
putfield Main.s:S
aload_0
getfield Main.s:S
invokestatic Io.show(I)V
aload_0
ldc -2
putfield Main.s:S
aload_0
getfield Main.s:S
invokestatic Io.show(I)V
aload_0
ldc 70000
putfield Main.s:S
aload_0
getfield Main.s:S
invokestatic Io.show(I)V
ldc 5
putstatic Main.ss:S
getstatic Main.ss:S
invokestatic Io.show(I)V
ldc -70000
putstatic Main.ss:S
getstatic Main.ss:S
invokestatic Io.show(I)V
aload_0
getfield Main.z:Z
invokestatic Io.show(I)V
aload_0
ldc 3
putfield Main.z:Z
aload_0
getfield Main.z:Z
invokestatic Io.show(I)V
aload_0
ldc -2
putfield Main.z:Z
aload_0
getfield Main.z:Z
invokestatic Io.show(I)V
aload_0
ldc 70000
putfield Main.z:Z
aload_0
getfield Main.z:Z
invokestatic Io.show(I)V
ldc 5
putstatic Main.sz:Z
getstatic Main.sz:Z
invokestatic Io.show(I)V
ldc -70000
putstatic Main.sz:Z
getstatic Main.sz:Z
invokestatic Io.show(I)V
aload_0
aload_0
putfield Main.o:LMain;
aload_0
getfield Main.o:LMain;
aload_0
if_acmpeq T93
iconst_0
goto T94
T93:
iconst_1
T94:
invokestatic Io.show(I)V
getstatic Main.so:LMain;
ifnull T95
iconst_0
goto T96
T95:
iconst_1
T96:
invokestatic Io.show(I)V
getstatic Main.k:I
invokestatic Io.show(I)V
getstatic Main.kc:C
invokestatic Io.show(I)V
getstatic Main.t:Ljava/lang/String;
ldc "text"
if_acmpeq T97
iconst_0
goto T98
T97:
iconst_1
T98:
invokestatic Io.show(I)V
return
end
method ways ()V flags 0x0008 stack 8 locals 301
ldc -1
tableswitch 0 T102 T99 T100 T101
T99:
bipush 10
goto T103
T100:
bipush 11
goto T103
T101:
bipush 12
goto_w T103
T102:
bipush 13
T103:
invokestatic Io.show(I)V
ldc 0
tableswitch 0 T107 T104 T105 T106
T104:
bipush 10
goto T108
T105:
bipush 11
goto T108
T106:
bipush 12
goto_w T108
T107:
bipush 13
T108:
invokestatic Io.show(I)V
ldc 1
tableswitch 0 T112 T109 T110 T111
T109:
bipush 10
goto T113
T110:
bipush 11
goto T113
T111:
bipush 12
goto_w T113
T112:
bipush 13
T113:
invokestatic Io.show(I)V
ldc 2
tableswitch 0 T117 T114 T115 T116
T114:
bipush 10
goto T118
T115:
bipush 11
goto T118
T116:
bipush 12
goto_w T118
T117:
bipush 13
T118:
invokestatic Io.show(I)V
ldc 3
tableswitch 0 T122 T119 T120 T121
T119:
bipush 10
goto T123
T120:
bipush 11
goto T123
T121:
bipush 12
goto_w T123
T122:
bipush 13
T123:
invokestatic Io.show(I)V
ldc -2147483648
lookupswitch T126 -2147483648 T124 7 T125
T124:
bipush 20
goto T127
T125:
bipush 21
goto T127
T126:
bipush 22
T127:
invokestatic Io.show(I)V
ldc -5
lookupswitch T130 -2147483648 T128 7 T129
T128:
bipush 20
goto T131
T129:
bipush 21
goto T131
T130:
bipush 22
T131:
invokestatic Io.show(I)V
ldc 0
lookupswitch T134 -2147483648 T132 7 T133
T132:
bipush 20
goto T135
T133:
bipush 21
goto T135
T134:
bipush 22
T135:
invokestatic Io.show(I)V
ldc 7
lookupswitch T138 -2147483648 T136 7 T137
T136:
bipush 20
goto T139
T137:
bipush 21
goto T139
T138:
bipush 22
T139:
invokestatic Io.show(I)V
ldc 2147483647
lookupswitch T142 -2147483648 T140 7 T141
T140:
bipush 20
goto T143
T141:
bipush 21
goto T143
T142:
bipush 22
T143:
invokestatic Io.show(I)V
ldc 8
lookupswitch T144
T144:
return
end
method throws ()V flags 0x0008 stack 8 locals 301
T145:
new java/lang/Error
dup
invokespecial java/lang/Error.<init>()V
athrow
T146:
T147:
instanceof java/lang/Error
invokestatic Io.show(I)V
return
catch T145 T146 T147 any
end
method main ()V flags 0x0008 stack 3 locals 0
invokestatic Main.constants()V
invokestatic Main.ints()V
new Main
dup
invokespecial Main.<init>()V
invokestatic Main.tests(LMain;)V
invokestatic Main.locals()V
invokestatic Main.stacks()V
invokestatic Main.elements()V
invokestatic Main.types()V
invokestatic Main.fields()V
invokestatic Main.ways()V
invokestatic Main.throws()V
return
end
