class B super A flags 0x0021
method super_of_this ()V flags 0x0001 stack 2 locals 1
aload_0
invokespecial A.m()V
return
end
method super_of_another ()V flags 0x0001 stack 2 locals 1
new A
invokespecial A.m()V
return
end
method super_of_one_below ()V flags 0x0001 stack 2 locals 1
new D
invokespecial A.m()V
return
end
method super_of_null ()V flags 0x0001 stack 2 locals 1
aconst_null
invokespecial A.m()V
return
end
method super_of_object_on_another_class ()V flags 0x0001 stack 2 locals 1
new A
aconst_null
invokespecial java/lang/Object.equals(Ljava/lang/Object;)Z
pop
return
end
method super_of_object_on_this ()V flags 0x0001 stack 2 locals 1
aload_0
aconst_null
invokespecial java/lang/Object.equals(Ljava/lang/Object;)Z
pop
return
end
method a_constructor_of_another ()V flags 0x0001 stack 2 locals 1
new java/lang/Object
invokespecial java/lang/Object.<init>()V
return
end
method super_of_an_int ()V flags 0x0001 stack 2 locals 1
iconst_1
invokespecial A.m()V
return
end
