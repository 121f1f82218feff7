class A super java/lang/Object flags 0x0021
method m ()V flags 0x0001 stack 0 locals 1
return
end
