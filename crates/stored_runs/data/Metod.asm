class E super java/lang/Object flags 0x0020
metod
