class I super java/lang/Object flags 0x0601
