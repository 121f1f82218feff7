class C super java/lang/Object flags 0x0021
implements I
