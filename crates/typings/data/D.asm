class D super B flags 0x0021
