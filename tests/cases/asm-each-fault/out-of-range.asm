routine a public budget 9
LDI w0 65536