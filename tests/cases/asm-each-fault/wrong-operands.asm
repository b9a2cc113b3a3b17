routine a public budget 9
LDI w8 1