routine a public budget 9
x: x: RET