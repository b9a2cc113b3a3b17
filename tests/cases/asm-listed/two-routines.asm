routine a public budget 5
in w0<=9
x: LDI w0 2
CALL b
JMP y
routine b budget 2
y: RET