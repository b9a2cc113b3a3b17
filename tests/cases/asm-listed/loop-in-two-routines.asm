routine a public budget 5
in w0<=9
x: LDI w0 2
CALL b
JMP x
routine b budget 2
RET