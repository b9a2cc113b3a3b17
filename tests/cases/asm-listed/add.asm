; adds 2 and 3
routine add public budget 5 ; steps
	LDI w0 2
 LDI w1 003
ADD w0 w0 w1
first: second:
 out: ; and RET
OUT w0 last
last: RET