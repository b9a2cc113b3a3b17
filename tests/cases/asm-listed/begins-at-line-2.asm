; adds 2 and 3
routine add public budget 5 ; steps
	LDI w0 2
last: JMP last