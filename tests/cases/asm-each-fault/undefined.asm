routine a public budget 9
JMP nowhere