routine a public budget 9
9x:     RET
a,b:    RET
