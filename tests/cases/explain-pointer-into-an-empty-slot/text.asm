routine a budget 5
 in p0=s0:4
 LDB w0 p0 0
 RET
