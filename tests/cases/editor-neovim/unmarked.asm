routine set budget 9
in      s0=vm w1<=9
out     s0=vm
        DEREF s0 p0 w1 2 x
        STW w2 p0 0
x:      RET
