; The host makes blocks of its file when it needs them. This routine makes so many that no handle is left.
routine squats public budget 3999
        LDI w1 1
        SETK k0 1023
more:
        VNEW s0 w0 w1 end
        VUNLOCK s0
        LOOP k0 more
end:
        RET
