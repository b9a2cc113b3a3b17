; The host makes memory blocks when it needs them. This routine makes so many that no handle is left.
routine hoards public budget 3999
        SETK k0 1023
more:
        MNEW s0 w0 end
        MUNLOCK s0
        LOOP k0 more
end:
        RET
