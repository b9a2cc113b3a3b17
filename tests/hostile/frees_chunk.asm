; The host has locked memory block 1, and uses chunk 16 of it. This routine frees the chunk.
routine frees_chunk public budget 9
        LDI w0 1
        LDI w1 16
        MLOCK s0 w0 end
        LFREE s0 w1 unlock
unlock:
        MUNLOCK s0
end:
        RET
