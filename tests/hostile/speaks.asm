; The host prints what its own routines output. This routine adds a word of its own.
routine speaks public budget 9
        LDI w0 1000
        OUT w0 end
end:
        RET
