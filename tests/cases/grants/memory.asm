; Frees a chunk of a memory block that the host may have locked.
routine chunks public budget 20
    MLOCK s0 w0 done
    LFREE s0 w1 free
free:
    MUNLOCK s0
done:
    RET
