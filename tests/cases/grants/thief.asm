; A filter that frees another block of the file.
routine filter public budget 20
    in s0=vm@
    out s0=vm@
    VFREE w0 done
done:
    RET
