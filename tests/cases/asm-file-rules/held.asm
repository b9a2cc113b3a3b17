; The file is written while a block of it is held.
routine a public budget 40
    VGETMAP w0
    VLOCK s0 w0 e
    VUPDATE u
u:  VUNLOCK s0
e:  RET
