; The host lends nothing. This routine finds all its blocks by their user ID, and outputs the words in them.
routine snoops public budget 49
        LDI w0 0
        LDI w1 1
        LDI w2 16
        SETK k0 4
next:
        VFIND w0 w0 w1 end
        VLOCK s0 w0 end
        DEREF s0 p0 w2 2 unlock
        LDW w3 p0 0
        OUT w3 unlock
unlock:
        VUNLOCK s0
        LOOP k0 next
end:
        RET
