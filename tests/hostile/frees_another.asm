; The host lends its block 1 to this filter. The filter frees block 2.
routine frees_another public budget 9
        in s0=vm@
        out s0=vm@
        LDI w0 2
        VFREE w0 end
end:
        RET
