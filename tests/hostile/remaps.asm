; The host finds its data by the map block, which is block 1. This routine names block 2.
routine remaps public budget 9
        LDI w0 2
        VSETMAP w0 end
end:
        RET
