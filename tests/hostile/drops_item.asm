; The host lends block 1, and has an item in a group. This routine frees the item.
routine drops_item public budget 9
        in s0=vm@
        out s0=vm@
        LDI w0 4
        LDI w1 16
        IFREE w0 w1 end
end:
        RET
