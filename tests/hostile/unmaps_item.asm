; The host finds its items by the map item. This routine leaves none.
routine unmaps_item public budget 9
        LDI w0 0
        ISETMAP w0 w0 end
end:
        RET
