; The host finds its data by the map block. This routine calls one that frees the block and saves the file, so no revert brings it back.
routine take budget 9
        VGETMAP w0
        VFREE w0 taken
        VSAVE taken
taken:
        RET
routine takes_map public budget 19
        CALL take
        RET
