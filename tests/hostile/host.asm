; The host's own routines, which are granted everything. `setup` makes the file: blocks 1 to 3 with the words 11, 22 and 3, group 4 with the
; item 16, whose word is 44, and a map. `prepare` makes memory blocks 1 and 2 with the words 55 and 66, and changes the word of block 3 to 33.
; `look` outputs the map block, the map item, the words of blocks 1 to 3, of the item and of memory blocks 1 and 2, and then why no more memory
; blocks and no more blocks of the file can be made. Instead of a word it outputs 9000 and the number of the refusal.
routine make budget 19
        LDI w1 1
        VNEW s0 w2 w1 make_end
        LDI w1 2
        LALLOC s0 w3 w1 make_unlock
        DEREF s0 p0 w3 2 make_unlock
        STW w0 p0 0
make_unlock:
        VUNLOCK s0
make_end:
        RET
routine setup public budget 99
        LDI w0 11
        CALL make
        LDI w0 22
        CALL make
        LDI w0 3
        CALL make
        GNEW w4 setup_end
        LDI w1 2
        INEW w5 w4 w1 setup_end
        ILOCK s0 p0 w4 w5 2 setup_end
        IDIRTY s0
        LDI w0 44
        STW w0 p0 0
        IUNLOCK s0
        ISETMAP w4 w5 setup_end
        LDI w1 1
        VSETMAP w1 setup_end
setup_end:
        RET
routine make_memory budget 19
        MNEW s0 w2 memory_end
        LDI w1 2
        LALLOC s0 w3 w1 memory_unlock
        DEREF s0 p0 w3 2 memory_unlock
        STW w0 p0 0
memory_unlock:
        MUNLOCK s0
memory_end:
        RET
routine prepare public budget 99
        LDI w0 55
        CALL make_memory
        LDI w0 66
        CALL make_memory
        LDI w0 3
        VLOCK s0 w0 prepare_end
        VDIRTY s0
        LDI w1 16
        DEREF s0 p0 w1 2 prepare_unlock
        LDI w2 33
        STW w2 p0 0
prepare_unlock:
        VUNLOCK s0
prepare_end:
        RET
routine refused budget 9
        LDI w1 9000
        ADD w2 w7 w1
        OUT w2 refused_end
refused_end:
        RET
routine in_file budget 19
        LDI w1 16
        VLOCK s0 w0 in_file_none
        DEREF s0 p0 w1 2 in_file_short
        LDW w2 p0 0
        OUT w2 in_file_unlock
in_file_unlock:
        VUNLOCK s0
        RET
in_file_short:
        VUNLOCK s0
in_file_none:
        CALL refused
        RET
routine in_group budget 19
        LDI w0 4
        LDI w1 16
        ILOCK s0 p0 w0 w1 2 in_group_none
        LDW w2 p0 0
        OUT w2 in_group_unlock
in_group_unlock:
        IUNLOCK s0
        RET
in_group_none:
        CALL refused
        RET
routine in_memory budget 19
        LDI w1 16
        MLOCK s0 w0 in_memory_none
        DEREF s0 p0 w1 2 in_memory_short
        LDW w2 p0 0
        OUT w2 in_memory_unlock
in_memory_unlock:
        MUNLOCK s0
        RET
in_memory_short:
        MUNLOCK s0
in_memory_none:
        CALL refused
        RET
routine room budget 19
        LDI w7 0
        MNEW s0 w0 room_memory
        MUNLOCK s0
        MFREE w0 room_memory
room_memory:
        OUT w7 room_file
room_file:
        LDI w7 0
        LDI w1 1
        VNEW s0 w0 w1 room_end
        VUNLOCK s0
        VFREE w0 room_end
room_end:
        OUT w7 room_full
room_full:
        RET
routine look public budget 199
        VGETMAP w0
        OUT w0 look_end
        IGETMAP w0 w1
        OUT w1 look_end
        LDI w0 1
        CALL in_file
        LDI w0 2
        CALL in_file
        LDI w0 3
        CALL in_file
        CALL in_group
        LDI w0 1
        CALL in_memory
        LDI w0 2
        CALL in_memory
        CALL room
look_end:
        RET
