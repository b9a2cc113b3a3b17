; Blocks, groups and items. w1 is no block and no item, w6 a group, w3 its item of two bytes.
routine memory public budget 60
    LDI w1 1000
    LDI w7 0
    MLOCK s0 w1 memory1 ; tried
    MUNLOCK s0
memory1: OUT w7 memory_x
    LDI w7 0
    MFREE w1 memory2 ; tried
memory2: OUT w7 memory_x
    MNEW s0 w0 memory_x
    LDI w7 0
    MFREE w0 locked ; tried
locked: OUT w7 unlock
unlock: MUNLOCK s0
memory_x: RET

routine file public budget 200
    LDI w1 1000
    LDI w2 5
    LDI w5 65280
    GNEW w6 file_x
    LDI w7 0
    VNEW s0 w7 w5 file1 ; tried
    VUNLOCK s0
file1: OUT w7 file_x
    LDI w7 0
    VLOCK s0 w1 file2 ; tried
    VUNLOCK s0
file2: OUT w7 file_x
    LDI w7 0
    VLOCK s0 w6 file3 ; tried
    VUNLOCK s0
file3: OUT w7 file_x
    LDI w7 0
    VFREE w1 file4 ; tried
file4: OUT w7 file_x
    LDI w7 0
    VFREE w6 file5 ; tried
file5: OUT w7 file_x
    LDI w7 0
    VFIND w7 w0 w5 file6 ; tried
file6: OUT w7 file_x
    LDI w7 0
    VUID w7 w1 file7 ; tried
file7: OUT w7 file_x
    LDI w7 0
    VSETMAP w1 file8 ; tried
file8: OUT w7 file_x
    LDI w7 0
    VSETMAP w6 file9 ; tried
file9: OUT w7 file_x
    LDI w7 0
    GFREE w1 file10 ; tried
file10: OUT w7 file_x
    VNEW s0 w0 w2 file_x
    LDI w7 0
    VFREE w0 held ; tried
held: OUT w7 release
release: VUNLOCK s0
file_x: RET

routine items public budget 200
    LDI w1 1000
    LDI w2 2
    LDI w4 65535
    LDI w0 0
    GNEW w6 items_x
    INEW w3 w6 w2 items_x
    LDI w7 0
    INEW w7 w1 w2 items1 ; tried
items1: OUT w7 items_x
    LDI w7 0
    INEW w7 w6 w4 items2 ; tried
items2: OUT w7 items_x
    LDI w7 0
    IFREE w1 w3 items3 ; tried
items3: OUT w7 items_x
    LDI w7 0
    IFREE w6 w1 items4 ; tried
items4: OUT w7 items_x
    LDI w7 0
    IREALLOC w1 w3 w2 items5 ; tried
items5: OUT w7 items_x
    LDI w7 0
    IREALLOC w6 w1 w2 items6 ; tried
items6: OUT w7 items_x
    LDI w7 0
    IREALLOC w6 w3 w4 items7 ; tried
items7: OUT w7 items_x
    LDI w7 0
    IINS w1 w3 w0 w2 items8 ; tried
items8: OUT w7 items_x
    LDI w7 0
    IINS w6 w1 w0 w2 items9 ; tried
items9: OUT w7 items_x
    LDI w7 0
    IINS w6 w3 w4 w2 items10 ; tried
items10: OUT w7 items_x
    LDI w7 0
    IINS w6 w3 w0 w4 items11 ; tried
items11: OUT w7 items_x
    LDI w7 0
    IDEL w1 w3 w0 w2 items12 ; tried
items12: OUT w7 items_x
    LDI w7 0
    IDEL w6 w1 w0 w2 items13 ; tried
items13: OUT w7 items_x
    LDI w7 0
    IDEL w6 w3 w2 w2 items14 ; tried
items14: OUT w7 items_x
    LDI w7 0
    ILOCK s0 p0 w1 w3 2 items15 ; tried
    IUNLOCK s0
items15: OUT w7 items_x
    LDI w7 0
    ILOCK s0 p0 w6 w1 2 items16 ; tried
    IUNLOCK s0
items16: OUT w7 items_x
    LDI w7 0
    ILOCK s0 p0 w6 w3 3 items17 ; tried
    IUNLOCK s0
items17: OUT w7 items_x
    LDI w7 0
    ISETMAP w1 w3 items18 ; tried
items18: OUT w7 items_x
    LDI w7 0
    ISETMAP w0 w3 items19 ; tried
items19: OUT w7 items_x
    ILOCK s0 p0 w6 w3 2 items_x
    LDI w7 0
    GFREE w6 kept ; tried
kept: OUT w7 leave
leave: IUNLOCK s0
items_x: RET
