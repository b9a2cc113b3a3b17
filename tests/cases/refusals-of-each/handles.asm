; No handle is free.
routine memory public budget 9000
    SETK k0 2000
memory_more: MNEW s0 w0 memory_full ; tried
    MUNLOCK s0
    LOOP k0 memory_more
memory_full: OUT w7 memory_x
memory_x: RET

routine file public budget 9000
    LDI w1 5
    SETK k0 2000
file_more: VNEW s0 w0 w1 file_full ; tried
    VUNLOCK s0
    LOOP k0 file_more
file_full: OUT w7 file_x
    LDI w7 0
    GNEW w7 file1 ; tried
file1: OUT w7 file_x
file_x: RET
