; The user ID of groups, a group where a block is wanted, no block; an item without a group, a group that is not there.
routine a public budget 40
    LDI w1 65280
    VNEW s0 w0 w1 reserved
    VUNLOCK s0
reserved: OUT w7 end
    GNEW w0 end
    VLOCK s0 w0 group
    VUNLOCK s0
group: OUT w7 end
    LDI w0 0
    VLOCK s0 w0 nothing
    VUNLOCK s0
nothing: OUT w7 end
    LDI w1 5
    ISETMAP w0 w1 range
range: OUT w7 end
    LDI w0 9
    LDI w1 0
    ISETMAP w0 w1 missing
missing: OUT w7 end
end: RET
