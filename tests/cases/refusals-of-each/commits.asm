; Commits that the file has no room for, or that the device fails at.
routine put public budget 20
    LDI w1 5
    VNEW s0 w0 w1 put_e
    VUNLOCK s0
put_e: RET

routine commits public budget 40
    LDI w7 0
    VUPDATE commits1 ; tried
commits1: OUT w7 commits_x
    LDI w7 0
    VUPDATE commits2 ; tried
commits2: OUT w7 commits_x
    LDI w7 0
    VSAVE commits3 ; tried
commits3: OUT w7 commits_x
    LDI w7 0
    VREVERT commits4 ; tried
commits4: OUT w7 commits_x
commits_x: RET
