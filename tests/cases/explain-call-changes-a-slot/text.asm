routine note budget 9
        MNEW s0 w0 e
        MUNLOCK s0
e:      RET
routine away budget 9
        in s1=mem
        MUNLOCK s1
        RET
routine alone budget 9
        LDI w0 1
        RET
routine first public budget 90
        MNEW s0 w1 x
        CALL note
        MUNLOCK s0
x:      RET
routine second public budget 90
        MNEW s1 w1 y
        CALL away
        MUNLOCK s1
y:      RET
routine third public budget 90
        MNEW s2 w1 z
        CALL alone
        MUNLOCK s2
z:      RET
