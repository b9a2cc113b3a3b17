; p0 is fetched, and then a chunk is made in its block
routine f public budget 9
        MNEW s0 w0 none
        LALLOC s0 w1 w2 end
        DEREF s0 p0 w1 4 end
        LALLOC s0 w1 w2 end
        STW w0 p0 0
end:    MUNLOCK s0
none:   RET
