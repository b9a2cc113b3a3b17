routine f public budget 9
        MNEW s0 w0 end
end:    RET
