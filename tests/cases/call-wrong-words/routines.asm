routine hidden budget 1
        RET
routine below_ten public budget 3
        in w1<=9
        OUT w1 end
end:    RET
