routine a budget 1,000
        RET
