routine one public budget 0
        RET
routine calls public budget 1
        CALL later
        RET
routine later public budget 0
        RET
