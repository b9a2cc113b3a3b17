routine add public budget 3
        RET
end:
