routine add public budget 3
        CALL inc
        OUT w0 end
end:    RET
