routine add public budget 3
        JMP done
        OUT w0 end
end:    RET
