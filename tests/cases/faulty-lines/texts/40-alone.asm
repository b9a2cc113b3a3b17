routine add public budget 3
        LCONTRACT
        OUT w0 end
end:    RET
