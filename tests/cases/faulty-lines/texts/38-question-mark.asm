routine add public budget ?
        OUT w0 end
end:    RET
