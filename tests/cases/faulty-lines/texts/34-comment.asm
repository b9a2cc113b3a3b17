routine add public budget 3
        # adds
        OUT w0 end
end:    RET
