routine add public
        OUT w0 end
end:    RET
