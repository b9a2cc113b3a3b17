routine add public steps 3
        OUT w0 end
end:    RET
