routine seventeen_letters budget 3
        OUT w0 end
end:    RET
