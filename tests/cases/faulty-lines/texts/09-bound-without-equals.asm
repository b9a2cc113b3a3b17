routine add public budget 3
in w0<9
        OUT w0 end
end:    RET
