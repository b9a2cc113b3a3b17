routine add public budget 3
end:    OUT w0 end
end:    RET
