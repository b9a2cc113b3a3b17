routine add public budget
        ADD w0, w0 w1
        CHK w0 70000 end
        OUT w0 done
end:    rte
