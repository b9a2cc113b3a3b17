#line 3 "double.m4"
routine double public budget 9
        LDI w3 7
#line 20
        BEQ w0 w1 done
        ADD w0 w0 w0
done:   OUT w0 end
end:    RET
