; No numbers of steps pay for a loop without a counter: this text is not assembled.

routine forever public budget 3
again:
        OUT w0 x
        JMP again
x:
        RET
