; What is put out in a form.

; w0 + w1
routine add public budget 3
    ADD w0 w0 w1
    OUT w0 add_end
add_end: RET

; w0, then w1
routine both public budget 3
    OUT w0 both_end
    OUT w1 both_end
both_end: RET

; Nothing.
routine none public budget 1
    RET

; `Hi there`, and a line feed: one byte of the text, then two a word.
routine greet public budget 11
    LDI w0 72
    OUT w0 greet_end
    LDI w0 8297
    OUT w0 greet_end
    LDI w0 26740
    OUT w0 greet_end
    LDI w0 29285
    OUT w0 greet_end
    LDI w0 101
    OUT w0 greet_end
greet_end: RET
