; Routines that work on blocks of the VM file, which the script locks and lends them: `@` and a handle in a call.
; A block has a word in its first chunk, whose handle is 16.

; Makes a block with the word w0.
routine put public budget 8
        LDI w1 5                       ; a user ID
        VNEW s0 w2 w1 put_end
        LDI w1 2
        LALLOC s0 w3 w1 unlock
        DEREF s0 p0 w3 2 unlock
        STW w0 p0 0
unlock:
        VUNLOCK s0
put_end:
        RET

; Prints the word of a block.
routine peek public budget 5
        in s0=vm@
        out s0=vm@
        LDI w1 16
        DEREF s0 p0 w1 2 peek_end
        LDW w2 p0 0
        OUT w2 peek_end
peek_end:
        RET

; Stores w0 in a block.
routine poke public budget 5
        in s0=vm@
        out s0=vm@
        VDIRTY s0                      ; nothing is known of the mark of a block that is lent
        LDI w1 16
        DEREF s0 p0 w1 2 poke_end
        STW w0 p0 0
poke_end:
        RET

; Adds the word of the second block to that of the first. Both may be one block: nothing moves here.
routine add public budget 9
        in s0=vm@ s1=vm@
        out s0=vm@ s1=vm@
        VDIRTY s0
        LDI w1 16
        DEREF s0 p0 w1 2 add_end
        DEREF s1 p1 w1 2 add_end
        LDW w2 p0 0
        LDW w3 p1 0
        ADD w2 w2 w3
        STW w2 p0 0
add_end:
        RET

; Inserts the word of the second block before the word of the first, if these are two blocks.
routine insert public budget 10
        in s0=vm@ s1=vm@
        out s0=vm@ s1=vm@
        SNE s0 s1 insert_end           ; from here on p1 stays valid when the chunks of s0 move
        VDIRTY s0
        LDI w1 16
        DEREF s1 p1 w1 2 insert_end
        LDI w2 0
        LDI w3 2
        LINS s0 w1 w2 w3 insert_end
        DEREF s0 p0 w1 2 insert_end
        COPY p0 p1 2
insert_end:
        RET
