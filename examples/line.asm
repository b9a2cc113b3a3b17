; Lines of letters, each the one chunk of a block of its own; so its handle is 16 in each block. A script gets the handle of
; a line's block, and passes it to the other routines.

; Makes an empty line, and prints its handle.
routine open public budget 7
        MNEW s0 w0 not_made
        LDI w1 0
        LALLOC s0 w2 w1 undo           ; a chunk of no bytes
        OUT w0 undo
        MUNLOCK s0
        RET
undo:
        MUNLOCK s0
        MFREE w0 not_made
not_made:
        RET

; Inserts the letter w2 before the letter at w1 of the line w0; prints the refusal's number if there is no such place.
routine insert public budget 9
        MLOCK s0 w0 not_inserted
        LDI w3 16
        LDI w4 1
        LINS s0 w3 w1 w4 unlock        ; one zero byte at w1
        DEREF s0 p0 w3 1 unlock        ; LINS may move the chunk: fetch it again
        STCB w2 p0 w1 unlock           ; tested at run time, since nothing is known of w1
        MUNLOCK s0
        RET
unlock:
        MUNLOCK s0
not_inserted:
        OUT w7 insert_end
insert_end:
        RET

; Deletes w2 letters at w1 of the line w0; prints the refusal's number if they do not exist.
routine delete public budget 6
        MLOCK s0 w0 not_deleted
        LDI w3 16
        LDEL s0 w3 w1 w2 still_there
        MUNLOCK s0
        RET
still_there:
        MUNLOCK s0
not_deleted:
        OUT w7 delete_end
delete_end:
        RET

; Cuts the line w0 to w1 letters; if it has fewer, zeros are appended.
routine cut public budget 5
        MLOCK s0 w0 cut_end
        LDI w2 16
        LREALLOC s0 w2 w1 cut_done
cut_done:
        MUNLOCK s0
cut_end:
        RET

; Appends a copy of the line w1 to the line w0, if these are two lines and the copy has at most 100 letters.
routine join public budget 521
        MLOCK s0 w0 join_end
        MLOCK s1 w1 one
        SNE s0 s1 both                 ; continues if they are two blocks, and the row knows this from there on
        LDI w2 16
        DEREF s1 p1 w2 0 both
        PLEN w3 p1                     ; how many letters are inserted
        CHK w3 100 both
        LSIZE s0 w4 w2 both            ; and where
        LINS s0 w2 w4 w3 both          ; moves chunks of s0: p1 leads into another block, and stays valid
        DEREF s0 p0 w2 0 both
        LDI w5 0
        LDI w6 1
        SETKW k0 w3
letter:
        LDCB w1 p1 w5 both             ; refused after the last letter, which ends the loop
        STCB w1 p0 w4 both
        ADD w4 w4 w6
        ADD w5 w5 w6
        LOOP k0 letter
both:
        MUNLOCK s1
one:
        MUNLOCK s0
join_end:
        RET

; Prints the letters of the line w0, of at most 100.
routine print public budget 408
        MLOCK s0 w0 print_end
        LDI w1 16
        DEREF s0 p0 w1 0 printed
        LDI w2 0
        LDI w3 1
        SETK k0 99
next:
        LDCB w4 p0 w2 printed
        OUT w4 printed
        ADD w2 w2 w3
        LOOP k0 next
printed:
        MUNLOCK s0
print_end:
        RET

; Frees the line w0. Its handle may be given to the next line that is made.
routine close public budget 2
        MFREE w0 close_end
close_end:
        RET
