; Accounts in the VM file. An account is a block whose user ID is the account's number, with a chunk for its money, a word; that is
; the first chunk of its block, and has the handle 16. A payment is atomic.

; Opens the account w0 with the money w1, if it does not exist; prints the refusal's number if it can't.
routine open public budget 14
        LDI w2 0
        VFIND w3 w2 w0 not_made        ; the lowest handle above 0 with this user ID
        BEQ w3 w2 make
        RET
make:
        VNEW s0 w3 w0 not_made         ; marked, since it is new
        LDI w4 2
        LALLOC s0 w5 w4 undo
        DEREF s0 p0 w5 2 undo
        STW w1 p0 0
        VUNLOCK s0
        VSAVE not_saved
        RET
not_saved:
        VREVERT not_made               ; restores the saved blocks
        JMP not_made
undo:
        VUNLOCK s0
        VFREE w3 not_made
not_made:
        OUT w7 open_end
open_end:
        RET

; Pays w2 from the account w0 to the account w1. Prints 1 if this is done and saved, and 0 if it can't be done. If it can neither
; be saved nor undone, all of it is in memory, and the refusal's number is printed.
routine pay public budget 26
        LDI w3 0
        VFIND w4 w3 w0 none            ; 0 if there is no such account: VLOCK is refused
        VLOCK s0 w4 none
        VFIND w4 w3 w1 one
        VLOCK s1 w4 one
        SNE s0 s1 both                 ; to `both` if they are one account
        LDI w5 16
        DEREF s0 p0 w5 2 both
        DEREF s1 p1 w5 2 both
        LDW w4 p0 0
        BLT w4 w2 both                 ; the account has less money
        SUB w4 w4 w2
        LDW w5 p1 0
        ADD w5 w5 w2
        BLT w5 w2 both                 ; the sum exceeds a word
        VDIRTY s0                      ; each mark comes before its store
        VDIRTY s1
        STW w4 p0 0                    ; from here on only the save can be refused
        STW w5 p1 0
        VUNLOCK s1                     ; no block of the file may be locked at a commit
        VUNLOCK s0
        VSAVE unsaved
        LDI w3 1
        OUT w3 paid
paid:
        RET
unsaved:
        VREVERT kept                   ; the accounts are unchanged
        JMP none
kept:
        OUT w7 paid
        RET
both:
        VUNLOCK s1
one:
        VUNLOCK s0
none:
        OUT w3 paid
        RET

; Prints the number and the money of each account whose block has a handle up to 20.
routine list public budget 185
        LDI w0 1
        LDI w1 1
        LDI w2 16
        SETK k0 19
next:
        VUID w3 w0 next_one
        VLOCK s0 w0 next_one
        DEREF s0 p0 w2 2 unread
        LDW w4 p0 0
        OUT w3 unread
        OUT w4 unread
unread:
        VUNLOCK s0
next_one:
        ADD w0 w0 w1
        LOOP k0 next
        RET
