# What a command that may commit has printed is out before the next one runs: a program that is killed behind it, in a call that runs for
# long, has printed it, and the file has what it kept.
export LC_ALL=C
# In memory, if there is such a folder: a sync to a busy disk may take minutes.
folder=$(mktemp -d -p /dev/shm 2>/dev/null || mktemp -d)
trap 'rm -rf "$folder"' EXIT
cd "$folder" || exit 1
{
    cat <<'END'
; 4,225,130,002 steps. No instruction that commits stands before its end.
routine long public budget 4294967295
    SETK k0 65000
a:  SETK k1 65000
b:  LOOP k1 b
    LOOP k0 a
    RET

END
    cat "$top/tests/cases/asm-file-block/kept.asm"
    cat <<'END'

routine say public budget 5
    OUT w0 said
said: RET

; Says its word, then keeps it.
routine sayup public budget 100
    OUT w0 say_put
say_put: CALL put
    VUPDATE kept
kept: RET
END
} >text.asm
program=$1
"$program" asm text.asm image || exit 1
yes 'call long' | head -n 100 >long

# killed NAME LAST: runs the script on a new file that has four blocks once and not twice, and then calls that run for long; kills the
# program when it has printed the line LAST, or after a minute
killed() {
    rm -f file.vm
    "$program" new file.vm --area 512
    cat script long >all
    : >out
    "$program" run image file.vm all >out &
    tries=0
    until grep -qx "$2" out || [ $tries -eq 600 ]; do
        sleep 0.1
        tries=$((tries + 1))
    done
    kill -KILL $!
    wait $! 2>/dev/null
    echo "$1:"
    cat out
    "$program" dump file.vm
}

printf 'call say 1\ncall sayup 3\n' >script
killed "a call" 3
printf 'call put 1\ncall put 2\ncall put 3\ncall put 4\nupdate\nsave\n' >script
killed "a refused commit" "refused 6"
