# What calls have printed is out before a commit is made: a program that is killed behind it, in a call that runs for long, has printed it.
export LC_ALL=C
# In memory, if there is such a folder: a sync to a busy disk may take minutes.
folder=$(mktemp -d -p /dev/shm 2>/dev/null || mktemp -d)
trap 'rm -rf "$folder"' EXIT
cd "$folder" || exit 1
cat >text.asm <<'END'
routine out public budget 5
    OUT w0 x
x:  RET

; 4,225,130,002 steps.
routine long public budget 4294967295
    SETK k0 65000
a:  SETK k1 65000
b:  LOOP k1 b
    LOOP k0 a
    RET

routine keep public budget 5
    VUPDATE y
y:  RET
END
program=$1
"$program" asm text.asm image && "$program" new file.vm || exit 1

# killed LINE: runs a call that prints a word, the line, and calls that run for long, and kills the program when it has printed a line,
# or after a minute
killed() {
    { printf 'call out 7\n%s\n' "$1"; yes 'call long' | head -n 100; } >script
    "$program" run image file.vm script >out &
    tries=0
    until [ -s out ] || [ $tries -eq 600 ]; do
        sleep 0.1
        tries=$((tries + 1))
    done
    kill -KILL $!
    wait $! 2>/dev/null
    echo "$1: $(cat out)"
}

for line in update save revert 'call keep'; do
    killed "$line"
done
