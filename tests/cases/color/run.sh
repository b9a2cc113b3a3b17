# With `--color always` and `--color never` diagnostics are coloured or not. With `--color auto`, and without the option, they are coloured
# on a terminal, unless NO_COLOR is set.
export LC_ALL=C
folder=$(mktemp -d)
trap 'rm -rf "$folder"' EXIT
cd "$folder" || exit 1
program=$(readlink -f "$1")
unset NO_COLOR
cat >lost.asm <<'E2'
routine lost public budget ?
        in w0<=9
        LDI w1 5
        VNEW s0 w0 w2 end
        VUNLOCK s0
        OUT w0 end
end:    RET
E2
"$program" new file.vm
echo 'call lost' >script

# said WORD..: what is said on standard error, and the status
said() {
    echo "\$ geos $*"
    "$program" "$@" 2>&1 >/dev/null </dev/null | sed 's/\x1b/ESC/g'
}
# shown WORD..: what a terminal shows
shown() {
    echo "\$ geos $* on a terminal"
    script -qec "'$program' $*" /dev/null </dev/null | tr -d '\r' | sed 's/\x1b/ESC/g'
}
said check lost.asm --diagnostics --color always
said --color=always run lost.asm file.vm script --diagnostics
said call lost.asm lost --color always --diagnostics
said call nowhere.asm lost --diagnostics --color always
said check lost.asm --diagnostics --color auto
said check lost.asm --color always
shown check lost.asm --color auto
shown check lost.asm --color never
NO_COLOR=1 shown check lost.asm
NO_COLOR=1 shown --color always check lost.asm
"$program" check lost.asm --color sometimes 2>&1
echo "status $?"
