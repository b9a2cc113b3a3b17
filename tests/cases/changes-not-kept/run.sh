# Changed blocks that no commit keeps are counted with --diagnostics, and only then; --update and --save commit at the end of a script or a
# call, unless a fault ended it.
export LC_ALL=C
folder=$(mktemp -d)
trap 'rm -rf "$folder"' EXIT
cd "$folder" || exit 1
program=$1
text=$top/examples/counter.asm
"$program" new a.vm --area 512
said() {
    echo "\$ geos $*"
    "$program" "$@" 2>&1
    echo "status $?"
}
cp "$text" counter.asm
said call counter.asm --file a.vm start </dev/null
said call counter.asm --file a.vm start --diagnostics </dev/null
printf 'call start\ncall count\n' >script
said run counter.asm a.vm script --diagnostics
said run counter.asm a.vm script --update --diagnostics
printf 'call count\nupdate\n' | said call counter.asm --file a.vm --diagnostics
said call counter.asm count --file a.vm --update </dev/null
said call counter.asm count --file a.vm --save </dev/null
said call counter.asm count --file a.vm </dev/null
printf 'revert\ncall count\n' | said call counter.asm --file a.vm
echo "not with a fault:"
printf 'call count -> n\ncall start -> n\ncall count $n\n' | said call counter.asm --file a.vm --update --diagnostics
said call counter.asm count --file a.vm </dev/null
echo "wrong words:"
said call counter.asm count --update </dev/null | sed -n '2,4p;$p'
said call counter.asm count --file a.vm --update --save </dev/null | sed -n '2p;$p'
said run counter.asm a.vm script --save --update </dev/null | sed -n '2,4p;$p'
echo "too long:"
cat >big.asm <<'E2'
routine big public budget ?
        LDI w1 1
        VNEW s0 w0 w1 end
        LDI w2 600
        LALLOC s0 w3 w2 undo
undo:   VUNLOCK s0
end:    RET
E2
said call big.asm big --file a.vm --update --diagnostics </dev/null
said call counter.asm count --file a.vm </dev/null
