# With --diagnostics a text is warned of for a register that comes twice in a line `in` or `out`, of which the last item counts; and a call by
# its name for numbers that are missing for words of the line `in`, or that the routine does not read, as a line of a script is. None with
# --no-warnings; no status changes.
export LC_ALL=C
folder=$(mktemp -d)
trap 'rm -rf "$folder"' EXIT
program=$(readlink -f "$1")
cd "$folder" || exit 1
said() {
    echo "\$ geos $*"
    "$program" "$@" 2>&1 </dev/null
    echo "status $?"
}
cat >lines.asm <<'E2'
routine scaled public budget ?
        in w0<=1 w1<=5 w0<=2
        LDI w3 7
        ADD w0 w0 w1
        OUT w0 end
end:    RET
routine sum public budget ?
        ADD w0 w0 w1
        OUT w0 done
done:   RET
routine nothing public budget ?
        RET
routine calls public budget ?
        CALL sum
        RET
E2
said check lines.asm --diagnostics
said check lines.asm --diagnostics --no-warnings
said check lines.asm
"$program" check lines.asm --json | sed -n 's/.*"kind":"warning".*"line":\([0-9]*\),"column":\([0-9a-z]*\).*"message":"\([^"]*\)".*/\1 \2 \3/p'
said call lines.asm scaled 1 4 --diagnostics | grep -v ':[0-9]*: warning'
said call lines.asm scaled 1 --diagnostics | grep -v ':[0-9]*: warning'
said trace lines.asm scaled --steps 0 --diagnostics | grep -v ':[0-9]*: warning'
for words in "sum 1 2" "sum 1 2 3" "sum 1" "nothing 5" "calls 1 2 3 4" "scaled 1 2 3" "sum 1 2 3 --no-warnings"; do
    said call lines.asm $words --diagnostics | grep -v ':[0-9]*: warning'
done
"$program" budget lines.asm full.asm && "$program" asm full.asm lines.image
said call lines.image sum 1 2 3 --diagnostics
said call lines.image sum 1 2 3
"$program" call lines.image sum 1 2 3 --json
echo "in a script:"
printf 'call scaled 1 4\ncall scaled 1\n; call sum 1 2 3\ncall sum 1 2 3\ncall nothing ; 1 2\n' >script
for words in "--diagnostics" "--diagnostics --no-warnings" ""; do
    echo "\$ geos call lines.asm $words <script"
    "$program" call lines.asm $words <script 2>&1 | grep -v '^lines.asm'
done
"$program" new a.vm --area 512
said run lines.image a.vm script --diagnostics
"$program" call lines.image --json <script | sed -n 's/.*"kind":"warning","file":"-","line":\([0-9]*\),.*"message":"\([^"]*\)".*/\1 \2/p'
awk 'BEGIN { for (i = 0; i < 22; i++) print "call nothing 1" }' >many
said run lines.image a.vm many --diagnostics | sed -n '2p;21,$p'
