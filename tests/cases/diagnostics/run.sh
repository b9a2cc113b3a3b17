# With --diagnostics the line of a fault is followed by lines that editors read: FILE:LINE:COLUMN: error: for each faulty line, FILE:LINE:
# error: for each refusal and for a routine without rows, and of an image without a text its routine and pc. Without the flag, and if
# standard error is no terminal, there is only the first line.
export LC_ALL=C
cases=$(cd "$(dirname "$0")" && pwd)
program=$(readlink -f "$1")
folder=$(mktemp -d)
trap 'rm -rf "$folder"' EXIT
cp "$cases"/*.asm "$folder"
cd "$folder" || exit 1

# said WORD..: what is said on standard error, and the status
said() {
    echo "\$ geos $*"
    "$program" "$@" 2>&1 >printed </dev/null
    echo "status $?"
}

said call faulty.asm f
said call faulty.asm f --diagnostics
for command in "call stale.asm f" "check stale.asm" "trace stale.asm f"; do
    said $command --diagnostics
done
said asm stale.asm stale.image --diagnostics
said check stale.image --diagnostics
said asm apart.asm out --diagnostics
said budget apart.asm --diagnostics
said list nothing.asm --diagnostics
said asm stale.asm nowhere/out --diagnostics
"$program" new a.vm --area 512
printf 'GRT1 is no image' >image
said budget image --diagnostics
printf '\377\376r\0' >utf16.asm
said list utf16.asm --diagnostics
said call a.vm f --diagnostics
said dump stale.asm --diagnostics
said --diagnostics dump stale.asm
awk 'BEGIN { print "routine f public budget 1"; for (i = 0; i < 30; i++) print "NOP" }' >many.asm
said asm many.asm out --diagnostics | sed -n '2,3p;20,$p'
printf 'routine f public budget 1\n' >'a
b.asm'
said check 'a
b.asm' --diagnostics
echo "on a terminal, and with NO_COLOR:"
script -qec "'$program' check stale.asm" /dev/null </dev/null | tr -d '\r' | sed 's/\x1b/ESC/g'
NO_COLOR=1 script -qec "'$program' check stale.asm" /dev/null </dev/null | tr -d '\r'
