# With --diagnostics `call` and `run` report each bad line of a script, SCRIPT:LINE:COLUMN: error: .., at most 20, then a count. A line that is
# bad only by what a name has in the run is reported alone. Without --diagnostics there is one line.
export LC_ALL=C
here=$(cd "$(dirname "$0")" && pwd)
program=$(readlink -f "$1")
folder=$(mktemp -d)
trap 'rm -rf "$folder"' EXIT
cp "$here/text.asm" "$folder"
cd "$folder" || exit 1
said() {
    echo "\$ geos $*"
    "$program" "$@" 2>&1
    echo "status $?"
}
printf 'call add 2 3\ncall ad 2 3\ncal add\n  call small 10\ncall peek\ncall add $h 1\ncall hidden\n' >bad.script
said call text.asm <bad.script
said call text.asm --diagnostics <bad.script
"$program" new file.vm --area 512
said run text.asm file.vm bad.script --diagnostics
said run text.asm file.vm - --diagnostics --vars <bad.script
printf 'call none -> h\ncall add $h 1\n' >late.script
said call text.asm --diagnostics <late.script
awk 'BEGIN { for (i = 0; i < 23; i++) print "go" }' | said call text.asm --diagnostics | sed -n '2,3p;22,$p'
said call text.asm --json <bad.script
