# Where standard streams are closed, no file gets their numbers: nothing is read of a VM file as if it were a stream, and nothing that is put
# out goes into one. A stream that is wanted can't be read, or can't be written.
export LC_ALL=C
folder=$(mktemp -d)
trap 'rm -rf "$folder"' EXIT
cd "$folder" || exit 1
program=$1
"$program" asm "$top/tests/cases/asm-file-block/kept.asm" kept.image
"$program" new file.vm --area 512
printf 'call put 7\nsave\n' | "$program" run kept.image file.vm -
echo call get >get.script
sums=$(cksum file.vm kept.image get.script)

# what was said, and the status; the files are as they were
said() {
    status=$?
    [ ! -s said ] || cat said
    [ ! -s printed ] || cat printed
    echo "$1: status $status"
    [ "$(cksum file.vm kept.image get.script)" = "$sums" ] || echo "a file has changed"
    : >said
    : >printed
}

"$program" run kept.image file.vm get.script <&- >&- 2>said
said "run, without input and output"
"$program" run kept.image file.vm get.script >&- 2>said
said "run, without output"
"$program" run kept.image file.vm get.script <&- >printed 2>said
said "run, without input"
"$program" run kept.image file.vm - <&- >printed 2>said
said "run of a script from a closed input"
"$program" run - file.vm get.script <&- >printed 2>said
said "run of an image from a closed input"
"$program" dump file.vm <&- >&- 2>said
said "dump, without input and output"
"$program" map file.vm >&- 2>said
said "map, without output"
"$program" run kept.image file.vm get.script <&- >&- 2>&-
said "run, without any"
"$program" dump no-file.vm 2>&-
said "a fault, without standard error"
"$program" list - <&- >printed 2>said
said "list of a closed input"
"$program" check kept.image <&- >&- 2>said
said "check, without input and output"
"$program" explain kept.image >&- 2>said
said "explain, without output"
"$program" asm - made.image <&- 2>said
said "asm of a closed input"
"$program" asm "$top/examples/add.asm" - >&- 2>said
said "asm onto a closed output"
"$program" asm "$top/examples/add.asm" made.image <&- >&- 2>&-
said "asm, without any"
"$program" check made.image
"$program" new made.vm <&- >&- 2>&-
said "new, without any"
"$program" dump made.vm
"$program" <&- >printed 2>said
said "a session from a closed input"
"$program" <"$top/examples/add.session" >&- 2>said
said "a session onto a closed output"
"$program" --help >&- 2>said
said "help, without output"
"$program" nonsense 2>&-
said "a word that is none, without standard error"
