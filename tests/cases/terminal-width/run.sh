# On a terminal with 40 to 120 columns, as COLUMNS says, long lines of the help are broken between words. `map` draws as many columns as there
# are, from 60 to 1,000, and `dump` prints eight bytes a line if there are fewer than 67. Without a terminal COLUMNS changes nothing.
export LC_ALL=C
folder=$(mktemp -d)
trap 'rm -rf "$folder"' EXIT
cd "$folder" || exit 1
program=$(readlink -f "$1")

# shown COLUMNS WORD..: what a terminal shows
shown() {
    columns=$1
    shift
    COLUMNS=$columns script -qec "'$program' $*" /dev/null </dev/null | tr -d '\r'
}
# longest: the length of the longest line of the standard input
longest() {
    awk '{ if (length > most) most = length } END { print most + 0 }'
}
shown 60 help copy
shown 40 help VNEW
"$program" help map >plain.map
for command in "" call trace test asm budget fmt list check explain new copy run put get dump diff map shell lsp; do
    "$program" help $command >plain
    COLUMNS=50 "$program" help $command | cmp - plain
    for columns in 40 79 120; do
        shown $columns help $command >broken
        [ "$(longest <broken)" -le $columns ] || echo "help $command: $(longest <broken) columns, and not $columns"
        tr -s ' \n' '\n' <broken >words
        tr -s ' \n' '\n' <plain | cmp - words
    done
done
for columns in 39 121 0 x ""; do
    shown "$columns" help map | cmp - plain.map
done
"$program" asm "$top/tests/cases/asm-file-block/kept.asm" kept.image
"$program" new kept.vm
printf 'call put 1\nupdate\n' | "$program" run kept.image kept.vm -
for columns in 59 60 80 133 1000 1001 ""; do
    echo "map in $columns: $(shown "$columns" map kept.vm | longest)"
done
echo "map --width 70 in 100: $(shown 100 map kept.vm --width 70 | longest)"
COLUMNS=100 "$program" map kept.vm | longest
printf 'a line has sixteen bytes,\nor eight if it is short' >text
"$program" put kept.vm --new-block 7 <text
shown 66 dump kept.vm 2
shown 67 dump kept.vm 2
shown 66 dump kept.vm 2 16 | sed 1d >short
xxd -c 8 text | cmp - short
COLUMNS=66 "$program" dump kept.vm 2 16 | sed 1d | cut -c-20
"$program" diff kept.vm kept.vm
