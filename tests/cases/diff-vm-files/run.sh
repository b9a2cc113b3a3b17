# `diff` prints the lines of `dump --chunks` that two files do not share, and where they are; its status is 0 if nothing differs.
export LC_ALL=C
folder=$(mktemp -d)
trap 'rm -rf "$folder"' EXIT
cd "$folder" || exit 1
program=$1
"$program" asm "$top/tests/cases/asm-file-block/kept.asm" kept.image

# differ WORD..: what is printed, and the status
differ() {
    echo "diff $*:"
    timeout 60 "$program" diff "$@" 2>&1
    echo "status $?"
}

"$program" new one.vm
printf 'call put 1\ncall put 2\nsave\n' | "$program" run kept.image one.vm -
"$program" copy one.vm more.vm --area 1024
differ one.vm more.vm
printf 'call put 3\nupdate\n' | "$program" run kept.image more.vm -
differ one.vm one.vm
differ one.vm more.vm
differ more.vm one.vm
differ more.vm one.vm --saved
echo save | "$program" run kept.image more.vm -
differ more.vm one.vm --saved

echo "bytes:"
"$program" copy one.vm bytes.vm
printf Z | "$program" put bytes.vm 1 16 1
differ one.vm bytes.vm
"$program" copy bytes.vm other.vm
printf 'abcdefghijklmnopqrst' | "$program" put bytes.vm 2 16
printf 'abcdefghijklmnopqrsX' | "$program" put other.vm 2 16
differ bytes.vm other.vm
printf 'abcdefghijklmnop' | "$program" put other.vm 2 16
differ bytes.vm other.vm
"$program" new empty.vm
differ empty.vm bytes.vm --saved

echo "what can't be read:"
echo text >text
mkfifo pipe
for words in "missing.vm one.vm" "one.vm missing.vm" "text missing.vm" "one.vm text" "pipe one.vm" "one.vm pipe" "one.vm -"; do
    # shellcheck disable=SC2086
    differ $words
done
"$program" diff one.vm 2>&1 | head -n 1
"$program" diff one.vm more.vm 2>&1 >/dev/full
echo "status $?"
