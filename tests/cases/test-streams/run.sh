# Streams that are closed, full, or files that are read.
export LC_ALL=C
folder=$(mktemp -d)
trap 'rm -rf "$folder"' EXIT
program=$(readlink -f "$1")
text=$top/tests/cases/vars/routines.asm
cd "$folder" || exit 1
printf 'call sum 1 2 => 3\n' >good
printf 'call sum 1 2 => 4\n' >wrong
"$program" new file.vm --area 512
sums=$(cksum good wrong file.vm)
for script in good wrong; do
    "$program" test "$text" $script 2>&1 >&-
    echo "closed: status $?"
    "$program" test "$text" $script 2>&1 >/dev/full
    echo "full: status $?"
done
"$program" test "$text" - 2>&1 <&-
echo "no input: status $?"
"$program" test "$text" good wrong 2>&- | cat
"$program" test "$text" good wrong 2>&1 >>wrong
echo "into a script: status $?"
"$program" test "$text" good --file file.vm 2>&1 >>file.vm
echo "into the file: status $?"
"$program" test "$text" missing good 2>>good
echo "faults into a script: status $?"
"$program" test "$text" missing --file file.vm 2>>file.vm
echo "faults into the file: status $?"
[ "$(cksum good wrong file.vm)" = "$sums" ] || echo "a file has changed"
