# While a file is copied, others read it, and a command that changes it waits; the copy has what the file had. A copy that is not complete is
# no file for others. Each `fdatasync` of `copy` takes a second.
export LC_ALL=C
folder=$(mktemp -d)
trap 'rm -rf "$folder"' EXIT
cd "$folder" || exit 1
program=$1
strace -o /dev/null true 2>/dev/null || {
    echo "the system lets no program look at another's calls" >&2
    exit 77
}
"$program" asm "$top/tests/cases/asm-file-block/kept.asm" kept.image
"$program" new file.vm --area 512
printf 'call put 1\nupdate\n' | "$program" run kept.image file.vm -
strace -f -o /dev/null -e inject=fdatasync:delay_enter=1000000 "$program" copy file.vm new.vm &
copy=$!
while ! ls -A | grep -q '^\.geos-part-' && [ ! -e new.vm ]; do sleep 0.05; done
printf 'call put 2\nupdate\n' | "$program" run kept.image file.vm - &
run=$!
"$program" dump file.vm
"$program" dump new.vm 2>&1
wait $copy
echo "status $?"
wait $run
echo "status $?"
echo "the file:"
echo call get | "$program" run kept.image file.vm -
echo "the copy:"
echo call get | "$program" run kept.image new.vm -
ls -A

echo "many at once:"
for n in 1 2 3 4 5 6 7 8; do
    (
        "$program" copy file.vm one.vm 2>/dev/null
        echo "status $?"
    ) &
done | sort | uniq -c
[ "$("$program" dump --chunks file.vm)" = "$("$program" dump --chunks one.vm)" ] && ls -A

echo "a file system without links:"
strace -f -o /dev/null -e inject=link,linkat:error=EPERM "$program" copy new.vm renamed.vm
echo "status $?"
cmp new.vm renamed.vm
strace -f -o /dev/null -e inject=link,linkat:error=EPERM "$program" copy file.vm renamed.vm
echo "status $?"
cmp new.vm renamed.vm && ls -A
