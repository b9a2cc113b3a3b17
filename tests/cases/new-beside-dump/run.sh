# A file that is still being made is none for others: they find no file, or the whole one. Each `fdatasync` of `new` takes a second.
export LC_ALL=C
folder=$(mktemp -d)
trap 'rm -rf "$folder"' EXIT
cd "$folder" || exit 1
program=$1
strace -o /dev/null true 2>/dev/null || {
    echo "the system lets no program look at another's calls" >&2
    exit 77
}
"$program" asm "$top/tests/cases/asm-file-block/kept.asm" kept.image
echo call get >get.script
strace -f -o /dev/null -e inject=fdatasync:delay_enter=1000000 "$program" new file.vm --area 512 &
while ! ls -A | grep -q '^\.geos-part-' && [ ! -e file.vm ]; do sleep 0.05; done
"$program" dump file.vm 2>&1
"$program" run kept.image file.vm get.script 2>&1
"$program" map file.vm 2>&1
# Another `new` does not wait for it, and one of the two makes the file.
"$program" new file.vm --area 1024
echo "status $?"
wait $!
echo "status $?"
"$program" dump file.vm
wc -c <file.vm
ls -A
# Many at once.
for n in 1 2 3 4 5 6 7 8; do
    (
        "$program" new one.vm --area 512 2>/dev/null
        echo "status $?"
    ) &
done | sort | uniq -c
ls -A

# A file system without links.
strace -f -o /dev/null -e inject=link,linkat:error=EPERM "$program" new renamed.vm --area 512
echo "status $?"
"$program" dump renamed.vm
strace -f -o /dev/null -e inject=link,linkat:error=EPERM "$program" new renamed.vm --area 512
echo "status $?"
ls -A
