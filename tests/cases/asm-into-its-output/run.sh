# Where OUT is the file that the standard output goes into, by whatever path, the image is written into that as to `-`: what is there, and
# what others write behind it, stays. What standard error goes into is not replaced.
export LC_ALL=C
folder=$(mktemp -d)
trap 'rm -rf "$folder"' EXIT
cd "$folder" || exit 1
program=$(readlink -f "$1")
text=$top/examples/add.asm
"$program" asm "$text" image
{ echo head; cat image; echo tail; } >wanted
ln -s log link

for path in /dev/stdout /dev/fd/1 /proc/self/fd/1 log ./log link; do
    echo head >log
    "$program" asm "$text" "$path" >>log
    echo "$path: status $?"
    echo tail >>log
    cmp wanted log
    (
        echo head
        "$program" asm "$text" "$path"
        echo tail
    ) >log
    cmp wanted log
done
echo head >log
"$program" asm "$text" log >>log 2>&1
echo tail >>log
cmp wanted log

for path in /dev/stderr /proc/self/fd/2 log; do
    echo head >log
    "$program" asm "$text" "$path" 2>>log
    echo "$path: status $?"
    cat log
done
# One that it fills.
(trap '' XFSZ; ulimit -f 0; "$program" asm "$text" log 2>&1 >log) | cat
ls -A
