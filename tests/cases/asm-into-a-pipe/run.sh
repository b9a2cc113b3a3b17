# What is no regular file is written into, by whatever path it is reached: the standard output as a pipe, a pipe with a name, and a link to it.
# A file that has no name any more is written into, too.
folder=$(mktemp -d)
trap 'rm -rf "$folder"' EXIT
cd "$folder" || exit 1
program=$(readlink -f "$1")
text=$top/examples/add.asm
"$program" asm "$text" image

for path in /dev/stdout /dev/fd/1 /proc/self/fd/1; do
    "$program" asm "$text" $path | cmp - image && echo "$path is a pipe"
done
mkfifo pipe
ln -s pipe link
for path in pipe link; do
    "$program" asm "$text" $path &
    timeout 60 cmp pipe image && echo "$path"
    wait
done
[ -p pipe ] && [ -L link ] && echo "they stay"
"$program" asm "$text" /dev/null && [ -c /dev/null ] && echo "/dev/null stays"

echo before >there
"$program" asm "$text" /dev/stdout >there
cmp there image && echo "a file"
exec 3>gone 4<gone
rm gone
"$program" asm "$text" /dev/fd/3
cmp image - <&4 && echo "a file without a name"

# Nobody reads the pipe any more.
{
    while [ ! -e closed ]; do sleep 0.01; done
    "$program" asm "$text" /dev/stdout 2>said
    echo "status $?" >>said
} | {
    exec <&-
    : >closed
}
cat said
ls
