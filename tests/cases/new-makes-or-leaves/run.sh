# A file is made whole or not at all, and one that is there stays as it is.
export LC_ALL=C
folder=$(mktemp -d)
trap 'rm -rf "$folder"' EXIT
cd "$folder" || exit 1
program=$1

# What is there, one a line, behind the status.
made() {
    "$program" new "$@" 2>&1 | head -n 1
    find . -mindepth 1 | LC_ALL=C sort
}

made no-folder/a.vm
echo text >a.vm
made a.vm
cat a.vm
rm a.vm
mkdir folder
made folder
rmdir folder
ln -s nowhere link
made link
rm link
made -
rm ./-
made ''
# A file may be no longer than 4,096 bytes: then no room is given for more.
(trap '' XFSZ; ulimit -f 8; made a.vm)
made a.vm --area 512
wc -c <a.vm
rm a.vm
made a.vm --area 16777216
wc -c <a.vm
for area in 0 511 513 16777217 4294967296 x; do
    "$program" new b.vm --area $area >/dev/null 2>&1
    echo "status $?"
done
exit 0
