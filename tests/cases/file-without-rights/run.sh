# A file that may only be read is printed, and not run on; one that may not be read is neither. No file is made where none may be.
export LC_ALL=C
folder=$(mktemp -d)
trap 'rm -rf "$folder"' EXIT
cd "$folder" || exit 1
cp "$1" geos
./geos asm "$top/tests/cases/asm-file-block/kept.asm" kept.image
./geos new readable.vm --area 512
printf 'call put 1\nupdate\n' | ./geos run kept.image readable.vm -
cp readable.vm unreadable.vm
echo call get >get.script
chmod 755 . geos
chmod 444 readable.vm kept.image get.script
chmod 000 unreadable.vm

# Root may do all: so it becomes another.
as=
if [ "$(id -u)" -eq 0 ]; then
    as="setpriv --reuid 65534 --regid 65534 --clear-groups"
else
    chmod 555 .
fi
$as true 2>/dev/null || {
    echo "the system does not let root become another" >&2
    exit 77
}
sums=$(cksum readable.vm)
for command in "run kept.image readable.vm get.script" "dump readable.vm" "run kept.image unreadable.vm get.script" \
    "dump unreadable.vm" "map unreadable.vm" "new other.vm"; do
    $as ./geos $command 2>&1
    echo "status $?"
done
chmod 755 .
[ "$(cksum readable.vm)" = "$sums" ] || echo "it has changed"
[ -e other.vm ] && echo "it was made"
exit 0
