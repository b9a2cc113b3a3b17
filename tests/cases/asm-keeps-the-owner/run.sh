# A file that is replaced keeps its owner and its group where the system lets it, and else loses the bits that let it run as its owner or
# group, and the sticky one; in another group, also those of the group that others have not. While it is made nobody gets more rights to it.
export LC_ALL=C
folder=$(mktemp -d)
trap 'rm -rf "$folder"' EXIT
cd "$folder" || exit 1
[ "$(id -u)" -eq 0 ] && setpriv --reuid 65534 --regid 65534 --clear-groups true 2>/dev/null || {
    echo "only root can give files away" >&2
    exit 77
}
cp "$1" geos
cp "$top/examples/add.asm" add.asm
chmod 777 .
chmod 755 geos
chmod 644 add.asm
umask 022

# replaced OWNER MODE COMMAND..: an image of this owner and mode, behind the command
replaced() {
    echo before >image
    chown "$1" image
    chmod "$2" image
    shift 2
    "$@" ./geos asm add.asm image
    stat -c '%u:%g %a' image
    ./geos check image
    rm -f image
}

replaced 1234:2345 640
replaced 1234:2345 6755
replaced 0:2345 4750
replaced 0:0 4755
# Another user has no right to give it away, but to give it to a group of his.
as="setpriv --reuid 65534 --regid 65534"
replaced 65534:65534 4755 $as --clear-groups
replaced 1234:2345 7755 $as --clear-groups
replaced 1234:2345 6775 $as --groups 2345
for mode in 664 674 604 665; do replaced 1234:2345 $mode $as --clear-groups; done
replaced 1234:2345 660 $as --groups 2345
replaced 65534:2345 666 $as --clear-groups
replaced 65534:2345 660 $as --clear-groups
