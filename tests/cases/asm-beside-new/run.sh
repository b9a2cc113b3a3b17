# A file that comes where `asm` found none, while that is at work, is not replaced, whoever makes it. The `fsync` of `asm` takes a second.
export LC_ALL=C
folder=$(mktemp -d)
trap 'rm -rf "$folder"' EXIT
cd "$folder" || exit 1
program=$1
strace -o /dev/null true 2>/dev/null || {
    echo "the system lets no program look at another's calls" >&2
    exit 77
}
ln -s behind link

# beside OUT COMMAND..: an `asm` onto OUT, and the command while it is at work
beside() {
    strace -f -o /dev/null -e inject=fsync:delay_enter=1000000 "$program" asm "$top/examples/add.asm" "$1" 2>said &
    shift
    while ! ls -A | grep -q '^\.geos-part-'; do sleep 0.05; done
    "$@"
    echo "status $?"
    wait $!
    echo "asm: status $?"
    cat said
    ls -A
}

beside out "$program" new out --area 512
"$program" dump out
beside link "$program" new behind --area 512
"$program" dump link
beside text cp "$top/examples/add.asm" text
cmp "$top/examples/add.asm" text
rm text
beside text true
"$program" check text

# A file system without links.
strace -f -o /dev/null -e inject=link,linkat:error=EPERM "$program" asm "$top/examples/add.asm" renamed
echo "status $?"
"$program" check renamed
ls -A
