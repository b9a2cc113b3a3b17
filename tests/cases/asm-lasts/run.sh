# OUT of `asm` and `budget` lasts when the command has ended: the file is synced, and then its folder. If the first sync fails, OUT is as it
# was; if the second one fails, what was made is removed, and what was replaced is the new file.
export LC_ALL=C
folder=$(mktemp -d)
trap 'rm -rf "$folder"' EXIT
cd "$folder" || exit 1
program=$1
cc -O -shared -fPIC -o failing.so "$top/tests/failing.c" -ldl || exit 1
printf 'routine one public budget ?\n        RET\n' >text
printf 'routine one public budget 1\n        RET\n' >budgeted
"$program" asm "$top/examples/add.asm" before
mkdir made

# is_it: what OUT is
is_it() {
    if [ ! -e made/out ]; then echo nothing
    elif cmp -s before made/out; then echo the file from before
    elif cmp -s budgeted made/out; then echo the new text
    elif [ "$("$program" list made/out 2>/dev/null | grep -c routine)" -eq 1 ]; then echo the new image
    else echo something
    fi
}

# does FILE COMMAND: the command onto the file, or onto nothing, without a fault, and with each sync failing
does() {
    for failing in 'fsync 9 9 fail' 'fsync 1 1 fail' 'fsync 2 2 fail'; do
        rm -rf made calls
        mkdir made
        [ "$1" = nothing ] || cp "$1" made/out
        FAILING=$failing CALLS=calls LD_PRELOAD=./failing.so "$program" "$2" "$3" made/out 2>said
        echo "$2 onto $1, $failing: status $?, $(cat said), $(is_it), $(grep -c fsync calls) syncs, $(ls -A made | wc -l) files"
    done
}

does nothing asm budgeted
does before asm budgeted
does nothing budget text
does before budget text
