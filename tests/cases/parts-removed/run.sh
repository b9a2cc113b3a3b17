# Calls that look at a file, remove one or lock one fail, once or from then on: a part is removed, or a line says that it is there, with
# status 1. A command takes at most 100 names of parts, and removes each that it does not use.
export LC_ALL=C
folder=$(mktemp -d)
trap 'rm -rf "$folder"' EXIT
cd "$folder" || exit 1
program=$1
cc -O -shared -fPIC -o failing.so "$top/tests/failing.c" -ldl || exit 1
cp "$top/examples/add.asm" add.asm
"$program" asm add.asm image
mkdir made

# with FAILING COMMAND..: a run of which calls fail
with() (
    FAILING=$1 LD_PRELOAD=./failing.so
    shift
    export FAILING LD_PRELOAD
    exec "$program" "$@" 2>said
)

# parts: how many parts there are
parts() {
    ls -A made | grep -c '^\.geos-part-'
}

# is_right STATUS: with status 0 no part is left; with status 1 one line is said, and a part is left only if that says so
is_right() {
    case $1 in
    0) [ "$(parts)" -eq 0 ] && [ ! -s said ] ;;
    1) [ "$(wc -l <said)" -eq 1 ] && { [ "$(parts)" -eq 0 ] || grep -q '^cannot remove made/\.geos-part-0$' said; } ;;
    *) false ;;
    esac
}

# each CALL MOST COMMAND..: the call fails, each of the first so many by itself, and each with those that come later
each() {
    call=$1 most=$2
    shift 2
    for n in $(seq "$most"); do
        for last in "$n" 1000000; do
            rm -rf made
            mkdir made
            [ "$1" = new ] || [ "$2" = fresh ] || cp image made/out
            with "$call $n $last fail" "$1" $3
            status=$?
            is_right "$status" || echo "$1 $2: $call from $n to $last: status $status, $(parts) parts, $(cat said)"
            # A file that is there is whole.
            case $1 in
            new) [ ! -e made/out ] || "$program" dump made/out >found || echo "$1: $call from $n to $last: $(wc -c <made/out) bytes" ;;
            asm) [ ! -e made/out ] || "$program" check made/out >found || echo "$1 $2: $call from $n to $last: $(wc -c <made/out) bytes" ;;
            esac
        done
    done
}

each statx 45 asm fresh 'add.asm made/out'
each statx 45 asm there 'add.asm made/out'
each statx 45 budget fresh 'add.asm made/out'
each statx 45 new fresh 'made/out --area 512'
each unlink 3 asm fresh 'add.asm made/out'
each unlink 3 asm there 'add.asm made/out'
each unlink 3 new fresh 'made/out --area 512'

rm -rf made
mkdir made
for command in 'asm add.asm' 'budget add.asm' 'new --area 512'; do
    with 'unlink 1 1000000 fail' $command made/out
    echo "$command, nothing is removed: status $?, $(cat said), $(ls -A made | tr '\n' ' ')"
    rm -f made/out made/.geos-part-0
done

# Some program has the lock on each part that is made.
for command in 'asm add.asm' 'new --area 512'; do
    with 'flock 1 1000000 busy' $command made/out
    echo "$command, locked by another: status $?, $(cat said), $(parts) parts"
done
with 'flock 1 3 busy' asm add.asm made/out
echo "locked by another for a moment: status $?, $(parts) parts"
rm -f made/out

# Names of parts that are taken.
for n in $(seq 0 98); do mkdir "made/.geos-part-$n"; done
"$program" asm add.asm made/out
echo "99 are taken: status $?"
mkdir made/.geos-part-99
"$program" asm add.asm made/out 2>said
echo "100 are taken: status $?, $(cat said)"
"$program" new made/file.vm 2>said
echo "100 are taken: status $?, $(cat said)"
ls -A made | grep -v part
