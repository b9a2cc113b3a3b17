# What an `asm` or a `new` that is stopped leaves beside its file is removed by the next one in the folder, and stops none. What one that
# is at work has made stays, and so does what has such a name and is no file.
export LC_ALL=C
folder=$(mktemp -d)
trap 'rm -rf "$folder"' EXIT
cd "$folder" || exit 1
program=$1
cc -O -shared -fPIC -o failing.so "$top/tests/failing.c" -ldl || exit 1
mkdir made
mkfifo begun

# stopped CALL COMMAND..: a run that is killed at a call
stopped() (
    FAILING="$1 1 1 stop" LD_PRELOAD=./failing.so
    shift
    export FAILING LD_PRELOAD
    exec "$program" "$@"
)

# left: what is in the folder beside images and VM files
left() {
    ls -A made | grep -v '^\(image\|file\.vm\|other\.vm\)$' | wc -l
}

cp "$top/examples/add.asm" add.asm
for call in stream-write fsync; do
    stopped $call asm add.asm made/image 2>/dev/null
    echo "asm, stopped at $call: status $?, left $(left)"
    [ ! -e made/image ] || echo "the image is there"
done
"$program" asm add.asm made/image
echo "status $?, left $(left)"
(ulimit -f 0; exec "$program" asm add.asm made/image) 2>/dev/null
[ $? -gt 128 ] && echo "asm, stopped by the limit of files: left $(left)"
"$program" check made/image
"$program" asm add.asm made/image
echo "status $?, left $(left)"
for call in ftruncate write fdatasync fsync; do
    rm -f made/file.vm
    stopped $call new made/file.vm --area 512 2>/dev/null
    echo "new, stopped at $call: status $?, left $(left)"
    [ ! -e made/file.vm ] || "$program" dump made/file.vm
done
"$program" new made/other.vm --area 512
echo "status $?, left $(left)"

# One of which nobody knows that it was stopped: it has its lock.
mkdir made/.geos-part-1
cp made/image made/.geos-part-0
flock made/.geos-part-0 sh -c 'echo >begun; read -r _ <begun' &
read -r _ <begun
"$program" asm add.asm made/image
echo "beside one at work: status $?"
ls -A made | grep part
echo >begun
wait
"$program" asm add.asm made/image
echo "behind it: status $?"
ls -A made | grep part
