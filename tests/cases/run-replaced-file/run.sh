# A file that is replaced by a rename while a command waits, for its script or for the lock, is opened anew, at most three times: what is
# kept comes into the file that is there.
export LC_ALL=C
folder=$(mktemp -d)
trap 'rm -rf "$folder"' EXIT
cd "$folder" || exit 1
program=$1
"$program" asm "$top/tests/cases/asm-file-block/kept.asm" kept.image
"$program" new empty.vm --area 512
printf 'call put 9\nupdate\n' >put.script
cp empty.vm full.vm
"$program" run kept.image full.vm put.script
[ -d /proc/self/fd ] || {
    echo "the system does not tell which files are open" >&2
    exit 77
}
mkfifo script

# waits FILE: until the command has the file open
waits() {
    number=$(stat -c %i "$1")
    until stat -L -c %i /proc/"$command"/fd/* 2>/dev/null | grep -qx "$number"; do
        readlink /proc/"$command"/exe >/dev/null || return
        sleep 0.02
    done
}

# locked FILE N: the file is locked until `unlocked N`
locked() {
    mkfifo "locked.$2" "go.$2"
    flock "$1" sh -c 'echo >"locked.$1"; read -r _ <"go.$1"' sh "$2" &
    read -r _ <"locked.$2"
}
unlocked() {
    echo >"go.$1"
    rm "locked.$1" "go.$1"
}

# kept: the map block that the file keeps, and the bytes of the chunk in its first block
kept() {
    "$program" dump file.vm | sed -n 's/^current \(map [0-9]*\) .*/\1/p'
    "$program" get file.vm 1 16 2>/dev/null | od -An -tx1
}

echo "while it waits for its script:"
for words in 'run kept.image file.vm -' 'call kept.image --file file.vm'; do
    cp empty.vm file.vm
    cp empty.vm next.vm
    "$program" $words <script &
    command=$!
    exec 3>script
    waits file.vm
    mv next.vm file.vm
    cat put.script >&3
    exec 3>&-
    wait "$command"
    echo "$words: status $?, $(echo $(kept))"
done

echo "while it waits for the lock:"
for words in 'run kept.image file.vm put.script' 'call kept.image put 9 --file file.vm' 'trace kept.image get --file file.vm' \
    'put file.vm 1 16' 'get file.vm 1 16' 'dump file.vm' 'map file.vm --width 60'; do
    cp empty.vm file.vm
    cp full.vm next.vm
    locked file.vm 0
    printf 'ab' | "$program" $words >printed 2>&1 &
    command=$!
    waits file.vm
    mv file.vm held.vm
    mv next.vm file.vm
    unlocked 0
    wait "$command"
    echo "$words: status $?, $(echo $(kept))"
    cmp empty.vm held.vm
done

# replaced TIMES: the file is replaced as often, each time while the lock on it is waited for
replaced() {
    cp empty.vm file.vm
    locked file.vm 0
    "$program" run kept.image file.vm put.script 2>said &
    command=$!
    waits file.vm
    for n in $(seq "$1"); do
        cp empty.vm "$n"
        [ "$n" -eq "$1" ] || locked "$n" "$n"
        mv "$n" file.vm
        unlocked $((n - 1))
        waits file.vm
    done
    wait "$command"
    echo "replaced $1 times: status $?, $(cat said), $(echo $(kept))"
}

replaced 1
replaced 3
replaced 4

cp empty.vm file.vm
locked file.vm 0
"$program" run kept.image file.vm put.script 2>said &
command=$!
waits file.vm
mv file.vm held.vm
unlocked 0
wait "$command"
echo "removed: status $?, $(cat said)"
cmp empty.vm held.vm
