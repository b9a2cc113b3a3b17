# Each command that works on a VM file: on damaged files; with each call of the system failing, or stopping the program; and with a limit on
# the length of files, as on a full disk. A command that only reads FILE never changes it. A command that commits leaves the old file or
# the new one.
export LC_ALL=C
folder=$(mktemp -d)
trap 'rm -rf "$folder"' EXIT
program=$(readlink -f "$1")
cd "$folder" || exit 1
. "$top/tests/on_files.sh"
"$program" new kept.vm --area 512
printf 'call put 1\nsave\n' | "$program" run kept.image kept.vm -
printf 'bytes' >bytes
printf 'call get => 1\n' >test.script
printf 'call put 2\nupdate\n' >run.script
"$program" new array.vm --area 1024
printf '\001\000\003\000\000\000\010\000\007\000x' | "$program" put array.vm --new-block 7 >/dev/null
printf '5,a\n6,b\n' >rows
printf '050061\n060062\n' >hexes

# Commands that only read file.vm, and commands that change it.
cat >readers <<'END'
check file.vm
dump file.vm
dump file.vm 1 16
dump file.vm --arrays --saved
diff file.vm kept.vm
map file.vm
get file.vm 1 16
call kept.image get --file file.vm
trace kept.image get --file file.vm
trace kept.image get --file file.vm --watch 1:16
trace kept.image get --file file.vm --break get:9 --when w0>=0 --from 1
test kept.image test.script --file file.vm
test kept.image test.script --file file.vm --junit new
copy file.vm new
END
cat >writers <<'END'
put file.vm 1 16
put file.vm --new-chunk 1
put file.vm --new-block 7
put file.vm --new-group
call kept.image put 2 --file file.vm --update
run kept.image file.vm run.script
END

# The same, of a file in which chunk 16 is an array.
cat >array-readers <<'END'
get file.vm 1 16 --array
get file.vm 1 16 --array --fields 2,1t --json
END
cat >array-writers <<'END'
put file.vm 1 16 --array hexes
put file.vm 1 16 --array rows --fields 2,1t
END

# answer COMMAND..: runs it, perhaps by `failing CALL FIRST LAST HOW`, on a copy of the file $source, and sets $status
answer() {
    rm -f new
    cp "$source" file.vm
    "$@" <bytes >printed 2>said
    status=$?
}

# unchanged WORDS: complains if a fault is not one line with status 1, or if a file has changed
unchanged() {
    [ $status -eq 1 ] && [ "$(wc -l <said)" -eq 1 ] || echo "$1: status $status, $(cat said)"
    cmp "$source" file.vm || echo "$1: the file has changed"
    [ ! -e new ] || echo "$1: there is a new file"
}

echo "damaged files:"
head -c 512 kept.vm >cut.vm
{ head -c 1536 kept.vm; printf '\002'; tail -c +1538 kept.vm; } >counted.vm
{ head -c 1538 kept.vm; printf '\002'; tail -c +1540 kept.vm; } >handle.vm
for source in cut.vm counted.vm handle.vm; do
    cat readers writers array-readers array-writers | while read -r words; do
        answer "$program" $words
        unchanged "$words"
        cat said
    done | sort | uniq -c
done

# calls_fail READERS: each call of the system fails
calls_fail() {
    while read -r words; do
        number=1
        while
            answer failing any $number $number fail "$program" $words
            [ $status -ne 0 ]
        do
            unchanged "$words"
            number=$((number + 1))
        done
    done <"$1"
}

# readers_stop READERS: each call of the system stops the program
readers_stop() {
    while read -r words; do
        number=1
        while
            answer failing any $number $number stop "$program" $words
            [ $status -eq 137 ]
        do
            cmp "$source" file.vm || echo "$words: the file has changed"
            number=$((number + 1))
        done
        [ $status -eq 0 ] || echo "$words: status $status, $(cat said)"
        rm -f .geos-part-*
    done <"$1"
}

# writers_stop WRITERS: the same, and what the file is then
writers_stop() {
    while read -r words; do
        answer "$program" $words
        [ $status -eq 0 ] || echo "$words: status $status, $(cat said)"
        "$program" dump file.vm --chunks >after
        number=1
        states=
        while
            answer failing any $number $number stop "$program" $words
            [ $status -eq 137 ]
        do
            "$program" dump file.vm --chunks >found 2>&1
            "$program" dump "$source" --chunks | cmp -s - found && state=old || state=other
            cmp -s after found && state=new
            case $states in *$state) ;; *) states="$states $state" ;; esac
            number=$((number + 1))
        done
        echo "$words:$states"
    done <"$1"
}

# disk_full WRITERS: there is no room for the next commit, which goes into an area, from byte 1024 on
disk_full() {
    while read -r words; do
        rm -f new
        cp "$source" file.vm
        # The output goes into a pipe, which has no limit.
        (trap '' XFSZ && ulimit -f 1 && "$program" $words <bytes 2>&1; echo "status $?") | cat
        cmp -s "$source" file.vm || echo "$words: the file has changed"
    done <"$1"
}

echo "a call fails:"
source=kept.vm && calls_fail readers
source=array.vm && calls_fail array-readers
echo "a stop at each call:"
source=kept.vm && readers_stop readers
source=array.vm && readers_stop array-readers
source=kept.vm && writers_stop writers
source=array.vm && writers_stop array-writers
echo "a full disk:"
source=kept.vm && disk_full writers
source=array.vm && disk_full array-writers
