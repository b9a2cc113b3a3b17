# A session that was killed is begun again from its journal: with the lines since the last commit, and without what was taken back.
export LC_ALL=C
folder=$(mktemp -d)
trap 'rm -rf "$folder"' EXIT
cd "$folder" || exit 1
program=$1
kept=$top/tests/cases/asm-file-block/kept.asm
"$program" new file.vm --area 1024

# killed WORD..: a session on the standard input that is killed while it waits for more
killed() {
    mkfifo lines
    "$program" shell "$kept" --file file.vm --journal journal <lines >answers &
    shell=$!
    exec 3>lines
    cat >&3
    tries=0
    until [ "$(tail -n 1 answers)" = 9 ] || [ $tries -eq 300 ]; do
        sleep 0.1
        tries=$((tries + 1))
    done
    kill -KILL $shell
    wait $shell 2>/dev/null
    exec 3>&-
    rm lines
    cat answers
}
printf 'call put 7\nupdate\ncall put 8\ncall put 6\nundo\ncall get\ncall put 9\nundo\ncall put 9\ncall get\n' | killed
echo "begun again:"
tail -n +2 journal
printf 'call get\nundo\nundo\nundo\ncall get\nundo\nundo\nundo\ncall get\nundo\nundo\n' |
    "$program" shell "$kept" --file file.vm --journal journal 2>&1
echo "status $?"
echo "committed:"
printf 'call put 5\nsave\ncall get\n' | "$program" shell "$kept" --file file.vm --journal journal
tail -n +2 journal
echo "in memory, also what was committed:"
rm journal
printf 'call put 4\nupdate\n' | "$program" shell "$kept" --journal journal
echo 'call get' | "$program" shell "$kept" --journal journal
echo "no journal:"
cp "$kept" text.asm
for word in text.asm file.vm "$folder" none/journal; do
    echo 'call get' | "$program" shell "$kept" --file file.vm --journal "$word" 2>&1 | sed "s#$folder#FOLDER#"
done
cmp "$kept" text.asm
: >lines
"$program" shell "$kept" --journal lines <lines 2>&1
"$program" shell "$kept" --journal said </dev/null 2>&1 >said
cat said
"$program" shell "$kept" --journal said </dev/null 2>said
echo "status $?"
"$program" shell "$kept" --journal /dev/full </dev/null 2>&1
"$program" shell --journal - </dev/null 2>&1 | head -n 1
