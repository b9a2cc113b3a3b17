# Nobody waits for a VM file while a script for it is still to come, or while what was printed of it is still to be read: the other end of
# the pipe may want the same file.
export LC_ALL=C
folder=$(mktemp -d)
trap 'rm -rf "$folder"' EXIT
cd "$folder" || exit 1
program=$(readlink -f "$1")
export program
"$program" asm "$top/tests/cases/asm-file-block/kept.asm" kept.image
"$program" new kept.vm
printf 'call put 1\nupdate\n' | "$program" run kept.image kept.vm -
mkfifo script

# within COMMAND..: the command, which is to end by itself
within() {
    timeout 60 "$@" || echo "status $?"
}

# The pipe is open to write once `run` has it open to read. All commands that want the file have it meanwhile; what they leave in it is
# what the script finds.
echo "while the script is to come:"
"$program" run kept.image kept.vm script >got 2>&1 &
within sh -c '
    exec 3>script
    printf "call put 2\nupdate\n" | "$program" run kept.image kept.vm -
    "$program" map kept.vm >map && echo "it is mapped"
    "$program" dump kept.vm
    "$program" dump kept.vm | sed "s/.*/call get/" >&3'
wait
cat got

# A file that can't be opened is said before anything is written into the pipe, and nobody opens it.
echo "a script that never comes:"
for file in missing.vm .; do
    within "$program" run kept.image $file script 2>&1
done

# Of a text longer than a pipe takes, one byte has been read: it is being printed.
{
    seq 400 | sed 's/^/call put /'
    echo save
} >many.script
"$program" run kept.image kept.vm many.script
echo call get >get.script
for command in "dump --chunks kept.vm" "map kept.vm --width 1000"; do
    echo "while $command is to be read:"
    "$program" $command | {
        dd bs=1 count=1 of=first 2>/dev/null
        within "$program" run kept.image kept.vm get.script
        [ "$(wc -c)" -gt 65536 ] && echo "it is longer than a pipe takes"
    }
done
