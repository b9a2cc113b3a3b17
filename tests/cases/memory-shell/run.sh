# Each allocation of a session is refused in turn: in memory, and on a file, which has then the blocks of before or after the commit.
export LC_ALL=C
work=$(mktemp -d)
trap 'rm -rf "$work"' EXIT
program=$(readlink -f "$1")
export program
cd "$work" || exit 1
. "$top/tests/on_files.sh"
printf 'call put 2 -> h\ncall get\nundo\nundo\ncall put 3\ncall get\ndump 1 16\n' >lines
# If `dump` gets no memory for the chunk's block, the kernel refuses the call with 13.
echo '2 3 refused 13' >answers
INPUT=lines ANSWERS=answers sh "$top/tests/allocations.sh" "$program" shell kept.image | grep -v '^commits refused: '
"$program" new start.vm --area 1024
printf 'call put 4\nupdate\ncall get\n' >lines
cp start.vm file.vm
BEFORE='cp start.vm file.vm' AFTER='"$program" dump --chunks file.vm | cmp -s - whole || [ $called = memory ]' INPUT=lines
state 4 "" >whole
export BEFORE AFTER INPUT
sh "$top/tests/allocations.sh" "$program" shell kept.image --file file.vm
