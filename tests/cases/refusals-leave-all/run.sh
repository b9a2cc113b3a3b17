# Each refusal of each instruction is answered to a routine over a kernel with blocks, chunks, groups and items, marks and locks, and leaves
# all of it as it was: both directories, the chunks of blocks of memory, the marks and the counts of locks.
folder=$(mktemp -d)
trap 'rm -rf "$folder"' EXIT
trials=$("$top/build" trials) || exit
cc -O -shared -fPIC -o "$folder/refusing.so" "$top/tests/refusing.c" -ldl || exit 1
python3 -B "$top/tests/refused_routines.py" "$1" "$trials" "$folder/refusing.so" "$top/docs/INSTRUCTIONS.md"
