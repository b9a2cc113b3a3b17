# A sync of a file of the system fails once. A system may tell of a lost write once and then answer as if nothing were, so each later sync
# fails too, without asking it, until something is written; a read changes nothing of that. The last lines are what the system was asked.
trials=$("$top/build" trials) || exit
calls=$(dirname "$0")/calls
folder=$(mktemp -d)
trap 'rm -rf "$folder"' EXIT
cd "$folder" || exit 1
cc -O -shared -fPIC -o failing.so "$top/tests/failing.c" -ldl || exit 1
FAILING="fdatasync 1 1 fail" CALLS=asked LD_PRELOAD=./failing.so "$trials" <"$calls"
echo "asked:"
grep -E '^(write|fdatasync)' asked
