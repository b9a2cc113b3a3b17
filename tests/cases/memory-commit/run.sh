# Each allocation of a session that updates, saves and reverts its file is refused in turn: those that the session makes for a commit are
# refusals of that commit, and the others are done. So it is with commits of the script, and with those of a routine, which gets the number.
folder=$(dirname "$0")
work=$(mktemp -d)
trap 'rm -rf "$work"' EXIT
"$1" asm "$folder/kept.asm" "$work/image" || exit

# session LINE..: a session with these lines of a script
session() {
    xxd -p "$work/image"
    printf '%s\n' end "$@"
}

session "call put 7" update "call get" save "call get" revert >"$work/session"
"$1" <"$work/session"
INPUT=$work/session sh "$top/tests/allocations.sh" "$1"

session "call put 7" "call commit" "call get" >"$work/session"
"$1" <"$work/session"
# Where the save is refused, the revert gives back what was saved before, which is nothing.
printf '13 0 0 7\n0 13 0\n0 0 13 7\n' >"$work/answers"
INPUT=$work/session ANSWERS=$work/answers sh "$top/tests/allocations.sh" "$1"
