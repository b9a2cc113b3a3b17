# Each allocation of calls on a VM file is refused in turn, after they are all answered once.
trials=$("$top/build" trials) || exit
calls=$(dirname "$0")/calls
"$trials" <"$calls"
INPUT=$calls sh "$top/tests/allocations.sh" "$trials"
