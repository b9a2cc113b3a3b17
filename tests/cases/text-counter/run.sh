# The example's text, assembled, runs its script, twice in one session.
image=$(mktemp)
trap 'rm -f "$image"' EXIT
"$1" asm "$top/examples/counter.asm" "$image" || exit
{ xxd -p "$image"; echo end; cat "$top/examples/counter.script" "$top/examples/counter.script"; } | "$1"
