# The example's text, assembled, runs its script.
image=$(mktemp)
trap 'rm -f "$image"' EXIT
"$1" asm "$top/examples/notes.asm" "$image" || exit
{ xxd -p "$image"; echo end; cat "$top/examples/notes.script"; } | "$1"
