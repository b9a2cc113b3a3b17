# The example's text, assembled, runs its script.
image=$(mktemp)
trap 'rm -f "$image"' EXIT
"$1" asm "$top/examples/lend.asm" "$image" || exit
{ xxd -p "$image"; echo end; cat "$top/examples/lend.script"; } | "$1"
