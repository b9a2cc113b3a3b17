# The example's text, assembled, runs its script.
image=$(mktemp)
trap 'rm -f "$image"' EXIT
"$1" asm "$top/examples/index.asm" "$image" || exit
{ xxd -p "$image"; echo end; cat "$top/examples/index.script"; } | "$1"
