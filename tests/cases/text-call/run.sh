# The example's text, assembled, runs the script of its session.
top=$(dirname "$0")/../../..
image=$(mktemp)
trap 'rm -f "$image"' EXIT
"$1" asm "$top/examples/call.asm" "$image" || exit
{ xxd -p "$image"; sed -n '/^end$/,$p' "$top/examples/call.session"; } | "$1"
