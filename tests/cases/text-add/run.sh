# The example's text, assembled, runs the script of its session.
top=$(dirname "$0")/../../..
image=$(mktemp)
trap 'rm -f "$image"' EXIT
"$1" asm "$top/examples/add.asm" "$image" || exit
{ xxd -p "$image"; sed -n '/^end$/,$p' "$top/examples/add.session"; } | "$1"
