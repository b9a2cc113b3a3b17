# The listing of the image has the text's routine and instructions.
image=$(mktemp)
trap 'rm -f "$image"' EXIT
"$1" asm "$(dirname "$0")/../../../examples/add.asm" "$image" || exit
"$1" list "$image"
