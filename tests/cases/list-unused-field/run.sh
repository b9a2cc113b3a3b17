# The standard input is the image in hexadecimal digits.
image=$(mktemp)
trap 'rm -f "$image"' EXIT
xxd -r -p >"$image"
"$1" list "$image"
