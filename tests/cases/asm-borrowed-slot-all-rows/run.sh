# In version 1 no slot is borrowed. The file that the image would have gone to is left as it was.
folder=$(mktemp -d)
trap 'rm -rf "$folder"' EXIT
echo before >"$folder/image"
"$1" asm "$(dirname "$0")/../asm-borrowed-slot/poke.asm" "$folder/image" --all-rows
status=$?
cat "$folder/image"
exit $status
