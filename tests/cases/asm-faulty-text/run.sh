# The file that the image would have gone to is left as it was, and nothing is left beside it.
folder=$(mktemp -d)
trap 'rm -rf "$folder"' EXIT
printf 'routine one public budget 1\n        RTE\n' >"$folder/text"
echo before >"$folder/image"
"$1" asm "$folder/text" "$folder/image"
status=$?
cat "$folder/image"
ls "$folder"
exit $status
