# What earlier runs left beside the file, which were stopped, stays and stops none.
folder=$(mktemp -d)
trap 'rm -rf "$folder"' EXIT
for n in $(seq 0 149); do echo left >"$folder/image.$n.part"; done
"$1" asm "$top/examples/add.asm" "$folder/image"
"$1" check "$folder/image"
ls "$folder" | wc -l
cat "$folder"/*.part | sort | uniq -c
