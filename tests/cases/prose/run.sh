# The Markdown files, the help of the program and of each command, and the messages that cases expect keep to the style of CONTRIBUTING.md.
folder=$(mktemp -d)
trap 'rm -rf "$folder"' EXIT
"$1" help >"$folder/geos"
for command in $(awk '/^Commands:/ { inside = 1; next } !NF { inside = 0 } inside { print $1 }' "$folder/geos"); do
    "$1" help "$command" >"$folder/$command"
done
python3 -B "$top/tests/prose.py" "$top" "$top/tests/prose.toml" "$folder"/*
