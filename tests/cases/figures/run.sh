# The figures of docs/figures are those that tools/figures.py draws now.
folder=$(mktemp -d)
trap 'rm -rf "$folder"' EXIT
python3 -B "$top/tools/figures.py" "$folder" && diff -r "$folder" "$top/docs/figures"
