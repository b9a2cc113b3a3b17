# Sources of the structured language, each after a line `==== NAME`: `check` accepts it, or says in one line what is wrong, and where.
export LC_ALL=C
folder=$(mktemp -d)
trap 'rm -rf "$folder"' EXIT
awk -v folder="$folder" '/^==== / { number++; print > (folder "/names"); next } { print > sprintf("%s/%02d.tkv", folder, number) }' \
    "$(dirname "$0")/sources"
number=0
while IFS= read -r name; do
    number=$((number + 1))
    printf '%s: ' "$name"
    "$1" check "$folder/$(printf %02d $number).tkv" 2>&1 </dev/null
done <"$folder/names"
exit 0
