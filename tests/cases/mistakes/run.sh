# The texts of the files `first`, `second` and `third`, each a mistake that an author makes, and what `explain` says of it. The file `table`
# has for each text whether the sentences are true, and whether they say what to do (y, n); the last lines count.
program=$1
here=$(cd "$(dirname "$0")" && pwd)
folder=$(mktemp -d)
trap 'rm -rf "$folder"' EXIT
cd "$folder" || exit 1
cat "$here/first" "$here/second" "$here/third" | awk '/^== / { file = sprintf("%s.asm", $2); next } { print >file }'
for name in $(sed -n 's/^== //p' "$here/first" "$here/second" "$here/third"); do
    echo "$name"
    "$program" explain "$name.asm" >told 2>said
    case $(cat said) in
    "") grep '^; refused' told || echo accepted ;;
    *) grep '^; refused' told || cat told ;;
    esac | sed 's/^; refused by //; s/^/    /'
done
sed -n 's/^== //p' "$here/first" "$here/second" "$here/third" | sort >texts
cut -d' ' -f1 "$here/table" | sort | cmp - texts
awk '{ true[$2]++; cured[$3]++ } END { print NR " texts, " true["n"] + 0 " mislead, " cured["y"] " with a cure" }' "$here/table"
