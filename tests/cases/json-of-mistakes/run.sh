# The findings of each text of the case mistakes as JSON objects: the line that is at fault, the line of the cause, and the cure. Each cure is a
# part of its message, and each line of a cause is named in the message.
export LC_ALL=C
here=$(cd "$(dirname "$0")" && pwd)
program=$(readlink -f "$1")
folder=$(mktemp -d)
trap 'rm -rf "$folder"' EXIT
cd "$folder" || exit 1
cat "$here/../mistakes/first" "$here/../mistakes/second" | awk '/^== / { file = sprintf("%s.asm", $2); print $2; next } { print >file }' >names
python3 -B "$here/findings.py" "$program" <names
