# An address book in a file, from one run to the next: first a script, then single calls.
export LC_ALL=C
here=$(dirname "$0")
book=$(mktemp -d)/book.vm
trap 'rm -rf "${book%/*}"' EXIT
"$1" new "$book" &&
"$1" call "$here/book.asm" --file "$book" <"$here/entering" &&
"$1" call "$here/book.asm" --file "$book" name 5678 &&
"$1" call "$here/book.asm" --file "$book" name 1
