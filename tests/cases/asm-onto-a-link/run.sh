# A link stays one, and the file that it leads to gets the image: one that was there, and one that was not.
folder=$(mktemp -d)
trap 'rm -rf "$folder"' EXIT
cd "$folder" || exit
mkdir images links
echo before >images/there
for name in there new; do
    ln -s "../images/$name" "links/$name"
    ln -s "links/$name" "$name"
    "$1" asm "$top/examples/add.asm" "$name"
    readlink "$name" "links/$name"
    "$1" check "images/$name"
done
ls . images links
# Links in a ring lead to no file.
ln -s ring ring
"$1" asm "$top/examples/add.asm" ring 2>&1
readlink ring
# A chain of 40 links is followed, as the system does; one of 41 leads to no file.
chain() {
    previous=images/$2
    for n in $(seq "$1"); do
        ln -s "$previous" "$2.$n"
        previous=$2.$n
    done
}
for length in 39 40; do
    for name in there.$length new.$length; do
        chain $length "$name"
        case $name in there*) echo before >"images/$name" ;; esac
        "$1" asm "$top/examples/add.asm" "$name.$length"
        echo "$name: status $?"
        "$1" check "images/$name"
    done
done
chain 41 long
echo before >images/long
"$1" asm "$top/examples/add.asm" long.41 2>&1
cat images/long
