# A text that has the name of a part which a stopped run has left, by whatever path it is named, is not removed; others are.
export LC_ALL=C
folder=$(mktemp -d)
trap 'rm -rf "$folder"' EXIT
cd "$folder" || exit 1
program=$1
ln -s .geos-part-1 link
for text in .geos-part-0 ./.geos-part-1 link -; do
    for n in 0 1 2; do cp "$top/examples/add.asm" .geos-part-$n; done
    "$program" asm "$text" image <.geos-part-2
    echo "$text: status $?"
    ls -A
    "$program" check image
    rm -f image .geos-part-*
done
