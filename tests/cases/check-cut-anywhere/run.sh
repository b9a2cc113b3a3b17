# The image of examples/add.session, cut at every length. What is at fault is the field that is cut: the last one that begins no later
# than the cut. Where fields begin is said by docs/FORMATS.md. Fewer than four bytes do not begin as an image does, and are read as a text.
# Prints each length for which the program says something else.
folder=$(mktemp -d)
trap 'rm -rf "$folder"' EXIT
sed '/^end/,$d' "$top/examples/add.session" | xxd -r -p >"$folder/add"
awk '
    function field(bytes) { begins[at] = 1; at += bytes }
    function row(  i) {
        for (i = 0; i < 8; i++) field(2)
        for (i = 0; i < 4; i++) field(1)
        for (i = 0; i < 4; i++) { field(1); field(1); field(2) }
        field(1); field(1)
    }
    BEGIN {
        at = 0
        field(4); field(2); field(2)
        field(16); field(1); field(1); field(2); field(4); row(); row()
        for (i = 0; i < 5; i++) { for (k = 0; k < 6; k++) field(1); field(2); field(2) }
        for (i = 0; i < 5; i++) { row(); for (k = 0; k < 5; k++) field(4) }
        for (cut = 0; cut < at; cut++) { if (cut in begins) last = cut; print cut, last }
    }' >"$folder/cuts"
while read -r cut fault; do
    head -c "$cut" "$folder/add" >"$folder/image"
    said=$("$1" check "$folder/image" 2>&1)
    case $cut in
        0) wanted="line 1: why 7" ;;
        [123]) wanted="line 1: why 1" ;;
        *) wanted="bad image at $fault" ;;
    esac
    [ "$said" = "$wanted" ] || echo "$cut: $said"
done <"$folder/cuts"
echo "cut at $(wc -l <"$folder/cuts") lengths"
