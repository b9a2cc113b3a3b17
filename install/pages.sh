#!/bin/sh
# Makes the man pages and completions of geos from what the program says of itself and from docs/: `pages.sh PROGRAM FOLDER` puts the pages
# `geos.1`, `geos-text.5`, `geos-script.5` and `geos-image.5` and the completions `bash`, `zsh` and `fish` into the folder.
export LC_ALL=C
here=$(dirname "$(readlink -f "$0")")
top=$(dirname "$here")
program=$1
folder=$2
formats=$top/docs/FORMATS.md
errors=$top/docs/ERRORS.md

# What the program says of itself; then of each command, after a paragraph of a form feed and its name.
texts() {
    "$program" --help >"$folder/texts" || return
    for command in $(awk '/^Commands:/ { inside = 1; next } !NF { inside = 0 } inside && /^  [^ ]/ { print $1 }' "$folder/texts"); do
        printf '\n\f%s\n\n' "$command" >>"$folder/texts"
        "$program" help "$command" >>"$folder/texts" || return
    done
}

# made FILE SETTING..: the texts as awk makes another text of them
made() {
    file=$1
    shift
    awk "$@" -f "$here/lists.awk" -f "$here/$file" "$folder/texts"
}

# page NAME TITLE PAGE HEADING..: the sections of pages of docs/ under these headings as a page of section 5
page() {
    name=$1
    title=$2
    shift 2
    python3 -B "$here/page.py" "$name" 5 "$title" "$version" "$date" "$(see_also "$name")" "$@" >"$folder/$name.5"
}

# see_also PAGE: the other pages, and where the documents are
see_also() {
    pages="geos 1, geos-text 5, geos-script 5, geos-image 5"
    echo "$pages" | sed "s/$1 [15], //; s/, $1 [15]\$//; s/ \([15]\)/ (\1)/g; s/-/\\\\-/g; s/^/.BR /; s/), /),\n.BR /g; s/\$/,/"
    echo '.BR takhvoi (3).'
    echo "The documents are in"
    echo '.IR share/doc/takhvoi .'
}

texts && version=$("$program" --version) && version=${version#geos } &&
    date=$(date -u -d "@${SOURCE_DATE_EPOCH:-$(stat -c %Y "$program")}" +%Y-%m-%d) || exit
made man.awk -v program=geos -v version="geos $version" -v date="$date" >"$folder/geos.1" && see_also geos |
    { echo '.SH "SEE ALSO"' && cat; } >>"$folder/geos.1" &&
    page geos-text "assembly texts of geos" "$formats" "Assembly texts" "$errors" Messages "No rows" &&
    page geos-script "sessions and scripts of geos" "$formats" "The session" &&
    page geos-image "images and listings of geos" "$formats" "The image" "The listing" || exit
for shell in bash zsh fish; do
    made completion.awk -v program=geos -v shell=$shell >"$folder/$shell" || exit
done
