#!/bin/sh
# Puts the documents and the examples below ROOT, in the places that they have below a prefix: `documents.sh ROOT`. A link to a file of the
# repository that is not among them becomes plain text.
here=$(dirname "$(readlink -f "$0")")
cd "$(dirname "$here")" || exit
folder=$1/share/doc/takhvoi
for file in README.md CHANGELOG.md VERSION bench/README.md $(find docs examples -type f); do
    install -D -m 644 "$file" "$folder/$file" || exit
done
find "$folder" -name '*.md' | while read -r page; do
    awk -v folder="$(dirname "$page")" -f "$here/links.awk" "$page" >"$page.made" && cat "$page.made" >"$page" && rm "$page.made" || exit
done
