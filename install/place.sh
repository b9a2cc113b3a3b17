#!/bin/sh
# Installs staged files: `place.sh STAGE ROOT LIST` puts each file and link below STAGE at the same place below ROOT. All are copied first,
# under names of their own, and then renamed, so that a full disk leaves what was installed before. ROOT/LIST then names each file, and each
# folder that was made. `place.sh --remove ROOT LIST..` removes what these lists name; a folder in which there is something stays.
export LC_ALL=C
umask 022

if [ "$1" = --remove ]; then
    cd "$2" 2>/dev/null || exit 0
    shift 2
    names=$(cat "$@" 2>/dev/null | sort -ru)
    echo "$names" | grep -v '/$' | while IFS= read -r file; do rm -f "$file"; done
    echo "$names" | grep '/$' | while IFS= read -r folder; do rmdir "$folder" 2>/dev/null; done
    exit 0
fi

stage=$(cd "$1" && pwd) && list=$3 && mkdir -p "$2" && cd "$2" || exit
part=.takhvoi-$$
work=$(mktemp -d) || exit
trap 'rm -rf "$work"' EXIT
trap 'stopped=yes' HUP INT TERM
: >"$work/old"
[ ! -f "$list" ] || cp "$list" "$work/old"
(cd "$stage" && { find . ! -type d; echo "./$list"; } | sed 's|^\./||' | sort -u) >"$work/files"
(cd "$stage" && { find . -mindepth 1 -type d; dirname "./$list"; } | sed 's|^\./||; s|$|/|' | sort -u) |
    while IFS= read -r folder; do
        [ -d "$folder" ] && ! grep -qx "$folder" "$work/old" || echo "$folder"
    done >"$work/folders"
mkdir -p "$stage/$(dirname "$list")" && cat "$work/files" "$work/folders" >"$stage/$list" || exit

# Where a file's copy lies before it is renamed.
copy_of() {
    echo "$(dirname "$1")/$part.$(basename "$1")"
}
copy_all() {
    while IFS= read -r file; do
        [ -z "$stopped" ] || return 1
        [ ! -d "$file" ] || [ -L "$file" ] || { echo "place.sh: $file is a folder" >&2 && return 1; }
        mkdir -p "$(dirname "$file")" && cp -P --preserve=mode "$stage/$file" "$(copy_of "$file")" || return
    done <"$work/files"
}
if ! copy_all; then
    while IFS= read -r file; do rm -f "$(copy_of "$file")"; done <"$work/files"
    sort -r "$work/folders" | while IFS= read -r folder; do rmdir "$folder" 2>/dev/null; done
    echo "place.sh: nothing was installed below $2" >&2
    exit 1
fi
trap '' HUP INT TERM
while IFS= read -r file; do
    mv -fT "$(copy_of "$file")" "$file" || exit
done <"$work/files"
# What an older version had, and this one has not.
grep -v '/$' "$work/old" | grep -vxF -f "$work/files" | while IFS= read -r file; do rm -f "$file"; done
