# The program is installed below a folder, with its man pages, completions and documents. The first page and the completions have all that
# the program says of itself. Uninstalled, it leaves only what others have there.
export LC_ALL=C
folder=$(mktemp -d)
trap 'rm -rf "$folder"' EXIT
root=$folder/root

run_make() {
    make -s -C "$top" GEOS="$1" DESTDIR="$root" PREFIX=/usr "$2" 2>&1
}

files() {
    (cd "$root" && find . ! -type d | sort)
}

# The words of the standard input, each once.
words() {
    tr -cs 'A-Za-z0-9' '\n' | sort -u
}

run_make "$folder/none" install >/dev/null || echo "nothing is installed of no program: $(ls "$folder")"
mkdir -p "$root/usr/bin" && : >"$root/usr/bin/other"
run_make "$1" install && files | grep -v /share/doc/
(cd "$top" && find docs examples -type f | sort) >"$folder/documents"
(cd "$root/usr/share/doc/takhvoi" && find docs examples -type f | sort) | diff "$folder/documents" -
cmp "$1" "$root/usr/bin/geos" && "$root/usr/bin/geos" <"$top/examples/add.session"

page=$root/usr/share/man/man1/geos.1
grep '^\.S[HS]' "$page"
"$1" --help >"$folder/help"
sed -n '/^Commands:/,/^$/s/^  \([^ ][^ ]*\).*/\1/p' "$folder/help" >"$folder/commands"
while read -r command; do
    grep -qx "\.SS geos $command" "$page" || echo "the page has nothing of $command"
    "$1" help "$command" >>"$folder/help"
done <"$folder/commands"
sed 's/\\f.//g; s/\\(../ /g; s/\\&//g' "$page" | words >"$folder/paged"
echo "not in the page: $(words <"$folder/help" | comm -23 - "$folder/paged" | tr '\n' ' ')"
! command -v groff >/dev/null || groff -man -ww -z "$page" "$root"/usr/share/man/man5/* 2>&1

# What bash completes the last of these words to.
completed() {
    bash -c '. "$0"; COMP_WORDS=("$@"); COMP_CWORD=$(($# - 1)); _geos geos "${!#}"; echo "${COMPREPLY[*]}"' \
        "$root/usr/share/bash-completion/completions/geos" "$@"
}
completed geos "" | tr ' ' '\n' | cmp - "$folder/commands"
completed geos help ru
completed geos run --
completed geos run x
completed geos call "$top/examples/records.asm" ""
completed geos trace "$top/examples/records.tkv" s
completed geos call "$top/examples/records.asm" --upd
for shell in zsh fish; do
    ! command -v "$shell" >/dev/null || "$shell" -n "$root"/usr/share/$shell/*/*geos* 2>&1
done

run_make "$1" uninstall
echo "uninstalled: $(files)"
