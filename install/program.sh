#!/bin/sh
# Puts what is installed of the program below ROOT, in the places that it has below a prefix: `program.sh PROGRAM ROOT`.
here=$(dirname "$(readlink -f "$0")")
program=$1
root=$2
made=$(mktemp -d) || exit
trap 'rm -rf "$made"' EXIT
"$here/pages.sh" "$program" "$made" &&
    install -D -m 755 "$program" "$root/bin/geos" &&
    install -D -m 755 "$here/geos-shell" "$root/bin/geos-shell" &&
    install -D -m 644 -t "$root/share/man/man1" "$made"/*.1 &&
    install -D -m 644 -t "$root/share/man/man5" "$made"/*.5 &&
    install -D -m 644 "$made/bash" "$root/share/bash-completion/completions/geos" &&
    install -D -m 644 "$made/zsh" "$root/share/zsh/site-functions/_geos" &&
    install -D -m 644 "$made/fish" "$root/share/fish/vendor_completions.d/geos.fish"
