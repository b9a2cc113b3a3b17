# Every relative link of the Markdown files, and every file and definition that these name, exists.
python3 -B "$top/tests/links.py" "$top"
# The block of docs/ARCHITECTURE.md and its list have each crate.
for crate in $(sed -n 's/^\([a-z_0-9]*\)[ :].*/\1/p' "$top/crates.txt"); do
    grep -qw "$crate" "$top/docs/ARCHITECTURE.md" || echo "docs/ARCHITECTURE.md lacks $crate"
    [ -f "$top/crates/$crate/README.md" ] || echo "$crate has no README"
done
