# Read by the cases of the library: goes to a folder of the case's own with the library, which the first of them makes for all, of what is
# proved. Where it is not made, each says why; where a tool for it is not there, they are left out.
export LC_ALL=C
for tool in rt cc ld objcopy ar; do
    command -v "$tool" >/dev/null || { echo "there is no $tool" >&2; exit 77; }
done
if ! [ -d "$shared/library" ] && ! [ -f "$shared/why" ]; then
    if ! "$top/library/make.sh" "$shared/library" >"$shared/log" 2>&1; then
        rm -rf "$shared/library"
        tail -n 3 "$shared/log" >"$shared/why"
    fi
fi
if [ -f "$shared/why" ]; then
    cat "$shared/why"
    exit 1
fi
folder=$(mktemp -d)
trap 'rm -rf "$folder"' EXIT
cp -P "$shared/library"/* "$folder" && cd "$folder" || exit

# Whether a compiler makes programs with these flags.
makes() {
    echo 'int main(void) { return 0; }' >makes.c
    "$@" -o makes.out makes.c 2>/dev/null && ./makes.out
}
