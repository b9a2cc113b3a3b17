# If the program has to be built and there is no `rt`, ./geos says so in its last line. There are no sources here but the names of crates, and
# on the PATH there are only the commands that ./geos and ./build call.
folder=$(mktemp -d)
trap 'rm -rf "$folder"' EXIT
mkdir -p "$folder/crates/geos/src" "$folder/commands"
cp -R "$top/geos" "$top/build" "$top/tools" "$top/crates.txt" "$folder"
: >"$folder/crates/geos/src/main.rt"
for name in dirname readlink sh; do
    ln -s "$(command -v "$name")" "$folder/commands"
done
ln -s "$(python3 -c 'import sys; print(sys.executable)')" "$folder/commands/python3"
PATH=$folder/commands "$folder/geos" --help 2>&1
echo "status $?"
