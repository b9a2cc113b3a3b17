# Neovim with the configuration of editors/ shows what `explain` finds in a text. It applies the first edit for each finding until no
# finding is left, and then the verifier accepts the text.
export LC_ALL=C
here=$(readlink -f "$(dirname "$0")")
folder=$(mktemp -d)
trap 'rm -rf "$folder"' EXIT
mkdir "$folder/bin" "$folder/home" && ln -s "$1" "$folder/bin/geos"
cd "$folder" || exit 1
export HOME="$folder/home" XDG_CONFIG_HOME="$folder/home" XDG_DATA_HOME="$folder/home" XDG_STATE_HOME="$folder/home" XDG_CACHE_HOME="$folder/home"
unset NVIM_LOG_FILE
found() {
    "$1" explain "$2" --json 2>/dev/null | python3 -c '
import json, sys
for line in sys.stdin:
    found = json.loads(line)
    if found["kind"] in ("error", "warning"):
        print(found["line"], found["message"])'
}
for name in unmarked budget faulty index good; do
    cp "$here/$name.asm" . && found "$1" "$name.asm" >expected
    PATH="$folder/bin:$PATH" timeout 120 nvim --headless -u "$top/editors/neovim/geos.lua" -i NONE -n "$name.asm" -c "luafile $here/session.lua" >messages 2>&1 </dev/null
    cmp expected shown && echo "$name: $(wc -l <shown) shown, $(cat edits), $("$1" check "$name.asm" 2>&1)"
done
