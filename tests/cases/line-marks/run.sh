# Lines as `cpp` and `m4 -s` write them: faults, refusals and warnings have the file and the line that they name. Other lines that begin
# with # are faulty.
export LC_ALL=C
here=$(cd "$(dirname "$0")" && pwd)
program=$(readlink -f "$1")
folder=$(mktemp -d)
trap 'rm -rf "$folder"' EXIT
cp "$here"/*.asm "$folder"
cd "$folder" || exit 1
said() {
    echo "\$ geos $*"
    "$program" "$@" 2>&1
    echo "status $?"
}

said check faulty.asm --diagnostics
said explain faulty.asm
said asm faulty.asm out --all-rows --diagnostics
"$program" check faulty.asm --json 2>/dev/null |
    sed -n 's/.*"file":"\([^"]*\)","line":\([0-9]*\),"column":\([0-9]*\).*"cause_line":\([0-9a-z]*\).*/\1 \2 \3 \4/p'
said check refused.asm --diagnostics
said check apart.asm --diagnostics
said explain apart.asm
said budget unset.asm
said check good.asm --diagnostics
"$program" check good.asm --json | sed -n 's/.*"file":"\([^"]*\)","line":\([0-9]*\).*/\1 \2/p'
said call good.asm double 3 --grant none
said explain good.asm
said explain others.asm

sed '/^#/d' good.asm | "$program" asm - plain.image && "$program" asm good.asm marked.image && cmp plain.image marked.image && echo "the same image"
printf '# 1 "a  b.asm" 1\n routine f budget ?\n#line 7\nRET\n' >draft.asm
"$program" fmt draft.asm
"$program" budget draft.asm
