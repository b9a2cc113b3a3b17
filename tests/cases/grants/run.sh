# Plug-ins of strangers, each accepted by the verifier: `list` prints what they do, and `call`, `run` and `trace` refuse them before anything runs if
# more is granted than they do.
export LC_ALL=C
here=$(readlink -f "$(dirname "$0")")
folder=$(mktemp -d)
trap 'rm -rf "$folder"' EXIT
program=$(readlink -f "$1")
cd "$folder" || exit 1
text=$top/tests/cases/script-lends-blocks/lend.asm
"$program" new file.vm
printf 'call put 77\ncall put 8\nupdate\n' | "$program" call "$text" --file file.vm
cp file.vm first.vm
# granted GRANTS TEXT WORD..: what a call comes to, and whether the file is as before
granted() {
    grants=$1
    plugin=$2
    shift 2
    "$program" call "$here/$plugin.asm" --file file.vm --grant "$grants" "$@" 2>&1
    echo "status $?"
}
for plugin in plugins thief memory map; do
    "$program" list "$here/$plugin.asm" | grep '^; effects'
done
echo "a filter:"
granted reads-lent,changes-lent plugins filter @1
granted reads-s0,changes-s0 plugins filter @1
granted changes-lent plugins filter @1
granted reads-lent plugins filter @1
granted reads-lent,changes-s1 plugins filter @1
echo "a thief:"
granted reads-lent,changes-lent thief filter 2 @1
granted reads-lent,changes-lent,changes-file thief filter 2 @1
echo "chunks of memory:"
granted none memory chunks 1 16
granted memory memory chunks 1 16
echo "the map:"
granted output map tidy
granted output,reads-file map tidy
granted output,reads-file,changes-file map tidy
granted output,reads-file,changes-file,map map tidy
granted reads-file,changes-file,map,commits map tidy
cmp file.vm first.vm && echo "the file is as before"
echo "a script:"
echo 'call tidy' >script
"$program" run "$here/map.asm" file.vm script --grant output 2>&1
echo "status $?"
cmp file.vm first.vm && echo "the file is as before"
echo "a trace:"
"$program" trace "$here/map.asm" --file file.vm --grant output tidy 2>&1
echo "status $?"
"$program" trace "$here/map.asm" --file file.vm --most-steps 19 tidy 2>&1
echo "status $?"
"$program" trace "$here/plugins.asm" --file file.vm --grant reads-lent,changes-lent filter @1 >/dev/null
echo "status $?"
cmp file.vm first.vm && echo "the file is as before"
echo "granted:"
granted output,reads-file,changes-file,map,commits map tidy
"$program" asm "$here/map.asm" map.image
"$program" call map.image --grant output tidy 2>&1
echo "words:"
granted outputs map tidy
granted reads-s4 map tidy
granted output, map tidy
