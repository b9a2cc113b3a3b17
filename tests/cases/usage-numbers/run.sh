# A number has digits alone, and may begin with zeros. For any other there is a line that says which numbers there are, and the usage of
# the command.
export LC_ALL=C
folder=$(mktemp -d)
trap 'rm -rf "$folder"' EXIT
cd "$folder" || exit 1
program=$1
"$program" new file.vm --area +512
echo "status $?"
for number in +512 -512 -0 '' ' 512' '512 ' 5_12 0x200 512.0 0 511 513 16777728 4294967808 18446744073709552128 '512
'; do
    "$program" new file.vm "--area=$number" 2>said
    echo "status $?, lines $(wc -l <said), $(head -n 1 said)"
done
cat said
for number in -512 -0 - -x --x --chunks --; do
    "$program" new file.vm --area "$number" 2>&1 | head -n 1
done
"$program" run image file.vm script --region -1 2>&1
"$program" map --width -80 file.vm 2>&1
"$program" run image file.vm script --region +65536 2>&1
"$program" run image file.vm script --region 65535 2>&1 | head -n 1
"$program" map file.vm --width 1001 2>&1
"$program" new file.vm --area 000512
echo "status $?"
wc -c <file.vm
"$program" map file.vm --width 0060 >/dev/null
echo "status $?"
