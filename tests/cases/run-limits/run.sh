# The least and the greatest region; others are no numbers for it.
export LC_ALL=C
folder=$(mktemp -d)
trap 'rm -rf "$folder"' EXIT
cd "$folder" || exit 1
"$1" asm "$top/tests/cases/asm-file-block/kept.asm" kept.image
"$1" new kept.vm
printf 'call put 1\ncall get\n' >script
for region in 65535 65536 1048576 16777216 16777217 x; do
    "$1" run kept.image kept.vm script --region $region 2>/dev/null
    echo "status $?"
done
