# Four blocks of 64 bytes take 288 bytes of a directory, so an area of 512 bytes has them once and not twice: `update` is done,
# `save` is refused.
export LC_ALL=C
folder=$(mktemp -d)
trap 'rm -rf "$folder"' EXIT
cd "$folder" || exit 1
"$1" asm "$top/tests/cases/asm-file-block/kept.asm" kept.image
"$1" new small.vm --area 512
wc -c <small.vm
printf 'call put 1\ncall put 1\ncall put 1\ncall put 1\nupdate\nsave\ncall get\n' | "$1" run kept.image small.vm -
"$1" dump small.vm
