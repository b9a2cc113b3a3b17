# A block of 65,024 bytes fills a region of 65,536: what the file has in memory stays, marked or not. Without `update` the file keeps
# nothing.
export LC_ALL=C
folder=$(mktemp -d)
trap 'rm -rf "$folder"' EXIT
cd "$folder" || exit 1
"$1" asm "$top/tests/cases/asm-file-block/kept.asm" kept.image
"$1" new kept.vm
printf 'call put 77\ncall fill\ncall get\n' | "$1" run kept.image kept.vm - --region 65536
"$1" dump kept.vm
printf 'call put 77\nupdate\ncall fill\ncall get\n' | "$1" run kept.image kept.vm - --region 65536
"$1" dump kept.vm
