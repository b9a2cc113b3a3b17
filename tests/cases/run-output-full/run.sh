# Where the standard output takes nothing, no commit is made behind what was printed: the file is as it was before that commit.
export LC_ALL=C
folder=$(mktemp -d)
trap 'rm -rf "$folder"' EXIT
cd "$folder" || exit 1
"$1" asm "$top/tests/cases/asm-file-block/kept.asm" kept.image
"$1" new kept.vm
printf 'call put 1\nupdate\ncall get\ncall put 2\nupdate\n' | "$1" run kept.image kept.vm - >/dev/full
echo "status $?"
"$1" dump kept.vm
