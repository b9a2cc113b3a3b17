# Where the disk takes no more, `update` is refused 11, and the file is as it was; the next run goes on with that.
export LC_ALL=C
folder=$(mktemp -d)
trap 'rm -rf "$folder"' EXIT
cd "$folder" || exit 1
program=$1
"$program" asm "$top/tests/cases/asm-file-block/kept.asm" kept.image
"$program" new kept.vm --area 65536
printf 'call put 1\nupdate\n' | "$program" run kept.image kept.vm -
# The second area is read now; from the first one on nothing may be written.
(trap '' XFSZ; ulimit -f 2; printf 'call put 2\nupdate\nupdate\ncall get\n' | "$program" run kept.image kept.vm -)
echo "status $?"
"$program" dump kept.vm
printf 'call get\ncall put 2\nupdate\ncall get\n' | "$program" run kept.image kept.vm -
"$program" dump kept.vm
