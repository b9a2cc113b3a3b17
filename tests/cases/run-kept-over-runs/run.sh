# What a script updates or saves is there in the next run, and `revert` goes back to what was saved; `dump` shows both.
export LC_ALL=C
folder=$(mktemp -d)
trap 'rm -rf "$folder"' EXIT
cd "$folder" || exit 1
"$1" asm "$top/tests/cases/asm-file-block/kept.asm" kept.image
"$1" new kept.vm
"$1" dump kept.vm
echo put:
printf 'call put 1\nsave\ncall put 2\nupdate\n' | "$1" run kept.image kept.vm -
"$1" dump kept.vm
echo get:
printf 'call get\nrevert\ncall get\n' | "$1" run kept.image kept.vm -
"$1" dump kept.vm
echo put without update:
printf 'call put 3\ncall get\n' | "$1" run kept.image kept.vm -
echo get:
echo call get | "$1" run kept.image kept.vm -
