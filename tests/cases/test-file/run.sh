# With --file, each script begins with a copy of the file, and the file stays as it is.
export LC_ALL=C
folder=$(mktemp -d)
trap 'rm -rf "$folder"' EXIT
program=$(readlink -f "$1")
text=$top/tests/cases/vars/routines.asm
cd "$folder" || exit 1
"$program" new file.vm --area 512
printf 'call make 77\nsave\n' | "$program" call "$text" --file file.vm
sum=$(cksum file.vm)
printf 'call peek @1 => 77\ncall make 5 => 2 16\nupdate =>\ncall peek @2 => 5\n' >script
"$program" test "$text" script script --file file.vm 2>&1
echo "status $?"
# An area of 512 bytes has room for a few blocks.
{ yes 'call make 5' | head -n 20; echo 'update => refused 6'; } >full
"$program" test "$text" full --file file.vm
[ "$(cksum file.vm)" = "$sum" ] || echo "the file has changed"
"$program" test "$text" script
"$program" test "$text" script --file missing.vm 2>&1
echo "status $?"
"$program" test "$text" missing --file script 2>&1
echo "status $?"
