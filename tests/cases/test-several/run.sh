# Each script begins with a new VM file. The counts are those of all scripts. After a fault no further script runs.
export LC_ALL=C
folder=$(mktemp -d)
trap 'rm -rf "$folder"' EXIT
program=$(readlink -f "$1")
text=$top/tests/cases/vars/routines.asm
cd "$folder" || exit 1
printf 'call make 5 => 1 16\nsave\ncall peek @1 => 5\n' >one
printf 'call peek @1 => 5\n' >two
printf 'cal => 5\n' >bad
"$program" test "$text" one one two bad one 2>&1
echo "status $?"
"$program" test "$text" one one
echo "status $?"
for last in missing .; do
    "$program" test "$text" two $last one 2>&1
    echo "status $?"
done
"$program" test missing one 2>&1
echo "status $?"
"$program" test "$text" 2>/dev/null
echo "status $?"
printf 'routine f public budget 1\n        OUT w0 x\nx:      RET\n' >over.asm
"$program" test over.asm missing 2>&1
echo "status $?"
"$program" test over.asm one 2>&1
echo "status $?"
