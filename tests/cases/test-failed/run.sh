# Each line that prints something else than it says is reported, and the script continues.
export LC_ALL=C
folder=$(mktemp -d)
trap 'rm -rf "$folder"' EXIT
program=$(readlink -f "$1")
text=$top/tests/cases/vars/routines.asm
cd "$folder" || exit 1
cat >a.script <<'END'
call sum 1 2 => 4
call make 77 => 1
call nothing => 5
call sum 1 2 =>
call peek @9 => 77
call peek @1   =>   refused  1
call sum 1 2 => 3 => 3
call sum 1 2 => 03 ; numbers are compared as they are printed

call sum 5 6 => 11
update => refused 6
call sum 5 -> n => 5 6
call sum $n 1 => 7
END
"$program" test "$text" a.script
echo "status $?"
cp a.script 'a
b'
"$program" test "$text" ./a.script 'a
b' | sed -n '1p;12p;$p'
"$program" test "$text" - <a.script | head -n 1
# Standard error has nothing of these lines.
"$program" test "$text" a.script 2>&1 >/dev/null
echo "status $?"
