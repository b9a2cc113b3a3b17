# With --junit, OUT gets JUnit XML: a suite for each script, with a case for each line with `=>`, and for each bad line. OUT is replaced as
# by `asm`. After a fault it is as it was, and no script is replaced.
export LC_ALL=C
folder=$(mktemp -d)
trap 'rm -rf "$folder"' EXIT
program=$(readlink -f "$1")
text=$top/tests/cases/vars/routines.asm
cd "$folder" || exit 1
printf '  call sum 1 2   => 3\ncall sum 1 2 => 4 ; four\ncall sum 1 1\ncall nothing => <\302\251&\001"\n' >'<&">é'
printf 'cal sum => 1\ncall sum 1 2 => 3\nnonsense\n' >bad
printf 'call sum 1 2 => 3\ncall nothing -> h\ncall sum $h => 1\ncall sum 1 1 => 2\n' >late
printf 'call nothing -> h\ncall sum $h\n' >silent
"$program" test "$text" '<&">é' bad late silent --junit out.xml >/dev/null 2>&1
echo "status $?"
cat out.xml
# Another reader of XML finds the same names.
python3 - <<'END'
import xml.etree.ElementTree as tree
for suite in tree.parse("out.xml").getroot():
    failed = sum(case.find("failure") is not None for case in suite)
    print(ascii(suite.get("name")), {case.get("classname") for case in suite} == {suite.get("name")}, len(suite), failed)
END

echo "only passed lines:"
printf 'call sum 1 2 => 3\n' >good
"$program" test "$text" good --junit out.xml
echo "status $?"
cat out.xml

echo "faults:"
cp out.xml was.xml
cp good was
"$program" new file.vm --area 512
tried() {
    "$program" test "$text" "$@" 2>said >/dev/null
    status=$?
    echo "$(sed "s#$text#TEXT#" said), status $status"
}
tried good missing --junit out.xml
tried good --file missing.vm --junit out.xml
cmp out.xml was.xml
tried good --junit good
ln good other
tried good --junit other
tried - --junit good <good
cmp good was
tried good --junit file.vm
tried good --junit .
tried good --junit "$text"
"$program" test "$text" good --junit - 2>&1 | head -n 1
"$program" check file.vm
rm said
ls -A
