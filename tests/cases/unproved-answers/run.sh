# With no proved program, ./geos answers a request that changes no file from an unproved build, and says so before it starts. What it
# prints, and its status, are the proved program's, also of files in other folders and of standard input.
. "$top/tests/with_stub.sh"
mkdir -p other/deep
cp "$top/examples/add.asm" other/deep/add.asm
printf 'routine bad public budget 1\n OUT w0 x\n x: RET y\n' >other/deep/bad.asm
cp "$top/examples/add.asm" stdin
cp "$top/examples/add.asm" a=b.asm
echo 'call add 2 3' >script
"$1" asm other/deep/add.asm add.image || exit

# same WORD..: both programs on the same standard input
same() {
    "$program" "$@" <input >wanted 2>wanted.err
    wanted=$?
    "$folder/top/geos" "$@" <input >found 2>found.err
    status=$?
    [ "$status" -eq "$wanted" ] || echo "$*: status $status, and not $wanted"
    cmp -s wanted found || { echo "$*: standard output differs"; diff wanted found; }
    sed 1d found.err | cmp -s wanted.err - || { echo "$*: standard error differs"; diff wanted.err found.err; }
    sed -n '1s/about [0-9]* minutes)/about N minutes)/p' found.err >>said
}
program=$1
cp "$top/examples/add.session" input
same
: >input
same call other/deep/add.asm add 2 3
same call "$folder/other/deep/add.asm" add 2 3
same call ./other/../other/deep/add.asm add 2 3
same call stdin add 2 3
same call a=b.asm add 2 3
same call add.image add 65535 1
same check add.image
same list add.image
same explain other/deep/add.asm
same explain add.image --script script
same explain add.image --script="$folder/script"
same explain "$folder/other/deep/bad.asm"
same explain absent.asm
same explain "$folder/absent/program"
same trace other/deep/add.asm add 2 3 --steps 2
cp "$top/examples/add.tkv" other/deep/add.tkv
same call "$folder/other/deep/add.tkv" add
printf 'pub fn f() { x = 1; }\n' >other/deep/bad.tkv
same check "$folder/other/deep/bad.tkv" --diagnostics
same --color always check other/deep/bad.asm --diagnostics
printf 'call add 2 3 => 5\ncall add 2 3 => 6\n' >tests
same test other/deep/add.asm script tests
same test "$folder/other/deep/add.asm" "$folder/tests" tests "$folder/tests"
same test other/deep/add.asm tests -
same --no-warnings call other/deep/add.asm add 2 3 --grant output
same asm other/deep/add.asm -
same budget other/deep/add.asm
same budget other/deep/bad.asm -
same call other/deep/add.asm nothing 2 3
same --version
same help call
same call --help
same nonsense
same explain
cp other/deep/add.asm input
same asm - -
same call - add 2 3
same explain -
echo 'call add 2 3' >input
same call other/deep/add.asm
sort said | uniq -c
made
