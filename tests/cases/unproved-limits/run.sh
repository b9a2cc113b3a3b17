# What an unproved run cannot do is an error in one line that says what to do, and never a cut answer.
. "$top/tests/with_stub.sh"
says() {
    "$folder/top/geos" "$@" >found 2>said
    echo "status $?, printed $(wc -c <found): $(sed '/this run uses an unproved build/d; s/`\.\/build geos`/BUILD/' said)"
}
head -c 67108865 /dev/zero >large
mkfifo pipe
mkdir folder
# A script whose output is 20,000 times twenty lines of six bytes.
awk 'BEGIN { print "routine many public budget 21"; for (i = 0; i < 20; i++) print " OUT w0 x" i "\n x" i ":"; print " RET" }' >many.asm
awk 'BEGIN { for (i = 0; i < 20000; i++) print "call many 65535" }' >calls

says explain large
says explain - <large
says explain pipe
says explain folder
says call many.asm <calls
script -qec "'$folder/top/geos'; echo status \$?" /dev/null </dev/null 2>/dev/null | tr -d '\r' | sed 's/`\.\/build geos`/BUILD/'
: >"$folder/top/crates/geos/src/main.rt"
printf '#!/bin/sh\necho "error: no memory" >&2\nexit 2\n' >"$folder/bin/rt"
says --version
rm "$folder/bin/rt"
PATH=/usr/bin:/bin
says --version
made
