# A build shows how many crates of all are done, the crates at work, and the minutes gone and left: one line for each crate, and on a
# terminal one line that is rewritten. Crates that need no other one come first, the one with the longest chain before the others.
. "$top/tests/with_stub.sh"
"$folder/top/build" geos 2>said | sed 's|.*/top/|top/|'
echo "$(($(grep -c '' said) - crates)) line more than crates"
sed -n "2p;$((crates + 1))p" said | sed "1s/about [0-9]* min/about N min/; s/at work: .*/at work: NAMES/; s/of $crates/of ALL/; s/ $crates / ALL /"
awk -F'at work: ' 'NF > 1 { split($2, names, ", "); if (names[2] == names[1]) print "twice: " $2 }' said
rm -r "$folder/top/crates/geos/out"
script -qec "'$folder/top/build' geos" /dev/null </dev/null | tr '\r' '\n' |
    sed -n "s/^build: \([0-9]*\) of $crates crates; 0 min gone, about [0-9]* min left; [a-z].*/\1/p" | sort -un | wc -l | sed "s/^$crates\$/ALL/"
printf '#!/bin/sh\necho "rt: lmem_raw proved"\necho "rt: geos_text: an open goal"\necho "1 passed, 1 failed"\nexit 1\n' >"$folder/bin/rt"
rm -r "$folder/top/crates/geos/out"
"$folder/top/build" geos 2>&1 | tail -n 1 | sed 's|/.*/top/|top/|'
