# Read by the cases that run the routines of strangers: compares what `hostile FOLDER FILE` prints with the table. A line of it has the routine's
# name, the effect, the routine and the instruction for which it is refused, what `look` outputs afterwards, and what comes of its run.
hostile "$top/tests/hostile" hostile.vm >hostile.said || echo "status $?"
awk '!/^#/ { print $1, $5, $6, $7, "1,16,11,22,33,44,55,66,0,0", $8, $9, $10 }' "$top/tests/hostile/table" | diff - hostile.said
