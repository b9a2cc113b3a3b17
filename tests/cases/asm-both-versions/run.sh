# The examples, assembled in either version: a second reading says that both images are those of the format, and they are listed, explained and
# checked alike. Not those with borrowed slots, which take version 2, and not refused.asm: V2 is reported elsewhere in version 1.
cd "$top/examples" && python3 -B "$top/tests/both_versions.py" "$1" $(grep -L 'vm@' *.asm | grep -v refused.asm)
