# Two blocks with each byte set to each value, with words changed at random, and cut at each length, are heaps where a second reading of
# blocks says so, with the chunks that it reads.
trials=$("$top/build" trials) || exit
python3 -B "$top/tests/damaged_blocks.py" "$trials"
