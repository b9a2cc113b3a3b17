# Two VM files with each byte that is read set to each value, each other one to some, and cut at each length, are opened where a second reading
# of files says so, with the directories and blocks that it reads; else the first fault is named.
trials=$("$top/build" trials) || exit
python3 -B "$top/tests/damaged_files.py" "$trials"
