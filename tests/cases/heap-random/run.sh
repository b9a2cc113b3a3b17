# Random lists of calls on a heap are answered as a plain model answers them.
trials=$("$top/build" trials) || exit
python3 "$top/tests/random_heaps.py" "$trials"
