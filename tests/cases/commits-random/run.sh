# Random lists of commits, stopped at each call of a device that loses and garbles what was not synced, are answered as a plain model answers
# them; and what is found afterwards is the pair from before or the new one.
trials=$("$top/build" trials) || exit
python3 -B "$top/tests/random_commits.py" "$trials"
