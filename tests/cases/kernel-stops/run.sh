# Commits of the kernel, of which each call of the device fails, once or from then on, are answered as docs/FILES.md says, and what is found
# after a stop that loses and garbles what was not synced is the pair from before or the new one.
trials=$("$top/build" trials) || exit
python3 -B "$top/tests/kernel_stops.py" "$trials"
