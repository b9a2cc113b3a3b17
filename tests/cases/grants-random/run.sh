# Random routines under random grants: one that is accepted changes only what was granted, and one that is refused has an effect that was not.
python3 -B "$top/tests/random_grants.py" "$1" 500 2>/dev/null
