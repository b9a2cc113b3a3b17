# A routine that locks a block into a slot, or unlocks it, can't keep what its caller holds there: where it locks one, another slot is to
# be taken. Where it leaves the slot alone, its lines are to say what it holds.
"$1" explain "$(dirname "$0")/text.asm"
