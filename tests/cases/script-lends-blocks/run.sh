# A script locks the blocks that a call lends, and unlocks them behind it; a handle that names no block is refused, and the script goes on.
text=$(dirname "$0")/lend.asm
printf 'call put 77\ncall peek @1\ncall peek @9\ncall poke 8 @1\ncall peek @1\ncall two @1 @1\nupdate\n' | "$1" call "$text"
printf 'call put 77\ncall peek\n' | "$1" call "$text" 2>&1
echo "status $?"

# A strict script ends where a block can't be lent.
printf 'call put 77\ncall peek @9\ncall peek @1\n' | "$1" call "$text" --strict 2>&1
echo "status $?"

# Labels say which blocks were lent.
printf 'call put 77\ncall peek @1\ncall peek 0 5 0 @01\ncall two @9 @1\n' | "$1" call "$text" --label --hex

# What the verifier refuses of routines that borrow.
image=$(mktemp)
trap 'rm -f "$image"' EXIT
for name in unlocked unmarked stale apart; do
    echo "$name"
    "$1" asm "$(dirname "$0")/$name.asm" "$image" && "$1" check "$image" 2>&1
    echo "status $?"
done
