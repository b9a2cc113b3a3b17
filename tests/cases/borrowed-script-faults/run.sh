# A call with too few handles of blocks to lend, too many, a word behind them, or what is no handle, is a bad line. The lines before it do nothing.
for line in "call peek" "call peek 1" "call peek @1 @1" "call peek @1 5" "call peek @" "call peek 1@" "call peek @65536" "call put 77 @1" "call add @1"; do
    printf 'call put 77\ncall peek @1\n%s\n' "$line" | "$1" call "$top/examples/lend.asm"
    echo "status $?"
done
# Handles that are read, and name no block.
printf 'call peek @0\ncall peek @1025\ncall peek @65535\ncall peek 3 @01\n' | "$1" call "$top/examples/lend.asm"
