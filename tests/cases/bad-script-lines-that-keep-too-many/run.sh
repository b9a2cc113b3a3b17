# With --vars 1,024 lines keep a word; each one more is told of, and so is what else is wrong with it in its place.
text=$(dirname "$0")/text.asm
lines() {
    yes 'call add 2 3 -> h' | head -n "$1"
}
lines 1024 | "$1" explain "$text" --script - --vars 2>&1
echo "status $?"
{
    lines 1025
    echo 'call add 2 x -> h'
    echo 'call add $h 3'
    echo 'call add 2 3 -> k'
} | "$1" explain "$text" --script - --vars 2>&1
echo "status $?"
