# Of 1,005 bad lines of a script the first 1,000 are told, and how many more there are; of 1,000 all.
text=$(dirname "$0")/../bad-script-lines/text.asm
many() {
    echo 'update'
    yes ' no' | head -n "$1"
    echo 'update'
}
many 1005 | "$1" explain "$text" --script - 2>&1 | sed -n '1p;1000,$p'
many 1000 | "$1" explain "$text" --script - 2>&1 | sed -n '1p;1000,$p'
many 1001 | "$1" explain "$text" --script - --vars 2>&1 | sed -n '1001,$p'
