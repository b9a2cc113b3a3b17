# `geos explain` prints a sentence for each rule: of examples/refused.asm for all except V13, and of the image of examples/rejected.session for
# V13. tools/topics.py reads the sentences here.
"$1" explain "$top/examples/refused.asm"
sed '/^end/,$d' "$top/examples/rejected.session" | xxd -r -p | "$1" explain -
