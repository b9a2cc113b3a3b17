# `geos help` has a topic for each instruction of docs/INSTRUCTIONS.md, with its operands, for each rule, each refusal and each fault of a
# text; docs/CARD.md has each instruction. The tables of the program are those that tools/topics.py makes of the documents.
export LC_ALL=C
program=$1
tables=$(mktemp)
trap 'rm -f "$tables"' EXIT
"$program" help deref
# A command goes before the instruction of its name.
"$program" help call | head -n 1
"$program" help CALL | head -n 1
for topic in V4 v14 "refused 4" "why 2" "no topic"; do
    "$program" help $topic 2>&1 | head -n 1
done
"$program" help "why 2" | head -n 1
sed -n 's/^| \[[0-9a-f]*\][^|]* | \[\([A-Z]*\)\]([^)]*)\([^|]*[^ |]\)* *|.*/\1\2/p' "$top/docs/INSTRUCTIONS.md" | while read -r text; do
    "$program" help "${text%% *}" | head -n 1 | grep -qxF -- "$text" && echo found || echo "no topic: $text"
    grep -qw "${text%% *}" "$top/docs/CARD.md" || echo "not on the card: $text"
done | sort | uniq -c | sed 's/^ *//'
for n in $(seq 14); do "$program" help "V$n" | grep -c '^Example: '; done | sort | uniq -c | sed 's/^ *//'
for n in $(seq 15); do "$program" help refused "$n" | head -n 1; done | grep -c '^refused [0-9]* [A-Z]'
for n in $(seq 7); do "$program" help why "$n" | head -n 1; done | grep -c '^why [0-9] [A-Z]'
python3 -B "$top/tools/topics.py" "$tables" && cmp "$tables" "$top/crates/geos_topics/src/tables.rt"
