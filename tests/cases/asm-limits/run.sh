# Texts with as many instructions, routines and bytes as there may be, and with more; and what else is wrong with such texts.
folder=$(mktemp -d)
trap 'rm -rf "$folder"' EXIT
program=$1
text=$folder/text
image=$folder/image

# repeated N LINE: the line, N times
repeated() {
    awk -v count="$1" -v line="$2" 'BEGIN { for (i = 0; i < count; i++) print line }'
}

# routines N: so many routines, each with a name of its own and one instruction
routines() {
    awk -v count="$1" 'BEGIN { for (i = 0; i < count; i++) printf "routine r%02d budget 1\nRET\n", i }'
}

# says NAME: the fault of the text, or how many routines and instructions the listing of its image has
says() {
    printf '%s: ' "$1"
    "$program" asm "$text" "$image" 2>&1 || return
    "$program" list "$image" | awk '/^routine / { routines++ } /^    / { instrs++ } END { print routines, "routines,", instrs, "instructions" }'
}

header='routine a public budget 9'
for count in 4096 4097; do
    { echo "$header"; repeated $count RET; } >"$text"
    says "$count instructions"
done
{ echo "$header"; repeated 4096 RET; printf FOO; } >"$text"
says "an unknown word behind 4096 instructions"

for count in 2048 2049; do
    { echo "routine a budget 9"; repeated 2048 RET; echo "routine b budget 9"; repeated $count RET; } >"$text"
    says "$count instructions in the second routine, behind 2048"
done

for count in 32 33 34; do
    routines $count >"$text"
    says "$count routines"
done
{ routines 32; printf 'routine r00 budget 1\nRET'; } >"$text"
says "a name that is used, behind 32 routines"
{ routines 32; printf 'routine new budget 4294967296\nRET'; } >"$text"
says "a budget past its range, behind 32 routines"
{ routines 32; printf 'routine new budget 1'; } >"$text"
says "a routine without instruction, behind 32 routines"

# A comment of 17 bytes, with its line's end.
comment='; 89012345678901'
{ printf 'routine a public budget 0009\nRET\n'; repeated 61679 "$comment"; } >"$text"
says "$(($(wc -c <"$text"))) bytes"
echo >>"$text"
says "$(($(wc -c <"$text"))) bytes"
{ echo FOO; repeated 61681 "$comment"; } >"$text"
says "$(($(wc -c <"$text"))) bytes, an unknown word first"
repeated 61681 "$comment" >"$text"
says "$(($(wc -c <"$text"))) bytes without a routine"
exit 0
