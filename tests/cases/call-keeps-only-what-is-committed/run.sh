# A call writes nothing into FILE but what its own instructions commit; a script what it says.
export LC_ALL=C
folder=$(mktemp -d)
trap 'rm -rf "$folder"' EXIT
cd "$folder" || exit 1
program=$1
text=$top/examples/counter.asm
cat "$text" - >kept.asm <<'E2'
; Counts, and keeps that.
routine kept public budget 15
        CALL count
        VUPDATE failed
failed: RET
E2
"$program" new counter.vm
cksum <counter.vm >before
"$program" call "$text" --file counter.vm start
cksum <counter.vm | cmp - before
printf 'call start\ncall count\ncall count\n' | "$program" call "$text" --file counter.vm
cksum <counter.vm | cmp - before
printf 'call start\ncall count\nupdate\ncall count\n' | "$program" call "$text" --file counter.vm
"$program" call "$text" --file counter.vm count
"$program" call kept.asm --file counter.vm kept
"$program" call --file counter.vm "$text" count
"$program" call kept.asm kept --file counter.vm
"$program" call "$text" count --file counter.vm
"$program" call "$text" count
