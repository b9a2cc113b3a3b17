# `run --strict` ends at the first line of a script that is a refused commit, with status 1, and says which line and which refusal; nothing
# behind it runs. Up to there it prints what it prints without `--strict`, and that is out before the line on standard error.
export LC_ALL=C
folder=$(mktemp -d)
trap 'rm -rf "$folder"' EXIT
cd "$folder" || exit 1
program=$1
cat "$top/tests/cases/asm-file-block/kept.asm" - >text.asm <<'END'

; A save, and the number of its refusal or 0.
routine keep public budget 10
    LDI w7 0
    VSAVE kept
kept: OUT w7 keep_end
keep_end: RET
END
"$program" asm text.asm image

# small WORD..: runs the script with these words on a new file that has four blocks once and not twice
small() {
    rm -f small.vm
    "$program" new small.vm --area 512
    "$program" run image small.vm script "$@" 2>&1
    echo "status $?"
}

echo "refused twice:"
cat >script <<'END'
; Lines that say nothing are counted.

call put 1
call put 2
call put 3      ; a block for each
call put 4
update
call get
  save          ; refused
call get
save            ; refused too
revert
END
small
"$program" dump small.vm
small --strict
"$program" dump small.vm

echo "refused in a call:"
printf 'call put 1\ncall put 2\ncall put 3\ncall put 4\ncall keep\ncall get\nupdate\n' >script
small --strict
"$program" dump small.vm

echo "not refused:"
printf 'call put 1\nupdate\nsave\ncall get\nrevert\ncall get' >script
small
small --strict
"$program" dump small.vm

echo "a bad line:"
printf 'call put 1\nupdate\nupdate it\n' >script
small --strict
"$program" dump small.vm

echo "no place for the output:"
printf 'call put 1\ncall put 2\ncall put 3\ncall put 4\nsave\nupdate\n' >script
rm small.vm
"$program" new small.vm --area 512
"$program" run --strict image small.vm script 2>&1 >/dev/full
echo "status $?"
"$program" dump small.vm

echo "a full disk:"
"$program" new kept.vm --area 65536
printf 'call put 1\nupdate\n' | "$program" run image kept.vm - --strict
for commit in update save revert; do
    # The second area is read now; from the first one on nothing may be written.
    (trap '' XFSZ; ulimit -f 2; printf 'call get\ncall put 2\n%s\ncall get\n' $commit | "$program" run image kept.vm - --strict 2>&1)
    echo "status $?"
done
"$program" dump kept.vm
