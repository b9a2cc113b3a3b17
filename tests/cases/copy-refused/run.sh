# What `copy` does not copy, or not to that place, is reported in one line; nothing is made, and what is there stays as it is.
export LC_ALL=C
folder=$(mktemp -d)
trap 'rm -rf "$folder"' EXIT
mkdir "$folder/work" && cd "$folder/work" || exit 1
program=$1
"$program" asm "$top/tests/cases/asm-file-block/kept.asm" kept.image
"$program" new whole.vm --area 512
printf 'call put 1\nupdate\n' | "$program" run kept.image whole.vm -

# What is there, with its bytes where it is a file.
there() {
    ls -A
    find . -type f -exec cksum {} + | sort
}

# refused WORD..: a copy with these words; what is there is as it was
refused() {
    there >"$folder/was"
    timeout 60 "$program" copy "$@" >"$folder/said" 2>&1
    status=$?
    head -n 1 "$folder/said"
    echo "status $status"
    there | cmp - "$folder/was"
}

echo "no VM file:"
mkfifo pipe
ln -s pipe link
mkdir folder
: >empty.vm
echo text >text
# As in the case file-faults; the pair is in the second area, from 1536 on.
head -c 512 whole.vm >cut-header.vm
head -c 1550 whole.vm >cut-block.vm
{ head -c 8 whole.vm; printf '\001'; tail -c +10 whole.vm; } >area.vm
{ head -c 1538 whole.vm; printf '\002'; tail -c +1540 whole.vm; } >handle.vm
for file in missing.vm - '' folder pipe link /dev/null empty.vm text kept.image cut-header.vm cut-block.vm area.vm handle.vm; do
    refused "$file" new.vm
done

echo "a name that is taken, or can't be made:"
ln whole.vm other-name.vm
ln -s nowhere dangling
ln -s whole.vm linked
for new in whole.vm other-name.vm linked dangling text folder pipe '' no-folder/new.vm text/new.vm; do
    refused whole.vm "$new"
done

echo "several faults:"
refused missing.vm text
refused text text
refused handle.vm no-folder/new.vm
refused missing.vm text --area 700
refused whole.vm text --area 512

echo "no such words:"
refused
refused whole.vm
refused whole.vm new.vm third.vm
refused whole.vm new.vm --area=
refused whole.vm new.vm --area 0
refused whole.vm new.vm --area 16777728
refused whole.vm new.vm --region 65536

echo "a full disk:"
# A file may be no longer than 4,096 bytes.
(trap '' XFSZ; ulimit -f 8; refused whole.vm new.vm --area 16384)

echo "streams:"
"$program" copy whole.vm new.vm <&- >&- 2>&-
echo "status $?"
python3 -B "$top/tests/copied_file.py" whole.vm 512 | cmp - new.vm
"$program" copy linked ./- <. >/dev/full 2>/dev/full
echo "status $?"
cmp new.vm ./-
