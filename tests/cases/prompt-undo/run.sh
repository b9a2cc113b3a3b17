# `undo` takes back the last command: in the blocks of the file and of memory, and in the names. Commands before a commit stay.
export LC_ALL=C
folder=$(mktemp -d)
trap 'rm -rf "$folder"' EXIT
cd "$folder" || exit 1
program=$1
cat >make.asm <<'END'
; Makes a block in memory, and prints its handle: 1, 2, ..
routine make public budget 4
        MNEW s0 w0 end
        OUT w0 unlock
unlock: MUNLOCK s0
end:    RET

routine show public budget 2
        OUT w0 last
last:   RET
END
echo "blocks in memory, also those from before a commit:"
printf 'call make\nupdate\ncall make\nundo\ncall make\nundo\ncall make\n' | "$program" shell make.asm
echo "names:"
printf 'call make -> h\ncall make -> h\nundo\ncall show $h\n' | "$program" shell make.asm
echo "blocks of a file:"
"$program" new file.vm --area 1024
"$program" shell "$top/tests/cases/asm-file-block/kept.asm" --file file.vm 2>&1 <<'END'
call put 7
call get
call put 8
call get
undo
undo
call get
undo
undo
call get
undo
undo
undo
call put 9
update
undo
call get
END
echo "status $?"
"$program" dump file.vm
