# The file changes only by commits: of a line, or of a routine. `dump` shows the blocks of the copy. What is not committed is lost, and said so.
export LC_ALL=C
folder=$(mktemp -d)
trap 'rm -rf "$folder"' EXIT
cd "$folder" || exit 1
program=$1
kept=$top/tests/cases/asm-file-block/kept.asm
"$program" new file.vm --area 1024
"$program" dump file.vm >empty
echo "not committed:"
printf 'call put 7\ndump\n' | "$program" shell "$kept" --file file.vm --diagnostics 2>&1
"$program" dump file.vm | cmp - empty
echo "the first of two is committed, and saved:"
printf 'call put 7\nsave\ncall put 8\ncall get\ndump 2\ndump 2 16\n' | "$program" shell "$kept" --file file.vm
"$program" dump --chunks file.vm
echo "the second one is made again, and the saved one is current again:"
printf 'call put 8\nupdate\nrevert\ncall get\n' | "$program" shell "$kept" --file file.vm
"$program" dump file.vm
echo "a routine commits, and what another one did before it:"
cat >commits.asm <<'END'
routine mark public budget 9
        LDI w1 5
        VNEW s0 w2 w1 end
        VUNLOCK s0
end:    RET

routine commit public budget 9
        VUPDATE last
        OUT w0 last
last:   RET
END
"$program" new other.vm --area 1024
printf 'call mark\ncall commit 4\ncall mark\n' | "$program" shell commits.asm --file other.vm
"$program" dump other.vm
echo "it is the copy that a script makes of the commands:"
"$program" new script.vm --area 1024
printf 'call mark\ncall commit 4\n' | "$program" run commits.asm script.vm - && cmp script.vm other.vm
