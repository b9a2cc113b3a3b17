# A script with a bad line does not run, or ends at a line that is bad with the words that its names have: its lines with `=>` that did not
# run have failed. `call`, `run` and `explain` take no `=>`.
export LC_ALL=C
folder=$(mktemp -d)
trap 'rm -rf "$folder"' EXIT
program=$(readlink -f "$1")
text=$top/tests/cases/vars/routines.asm
cd "$folder" || exit 1

# tested NAME: what is printed of the script on the standard input under this name
tested() {
    cat >"$1"
    "$program" test "$text" "$1" 2>&1
    echo "status $?"
}
tested bad <<'END'
call sum 1 2 => 3
cal sum 1 2 => 3
call sum 1 2=>3
=> 3
call => 3
update now
call small 10 => 10
call sum $x =>
call sum 1 2 =>3
END
echo nonsense | tested silent

echo "bad when it is reached:"
tested late <<'END'
call nothing -> h
call sum 1 2 => 3
call sum $h => 1
call sum 1 1 => 2
call nothing
END
tested bound <<'END'
call sum 5 6 -> n => 11
call small $n
call sum 5 6
END
tested wrong <<'END'
call sum 5 6 -> n => 12
call small $n => 11
END

echo "more bad lines than are reported:"
seq 1002 | sed 's/.*/x => 1/' | tested many | tail -n 5

echo "elsewhere:"
printf 'call sum 1 2 => 3\n' >script
"$program" call "$text" <script 2>&1
"$program" new file.vm
"$program" run "$text" file.vm script --vars 2>&1
"$program" explain "$text" --script script --vars 2>&1
exit 0
