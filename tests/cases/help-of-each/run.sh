# `help` says what `--help` says, of the program and of each command.
export LC_ALL=C
folder=$(mktemp -d)
trap 'rm -rf "$folder"' EXIT
"$1" help >"$folder/help"
"$1" --help | cmp - "$folder/help" && echo "the same of the program"
for command in call test asm list check explain new copy run dump diff map shell; do
    "$1" help "$command" >"$folder/help"
    "$1" "$command" --help | cmp - "$folder/help" && echo "the same of $command"
done
"$1" help no-such-command 2>"$folder/help"
echo "status $?"
