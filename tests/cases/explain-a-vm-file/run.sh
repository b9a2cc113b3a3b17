# A VM file in the place of a text is read as one, with a fault in its first line. `explain` says that it is a VM file, and nothing of its
# lines.
export LC_ALL=C
folder=$(mktemp -d)
trap 'rm -rf "$folder"' EXIT
cd "$folder" || exit 1
program=$1
"$program" new file.vm --area 512
{ cat file.vm; printf '\n a line\n another\n'; } >lines.vm
printf 'GVM1: RET\n' >label.asm
: >script

# wrong COMMAND..: what it prints, and what it says is wrong
wrong() {
    "$program" "$@" 2>said
    echo "$1: status $?, $(cat said)"
}

for file in file.vm lines.vm label.asm; do wrong explain $file; done
wrong explain file.vm --script script
wrong asm file.vm image
wrong budget file.vm
wrong call file.vm add 2 3
wrong trace file.vm add 2 3
wrong run file.vm "$top/examples/add.asm" script
