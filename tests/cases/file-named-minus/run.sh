# `./-` is a file of that name.
folder=$(mktemp -d)
trap 'rm -rf "$folder"' EXIT
cd "$folder" || exit
cp "$top/examples/add.asm" ./-
"$1" asm ./- image </dev/null && "$1" check image
"$1" asm "$top/examples/add.asm" ./- </dev/null
ls
"$1" check ./- </dev/null
