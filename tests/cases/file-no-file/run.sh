# A pipe, a device or a socket in the place of a VM file can't be read, and is not waited for.
export LC_ALL=C
folder=$(mktemp -d)
trap 'rm -rf "$folder"' EXIT
cd "$folder" || exit 1
program=$1
"$program" asm "$top/tests/cases/asm-file-block/kept.asm" kept.image
echo call get >get.script
mkfifo pipe
ln -s pipe link
python3 -c 'import socket; socket.socket(socket.AF_UNIX).bind("socket")'
for file in pipe link socket /dev/null /dev/zero; do
    for command in "run kept.image $file get.script" "dump $file" "map $file"; do
        timeout 60 "$program" $command 2>&1
        echo "status $?"
    done
done
# Nobody writes a script for a file that is none.
mkfifo script
timeout 60 "$program" run kept.image pipe script 2>&1
echo "status $?"
