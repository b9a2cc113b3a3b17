# New blocks of memory get handles up to a limit. One more is refused 5, and the run continues. A freed handle can be used again.
export LC_ALL=C
text=$(readlink -f "$(dirname "$0")")/../most-bytes/blocks.asm
folder=$(mktemp -d)
trap 'rm -rf "$folder"' EXIT
program=$(readlink -f "$1")
cd "$folder" || exit 1
"$program" asm "$text" blocks.image || exit 1

echo "three blocks:"
for most in 0 1 2 3 1024; do
    echo "$most: $("$program" call blocks.image --most-blocks $most three | tr '\n' ' ')"
done
"$program" call blocks.image --most-blocks 1025 three
echo "status $?"

echo "a script:"
printf 'call make\ncall make\ncall make\ncall drop 1\ncall make\ncall make\n' >script
"$program" call blocks.image --most-blocks 2 <script

echo "blocks of the file:"
"$program" new file.vm
printf 'call store\ncall store\ncall make\n' >script
"$program" run blocks.image file.vm script --most-blocks 0
echo "status $?"

echo "a trace:"
"$program" trace blocks.image --most-blocks 2 --count three | tail -n 1
