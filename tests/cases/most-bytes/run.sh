# Blocks in memory have at most so many bytes. More is refused 4, and the run continues. Unmarked blocks of the file are evicted first.
export LC_ALL=C
here=$(readlink -f "$(dirname "$0")")
folder=$(mktemp -d)
trap 'rm -rf "$folder"' EXIT
program=$(readlink -f "$1")
cd "$folder" || exit 1
"$program" asm "$here/blocks.asm" blocks.image || exit 1

echo "three blocks of 1,008 bytes:"
for most in 0 63 64 1008 2079 2080 2500 3023 3024 4294967295; do
    echo "$most: $("$program" call blocks.image --most-bytes $most three | tr '\n' ' ')"
done

echo "a script:"
printf 'call make\ncall make\ncall make\ncall drop 1\ncall make\ncall make\n' >script
"$program" call blocks.image --most-bytes 2500 <script

echo "blocks of the file:"
"$program" new file.vm
printf 'call store\ncall store\ncall store\nupdate\ncall store\ncall store\n' >script
"$program" run blocks.image file.vm script --most-bytes 2500 --update
echo "status $?"
"$program" call blocks.image --file file.vm --most-bytes 1007 store

echo "a trace:"
"$program" trace blocks.image --most-bytes 2500 --count three >/dev/null
echo "status $?"
