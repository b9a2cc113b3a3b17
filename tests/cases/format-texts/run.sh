# `fmt` puts labels, instructions and comments into columns: formatting twice changes nothing, and no text of the repository gets another
# image. What is no assembly text, or a longer one than may be, stays as it is.
program=$1
folder=$(mktemp -d)
trap 'rm -rf "$folder"' EXIT
cd "$folder" || exit 1

printf '; a comment\nroutine  add\tpublic budget 3 ; sums\r\n\t; indented\n  ADD w0  w0 w1\n\n OUT w0 x    ; puts out\nx: RET;end\n a:  long_label: RET\n' >odd.asm
"$program" fmt odd.asm
echo "status $?"
"$program" fmt odd.asm once.asm && "$program" fmt - <once.asm | cmp - once.asm && echo "the same again"
"$program" fmt odd.asm odd.asm 2>&1 | head -n 1
"$program" fmt odd.asm --in-place && cmp odd.asm once.asm && echo "in place"

# Words that end with carriage returns, in lines with and without an end, stay as they are.
printf 'routine f budget 1\r\r\n RET\r\r ; x\r\r\n\r\r\n; y\r' >returns.asm
"$program" fmt returns.asm | od -c -An

# To the standard output, since a file that is made is synced.
for text in returns.asm "$top"/examples/*.asm $(find "$top/tests/cases" -name '*.asm'); do
    "$program" fmt "$text" >formatted.asm && "$program" fmt formatted.asm | cmp - formatted.asm || echo "$text changes again"
    "$program" asm "$text" - >before.image 2>before.said
    "$program" asm formatted.asm - >after.image 2>after.said
    cmp before.said after.said && cmp before.image after.image || echo "$text has another image"
done

printf 'routine f public budget 1\nRET\n' >f.asm && "$program" asm f.asm f.image && "$program" fmt f.image --in-place 2>&1
echo "status $?"
head -c 1048577 /dev/zero | tr '\0' ' ' >long.asm && "$program" fmt long.asm --in-place 2>&1
wc -c <long.asm
