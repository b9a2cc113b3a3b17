# The first program of docs/EMBEDDING.md is built by the commands of that page, without a warning, and prints what they say.
. "$top/tests/with_library.sh"
page=$top/docs/EMBEDDING.md
sed -n '/^```c first.c$/,/^```$/p' "$page" | sed '/^```/d' >first.c
mkdir out && ln -s .. out/lib
sed -n '/^```sh$/,/^```$/p' "$page" | sed '/^```/d; /make\.sh/d' >commands
sh commands 2>&1
