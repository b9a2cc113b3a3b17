# the session of `add`, with a script of 1,000 lines: each fourth is blank, or a comment
here=$(dirname "$0")
sed '/^end$/q' "$here/../add/stdin"
awk 'BEGIN { for (i = 1; i <= 1000; i++) print (i % 4 ? "call add ; line " i : i % 8 ? "" : "; line " i) }'
