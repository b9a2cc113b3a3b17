# A path or a word has its control characters by their bytes in a line that says what is wrong; so has a text that is explained, on a
# terminal alone.
export LC_ALL=C
folder=$(mktemp -d)
trap 'rm -rf "$folder"' EXIT
cd "$folder" || exit 1
program=$1
nl='
'
esc=$(printf '\033')
csi=$(printf '\302\233')
for word in "a${nl}b" "a${esc}[31mb" "a${csi}31mb" "tab	" "$(printf 'a\177b\001\r')" "é 字"; do
    "$program" dump "$word" 2>&1
    "$program" check "$word" 2>&1
    "$program" new "no-folder/$word" 2>&1
    "$program" asm "$top/examples/add.asm" "no-folder/$word" 2>&1
done
"$program" "no${nl}error: such" 2>&1 | head -n 3
"$program" dump a "b${esc}[2J" 2>&1 | head -n 1
"$program" dump a "--wi${nl}dth" 2>&1 | head -n 1
"$program" new a --area "5${nl}12" 2>&1 | head -n 2
"$program" new a "--area=${esc}" 2>&1 | head -n 1
"$program" help "no${csi}such" 2>&1 | head -n 1
ls -A

# The text of a comment, as it is explained: to a file, and to a terminal.
printf 'routine a public budget 1 ; %s\r\n RET ; \033[31m \302\233 \303\251 \001\n' "tab	" >text.asm
"$program" explain text.asm | sed -n 2p | od -An -c
cat >on_terminal.py <<'END'
import os, pty, subprocess, sys
ours, theirs = pty.openpty()
run = subprocess.Popen(sys.argv[1:], stdout=theirs)
os.close(theirs)
said = b""
try:
    while more := os.read(ours, 1000):
        said += more
except OSError:
    pass
print("status", run.wait(), flush=True)
sys.stdout.buffer.write(said.replace(b"\r\n", b"\n"))
END
python3 on_terminal.py "$program" explain text.asm
# A text that is not UTF-8.
printf 'routine a public budget 1\n RET ; \233 \303\251\n' >text.asm
python3 on_terminal.py "$program" explain text.asm
# `budget` gives a terminal the bytes of the text as they are.
python3 on_terminal.py "$program" budget text.asm | tail -n 1 | od -An -c
