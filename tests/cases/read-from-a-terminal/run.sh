# Who has to type what a command reads is told so, where the standard input and standard error are terminals.
export LC_ALL=C
folder=$(mktemp -d)
trap 'rm -rf "$folder"' EXIT
cd "$folder" || exit 1
program=$1
cp "$top/examples/add.asm" add.asm
cat >typed.py <<'END'
# typed.py LINE FAULTS COMMAND..: with the line typed at a terminal, and standard error there too or in the file `said`
import os, pty, subprocess, sys, termios
line, faults = sys.argv[1:3]
ours, theirs = pty.openpty()
mode = termios.tcgetattr(theirs)
mode[3] &= ~termios.ECHO
termios.tcsetattr(theirs, termios.TCSANOW, mode)
os.write(ours, line.encode() + b"\n\4")
with open("said", "wb") as said:
    stderr = theirs if faults == "terminal" else said
    run = subprocess.run(sys.argv[3:], stdin=theirs, stdout=subprocess.PIPE, stderr=stderr)
os.write(theirs, b"|")
told = b""
while not told.endswith(b"|"):
    told += os.read(ours, 1000)
print("status", run.returncode, run.stdout.decode().strip(), told.decode().replace("\r\n", "."))
END
python3 typed.py 'call add' terminal "$program" call add.asm
python3 typed.py 'call add' file "$program" call add.asm
cat said
echo 'call add' | "$program" call add.asm
python3 typed.py nothing terminal "$program" call add.asm add
