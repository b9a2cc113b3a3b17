# Who waits for a file's lock for longer than a second is told so, once, if standard error is a terminal; then the run goes on.
export LC_ALL=C
folder=$(mktemp -d)
trap 'rm -rf "$folder"' EXIT
cd "$folder" || exit 1
program=$1
"$program" asm "$top/tests/cases/asm-file-block/kept.asm" kept.image
"$program" new file.vm --area 512
printf 'call put 7\nsave\n' | "$program" run kept.image file.vm -
echo call get >get.script

# on_terminal COMMAND..: with a terminal as its standard error
on_terminal() {
    python3 - "$@" <<'END'
import os, pty, subprocess, sys
ours, theirs = pty.openpty()
run = subprocess.Popen(sys.argv[1:], stderr=theirs)
os.close(theirs)
said = b""
try:
    while more := os.read(ours, 1000):
        said += more
except OSError:
    pass
print("status", run.wait(), said.decode().replace("\r\n", "|"))
END
}

mkfifo begun
# held SECONDS COMMAND..: while another program has the lock for so long
held() {
    flock file.vm sh -c "echo >begun; sleep $1" &
    read -r _ <begun
    shift
    "$@"
    wait
}

held 3 on_terminal "$program" dump file.vm
held 3 on_terminal "$program" run kept.image file.vm get.script
held 3 on_terminal "$program" copy file.vm copy.vm
"$program" dump copy.vm
held 0.3 on_terminal "$program" dump file.vm
held 3 "$program" dump file.vm 2>said
echo "status $?, said $(wc -c <said)"
on_terminal "$program" map file.vm | tail -n 1
