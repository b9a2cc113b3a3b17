# On a terminal there is a prompt, and Ctrl-C ends a call and not the session: what the call did is taken back.
export LC_ALL=C
folder=$(mktemp -d)
trap 'rm -rf "$folder"' EXIT
cd "$folder" || exit 1
cat >long.asm <<'END'
; Makes a block of the file, and then takes some 30,000 times 65,536 steps before it prints a word.
routine long public budget ?
        LDI w1 5
        VNEW s0 w2 w1 end
        VUNLOCK s0
        SETK k0 30000
outer:  SETK k1 65535
inner:  ADD w3 w3 w3
        LOOP k1 inner
        LOOP k0 outer
        OUT w3 end
end:    RET

routine mark public budget 9
        LDI w1 7
        VNEW s0 w2 w1 last
        VUNLOCK s0
        OUT w2 last
last:   RET
END
"$1" new file.vm --area 1024
cat >typed.py <<'END'
# typed.py COMMAND..: types lines at a terminal, each after a prompt, and prints what the terminal shows
import os, pty, select, sys, time
prompt = b"geos> "
pid, ours = pty.fork()
if pid == 0:
    os.execvp(sys.argv[1], sys.argv[1:])
shown = b""
def wait(prompts):
    end = time.time() + 60
    global shown
    while shown.count(prompt) < prompts and time.time() < end:
        if select.select([ours], [], [], 0.1)[0]:
            try:
                shown += os.read(ours, 1000)
            except OSError:
                return
count = 0
for line, seconds in ((b"call mark\n", 0), (b"call long\n", 2), (b"call mark\n", 0), (b"update\n", 0), (b"call mark\n", 0), (b"undo\n", 0), (b"\4", 0)):
    count += 1
    wait(count)
    os.write(ours, line)
    if seconds:
        time.sleep(seconds)
        os.write(ours, b"\3")
wait(99)
print(shown.decode().replace("\r\n", "\n"), end="")
print("status", os.waitstatus_to_exitcode(os.waitpid(pid, 0)[1]))
END
GEOS_WRAPPED=1 GEOS=$1 python3 typed.py "$top/install/geos-shell" long.asm --file file.vm
"$1" dump file.vm
