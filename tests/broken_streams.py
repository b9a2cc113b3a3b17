"""Runs each command with standard streams that are closed, full, slow or broken, and with what is no VM file as FILE: each combination of
closed streams, each way by itself, and some hundred combinations of ways that a fixed seed picks. A run must end, answer as
docs/FORMATS.md says, and change no file that it is not to change: `broken_streams.py PROGRAM TOP`. Prints each run that does not, and
how many there were."""

import filecmp
import os
import random
import shutil
import socket
import subprocess
import sys
import tempfile
import threading
import time

PROGRAM, TOP = sys.argv[1:]
SECONDS = 20
COMBINATIONS = 200

# The ways in which a stream is broken, and whether it is to be read, or written, all the same.
INPUTS = {"whole": True, "closed": False, "a folder": False, "only to be written": False, "slow": True}
OUTPUTS = {"whole": True, "closed": False, "full": False, "nobody reads": False, "only to be read": False}
ERRORS = {"whole": True, "closed": False, "full": False, "nobody reads": False}

# The words of a command, the file that is its standard input, and the file that it changes.
COMMANDS = [
    ([], "session", None),
    (["asm", "text.asm", "new.image"], None, "new.image"),
    (["asm", "text.asm", "image"], None, "image"),
    (["asm", "-", "new.image"], "text.asm", "new.image"),
    (["asm", "text.asm", "-"], None, None),
    (["asm", "-", "-"], "text.asm", None),
    (["asm", "script", "new.image"], None, None),
    (["list", "image"], None, None),
    (["list", "-"], "image", None),
    (["check", "image"], None, None),
    (["check", "-"], "image", None),
    (["explain", "-"], "image", None),
    (["explain", "text.asm"], None, None),
    (["explain", "rejected.asm"], None, None),
    (["new", "new.vm", "--area", "512"], None, "new.vm"),
    (["new", "file.vm"], None, None),
    (["copy", "file.vm", "new.vm"], None, "new.vm"),
    (["copy", "file.vm", "text.asm"], None, None),
    (["run", "image", "file.vm", "script"], None, "file.vm"),
    (["run", "-", "file.vm", "script"], "image", "file.vm"),
    (["run", "image", "file.vm", "-"], "script", "file.vm"),
    (["call", "image"], "script", None),
    (["call", "image", "--expect"], "test.script", None),
    (["call", "image", "put", "7", "--file", "file.vm"], None, None),
    (["call", "-", "put", "7"], "keep.asm", None),
    (["trace", "keep.asm", "put", "7"], None, None),
    (["trace", "-", "put", "7", "--count"], "keep.asm", None),
    (["budget", "text.asm", "-"], None, None),
    (["trace", "image", "get", "--file", "file.vm"], None, None),
    (["test", "image", "test.script", "--file", "file.vm"], None, None),
    (["test", "image", "test.script", "--junit", "new.xml"], None, "new.xml"),
    (["test", "keep.asm", "test.script", "--coverage"], None, None),
    (["check", "file.vm"], None, None),
    (["put", "file.vm", "1", "16"], "script", None),
    (["put", "file.vm", "--new-block", "7"], "script", "file.vm"),
    (["put", "file.vm", "--new-chunk", "1"], "script", None),
    (["get", "file.vm", "1", "16"], None, None),
    (["dump", "file.vm", "--chunks"], None, None),
    (["dump", "file.vm", "1", "--arrays"], None, None),
    (["dump", "text.asm"], None, None),
    (["diff", "file.vm", "file.vm"], None, None),
    (["map", "file.vm"], None, None),
    (["shell", "image", "--file", "file.vm"], "script", "file.vm"),
    (["shell", "image"], "script", None),
    (["help"], None, None),
    (["run", "--help"], None, None),
    (["--version"], None, None),
    (["nonsense"], None, None),
    (["new", "other.vm", "--area", "1"], None, None),
]

wrong = 0


def make_files(folder):
    """Makes the files that commands work on."""
    os.mkdir(folder)
    for name, source in (("text.asm", "examples/records.asm"), ("rejected.asm", "examples/rejected.asm"),
                         ("session", "examples/add.session"), ("keep.asm", "tests/cases/asm-file-block/kept.asm")):
        shutil.copyfile(f"{TOP}/{source}", f"{folder}/{name}")
    with open(f"{folder}/script", "w", encoding="ascii") as script:
        script.write("call put 7\nsave\ncall get\n")
    with open(f"{folder}/test.script", "w", encoding="ascii") as script:
        script.write("call put 7 =>\ncall get => 7\n")
    for words in (["asm", "keep.asm", "image"], ["new", "file.vm", "--area", "512"]):
        subprocess.run([PROGRAM, *words], cwd=folder, check=True)


def opened(way, name, mode):
    """A stream in one of the ways, or None where it is to be closed."""
    if way == "closed":
        return None
    if way == "full":
        return os.open("/dev/full", os.O_WRONLY)
    if way == "a folder":
        return os.open("/", os.O_RDONLY)
    if way == "only to be written":
        return os.open("/dev/null", os.O_WRONLY)
    if way == "only to be read":
        return os.open("/dev/null", os.O_RDONLY)
    if way == "nobody reads":
        reader, writer = os.pipe()
        os.close(reader)
        return writer
    if way == "slow":
        reader, writer = os.pipe()
        threading.Thread(target=write_slowly, args=(name, writer)).start()
        return reader
    return os.open(name, mode, 0o666)


def write_slowly(name, writer):
    """Writes a file into a pipe, in some parts."""
    with open(name, "rb") as file:
        data = file.read()
    part = len(data) // 4 + 1
    try:
        for at in range(0, len(data), part):
            time.sleep(0.003)
            os.write(writer, data[at : at + part])
    except BrokenPipeError:
        pass
    os.close(writer)


def run(folder, command, ways):
    """Runs a command in a folder: its status, None where it does not end, and what it printed and said."""
    words, given, _ = command
    streams = [
        opened(ways[0], f"{folder}/{given}" if given else "/dev/null", os.O_RDONLY),
        opened(ways[1], f"{folder}.printed", os.O_WRONLY | os.O_CREAT | os.O_TRUNC),
        opened(ways[2], f"{folder}.said", os.O_WRONLY | os.O_CREAT | os.O_TRUNC),
    ]

    def close():
        for number, stream in enumerate(streams):
            if stream is None:
                os.close(number)

    nothing = subprocess.DEVNULL
    process = subprocess.Popen([PROGRAM, *words], cwd=folder, preexec_fn=close, stdin=nothing if streams[0] is None else streams[0],
                               stdout=nothing if streams[1] is None else streams[1], stderr=nothing if streams[2] is None else streams[2])
    for stream in streams:
        if stream is not None:
            os.close(stream)
    try:
        status = process.wait(SECONDS)
    except subprocess.TimeoutExpired:
        process.kill()
        process.wait()
        status = None
    texts = []
    for way, name in ((ways[1], "printed"), (ways[2], "said")):
        path = f"{folder}.{name}"
        texts.append(open(path, "rb").read() if way == "whole" else None)
    return status, *texts


def changes(folder, kept):
    """The files that differ, are missing, or are there too."""
    names = sorted(set(os.listdir(folder)) | set(os.listdir(kept)))
    return [name for name in names
            if not (os.path.exists(f"{folder}/{name}") and os.path.exists(f"{kept}/{name}")
                    and filecmp.cmp(f"{folder}/{name}", f"{kept}/{name}", shallow=False))]


def say(command, ways, what):
    global wrong
    wrong += 1
    print(f"{' '.join(command[0]) or 'a session'}, with {', '.join(ways)}: {what}")


def wanted(command, ways, whole):
    """The status and the fault that a run must have, where a stream is broken that it wants; else None."""
    _, given, _ = command
    if given and not INPUTS[ways[0]]:
        return 1, b"cannot read -\n"
    if whole[1] and not OUTPUTS[ways[1]]:
        return 1, b"cannot write -\n"
    return None


def judge(command, ways, whole, folder, kept):
    """Says what is wrong with a run: its answer, and what it has changed."""
    shutil.rmtree(folder, ignore_errors=True)
    shutil.copytree(kept, folder)
    status, printed, said = run(folder, command, ways)
    changed = changes(folder, kept)
    if status is None:
        return say(command, ways, "it does not end")
    fault = wanted(command, ways, whole)
    if fault is None:
        if status != whole[0]:
            say(command, ways, f"status {status}")
        if (printed or whole[1]) != whole[1] or (said or whole[2]) != whole[2]:
            say(command, ways, f"it printed {printed} and said {said}")
        if changed != whole[3]:
            say(command, ways, f"it changed {changed}")
        return None
    if status != fault[0] or said not in (None, fault[1]):
        say(command, ways, f"status {status}, and it said {said}")
    # What was done of a script before its output failed stays done.
    may_change = [] if fault[1].startswith(b"cannot read") else whole[3]
    if any(name not in may_change for name in changed):
        say(command, ways, f"it changed {changed}")
    if (printed or b"") != whole[1][: len(printed or b"")]:
        say(command, ways, f"it printed {printed}")
    return None


def try_streams(folder, kept):
    """Each command with streams that are broken."""
    pick = random.Random(1)
    ordinary = ("whole", "whole", "whole")
    wholes = []
    for command in COMMANDS:
        shutil.rmtree(folder, ignore_errors=True)
        shutil.copytree(kept, folder)
        status, printed, said = run(folder, command, ordinary)
        changed = changes(folder, kept)
        wholes.append((status, printed, said, changed))
        if changed != [name for name in [command[2]] if name] or status not in (0, 1, 2) or (status == 1 and said.count(b"\n") != 1):
            say(command, ordinary, f"status {status}, it changed {changed}, and said {said}")
    every = [(a, b, c) for a in INPUTS for b in OUTPUTS for c in ERRORS]
    closed = ("whole", "closed")
    for command, whole in zip(COMMANDS, wholes):
        for ways in every:
            is_one_alone = sum(way != "whole" for way in ways) == 1
            if is_one_alone or all(way in closed for way in ways):
                judge(command, ways, whole, folder, kept)
    for _ in range(COMBINATIONS):
        at = pick.randrange(len(COMMANDS))
        judge(COMMANDS[at], pick.choice(every), wholes[at], folder, kept)


def try_files(folder, kept):
    """Each command on what is no VM file, or no file at all."""
    shutil.rmtree(folder, ignore_errors=True)
    shutil.copytree(kept, folder)
    os.mkfifo(f"{folder}/pipe")
    os.mkdir(f"{folder}/a folder")
    os.symlink("ring", f"{folder}/ring")
    os.symlink("pipe", f"{folder}/link")
    os.symlink("nowhere", f"{folder}/dangling")
    with socket.socket(socket.AF_UNIX) as bound:
        bound.bind(f"{folder}/socket")
    there = ["pipe", "a folder", "a folder/", "ring", "link", "dangling", "socket", "/dev/null", "/dev/full", "."]
    if os.geteuid() != 0:
        shutil.copyfile(f"{folder}/file.vm", f"{folder}/unreadable")
        os.chmod(f"{folder}/unreadable", 0)
        there.append("unreadable")
    missing = ["missing", "missing/file", "text.asm/file", "", "x" * 300, "-"]
    names = sorted(os.listdir(folder))
    for path in there + missing:
        tries = [(["dump", path], "read"), (["map", path], "read"), (["run", "image", path, "script"], "read")]
        tries += [(["copy", path, "new.vm"], "read"), (["diff", path, "file.vm"], "read"), (["diff", "file.vm", path], "read")]
        tries += [(["dump", path, "1", "16"], "read"), (["get", path, "1", "16"], "read"), (["put", path, "1", "16"], "read")]
        tries += [(["get", path, "1", "16", "--array"], "read"), (["put", path, "1", "16", "--array", "-"], "read")]
        tries += [(["put", path, "--new-group"], "read"), (["test", "image", "test.script", "--file", path], "read")]
        tries += [([command, "image", "get", "--file", path], "read") for command in ("call", "trace")]
        if path in there:
            tries += [(["new", path], "write"), (["copy", "file.vm", path], "write")]
        if path in ("a folder", "a folder/", "ring", "socket", "/dev/full", ".", "missing/file", "text.asm/file", "", "x" * 300):
            tries.append((["asm", "text.asm", path], "write"))
        if path in ("a folder", "ring", "dangling", "socket", "missing", "", "x" * 300):
            tries += [(["check", path], "read"), (["asm", path, "new.image"], "read"), (["run", "image", "file.vm", path], "read")]
        for words, verb in tries:
            command = (words, None, None)
            answer = run(folder, command, ("whole", "whole", "whole"))
            shown = path or "''"
            if answer != (1, b"", f"cannot {verb} {shown}\n".encode()):
                say(command, ["no VM file"], f"{answer}")
            if sorted(os.listdir(folder)) != names:
                say(command, ["no VM file"], "it made or removed a file")


def main():
    with tempfile.TemporaryDirectory() as folder:
        make_files(f"{folder}/kept")
        try_streams(f"{folder}/made", f"{folder}/kept")
        try_files(f"{folder}/made", f"{folder}/kept")
    print(f"{wrong} wrong")


main()
