"""What runs when the power is cut: programs that change files, and which states of each file may be found at a moment.

A workload runs twice. On a plain folder it looks at each state of its files. On the disk that is cut it notes how long the log of the disk was
when a change was begun, and when the program said that the change was done."""

from __future__ import annotations

import hashlib
import os
import random
import subprocess
from collections.abc import Callable
from typing import NamedTuple, Optional

HERE = os.path.dirname(os.path.abspath(__file__))
ROUTINES = os.path.join(HERE, "blocks.asm")
ABSENT = "absent"
# The states of each file, as they were seen.
Known = dict[str, list[str]]
# The commits of scripts, in turn. A revert finds a saved state from then on.
COMMITS = ("update", "save", "update", "revert")


class State(NamedTuple):
    """A state of a file: what is seen of it, and how long the log was when it was begun and when it was done."""

    seen: str
    begun: int
    done: int


class Timeline:
    """The states of a file, in order, and what looks at it."""

    def __init__(self, look: Callable[[str], str]) -> None:
        self.look = look
        self.states = [State(ABSENT, 0, 0)]

    def due(self, length: int) -> tuple[int, int]:
        """The last state that is done, and the last that is begun, where the log has this length."""
        done = max(n for n, state in enumerate(self.states) if state.done <= length)
        begun = max(n for n, state in enumerate(self.states) if state.begun <= length)
        return done, begun


class Programs(NamedTuple):
    """geos, and what commits.c makes, if there is a library."""

    geos: str
    commits: str


class Run:
    """A run of a workload in a folder. `length` tells how long the log is. `known` has the states of each file, if they have been seen."""

    def __init__(self, programs: Programs, folder: str, length: Callable[[], int], known: Optional[Known], env: dict[str, str]) -> None:
        self.program, self.commits = programs
        self.folder, self.length, self.known, self.env = folder, length, known, env
        self.timelines: dict[str, Timeline] = {}
        # Bases of SQLite, which are closed when the run is over, since a close commits more.
        self.open: list = []

    def path(self, name: str) -> str:
        return os.path.join(self.folder, name)

    def note(self, name: str, begun: int, look: Optional[Callable[[str], str]] = None, seen: Optional[str] = None) -> None:
        """Notes that a file has its next state now."""
        line = self.timelines.setdefault(name, Timeline(look or self.look))
        if seen is None:
            seen = line.look(self.path(name)) if self.known is None else self.known[name][len(line.states)]
        line.states.append(State(seen, begun, self.length()))

    def look(self, path: str) -> str:
        """What geos says of a VM file: a digest of all that it has, or its fault."""
        if not os.path.exists(path):
            return ABSENT
        dump = subprocess.run([self.program, "dump", "--chunks", path], capture_output=True)
        return hashlib.sha256(dump.stdout).hexdigest() if dump.returncode == 0 else "refused: " + dump.stderr.decode(errors="replace")

    def geos(self, name: str, *words: str, given: str = "", look: Optional[Callable[[str], str]] = None) -> None:
        """Runs a command that changes a file once."""
        begun = self.length()
        done = subprocess.run([self.program, *words], input=given.encode(), capture_output=True, env=self.env)
        if done.returncode != 0:
            raise RuntimeError(f"geos {' '.join(words)}: status {done.returncode}: {done.stderr.decode(errors='replace')}")
        self.note(name, begun, look)

    def new(self, name: str, area: int) -> None:
        self.geos(name, "new", self.path(name), "--area", str(area))

    def call(self, name: str, script: str) -> None:
        self.geos(name, "call", ROUTINES, "--file", self.path(name), given=script)

    def script(self, name: str, parts: list[str]) -> None:
        """Runs one process with a commit for each part, behind which it prints a line."""
        parts = [f"{part}\ncall say {n}\n" for n, part in enumerate(parts)]
        if self.known is None:
            for part in parts:
                self.call(name, part)
            return
        self.lines(name, len(parts), [self.program, "call", ROUTINES, "--file", self.path(name)], "".join(parts))

    def library(self, name: str, commits: int) -> None:
        """Runs a program of the library that makes a file and commits it, and prints a line behind each."""
        words = [self.commits, self.path(name)]
        if self.known is not None:
            self.lines(name, commits + 1, [*words, str(commits)])
            return
        for n in range(commits + 1):
            subprocess.run([*words, str(n)], check=True, capture_output=True)
            self.note(name, 0)
            if n < commits:
                os.remove(self.path(name))

    def lines(self, name: str, count: int, words: list[str], given: str = "") -> None:
        """Runs a program that prints so many lines, each behind a change of the file."""
        begun, told = self.length(), 0
        with subprocess.Popen(words, stdin=subprocess.PIPE, stdout=subprocess.PIPE, env=self.env) as process:
            process.stdin.write(given.encode())
            process.stdin.close()
            while got := os.read(process.stdout.fileno(), 1 << 16):
                for _ in range(got.count(b"\n")):
                    self.note(name, begun)
                    told += 1
        if process.returncode != 0 or told != count:
            raise RuntimeError(f"{' '.join(words)}: status {process.returncode}, {told} lines")


def new(run: Run) -> None:
    """Files of several lengths are made."""
    os.mkdir(run.path("folder"))
    for name, area in (("a.vm", 512), ("b.vm", 65536), ("folder/c.vm", 1 << 20), ("d.vm", 4 << 20), ("folder/e.vm", 4096)):
        run.new(name, area)


def script(run: Run) -> None:
    """One process commits a small file again and again."""
    run.new("script.vm", 8192)
    parts = ["call make 64\nupdate"]
    parts += [f"call poke {n % 31 * 2} {n + 1000} @1\n{COMMITS[n % 4]}" for n in range(1, 20)]
    run.script("script.vm", parts)


def processes(run: Run) -> None:
    """A process for each commit of a file that lies in one page of memory."""
    run.new("small.vm", 512)
    run.call("small.vm", "call make 8\nsave\n")
    for n in range(12):
        run.call("small.vm", f"call poke 0 {n + 1} @1\n{COMMITS[n % 4]}\n")


def many(run: Run) -> None:
    """Each commit changes, lengthens and shortens some of forty blocks."""
    choices = random.Random(7)
    run.new("many.vm", 131072)
    parts = ["".join(f"call make {choices.randrange(2, 1200)}\n" for _ in range(40)) + "save"]
    for n in range(1, 16):
        changes = [f"call poke 0 {choices.randrange(65536)} @{block}" for block in choices.sample(range(1, 41), 6)]
        changes.append(f"call resize {choices.randrange(2, 1500)} @{choices.randrange(1, 41)}")
        parts.append("\n".join([*changes, COMMITS[n % 4]]))
    run.script("many.vm", parts)


def big(run: Run) -> None:
    """Pairs of 100,000 bytes and more, of which a commit writes only what differs."""
    choices = random.Random(3)
    run.new("big.vm", 262144)
    parts = ["call make 20000\n" * 5 + "save"]
    for _ in range(14):
        at = choices.choice((0, 19998, choices.randrange(19998)))
        parts.append(f"call poke {at} {choices.randrange(65536)} @{choices.randrange(1, 6)}\n{choices.choice(COMMITS)}")
    run.script("big.vm", parts)


def put(run: Run) -> None:
    """Chunks are put into a file."""
    choices = random.Random(11)
    run.new("put.vm", 65536)
    run.call("put.vm", "call make 2\ncall make 2\nsave\n")
    for n in range(10):
        content = "".join(chr(choices.randrange(32, 127)) for _ in range(choices.choice((1, 40, 700, 5000))))
        run.geos("put.vm", "put", run.path("put.vm"), str(1 + n % 2), "16", given=content)


def copy(run: Run) -> None:
    """A file is copied to areas of several sizes."""
    run.new("file.vm", 4096)
    run.call("file.vm", "call make 64\nsave\n")
    run.call("file.vm", "call poke 0 7 @1\nupdate\n")
    for n, area in enumerate((512, 1024, 65536, 1 << 20)):
        for option in ([], ["--saved"]):
            name = f"copy{n}{'saved' if option else ''}.vm"
            run.geos(name, "copy", run.path("file.vm"), run.path(name), "--area", str(area), *option)


def asm(run: Run) -> None:
    """Images are made and replaced."""
    for n in range(10):
        text = f"routine add public budget 40\n LDI w1 {n}\n" + " OUT w1 end\n" * (1 + n * 7 % 23) + "end:\n RET\n"
        run.geos("out.image", "asm", "-", run.path("out.image"), given=text, look=look_at_bytes)
        run.geos("out.asm", "budget", "-", run.path("out.asm"), given=text, look=look_at_bytes)


def library(run: Run) -> None:
    """A C program makes files and commits with the library."""
    for name in ("a.vm", "b.vm", "c.vm"):
        run.library(name, 0)
    run.library("library.vm", 12)


def look_at_bytes(path: str) -> str:
    """A digest of a file."""
    if not os.path.exists(path):
        return ABSENT
    with open(path, "rb") as file:
        return hashlib.sha256(file.read()).hexdigest()


def _write(path: str, n: int, is_synced: bool) -> None:
    with open(path, "wb") as file:
        file.write(b"%d " % n * 1000)
        if is_synced:
            file.flush()
            os.fsync(file.fileno())


def no_sync(run: Run) -> None:
    """A program that syncs nothing, and then other programs do."""
    for n in range(12):
        begun = run.length()
        _write(run.path("file"), n, is_synced=False)
        run.note("file", begun, look_at_bytes)
    if run.known is not None:
        subprocess.run(["sync", "-f", run.folder], check=True)


def replace(run: Run) -> None:
    """A program that writes a file under another name, syncs, renames it, and syncs the folder."""
    folder = os.open(run.folder, os.O_RDONLY)
    for n in range(12):
        begun = run.length()
        _write(run.path("part"), n, is_synced=True)
        os.rename(run.path("part"), run.path("file"))
        os.fsync(folder)
        run.note("file", begun, look_at_bytes)
    os.close(folder)


def look_at_table(path: str) -> str:
    """How many rows a base of SQLite has."""
    import sqlite3

    if not os.path.exists(path):
        return ABSENT
    base = sqlite3.connect(path)
    try:
        rows = base.execute("select count(*) from t").fetchone()[0]
        return f"{rows} rows, {base.execute('pragma integrity_check').fetchone()[0]}"
    except sqlite3.Error as error:
        return "no table" if "no such table" in str(error) else f"refused: {error}"
    finally:
        base.close()


def _sqlite(run: Run, journal: str, synchronous: str) -> None:
    import sqlite3

    begun = run.length()
    base = sqlite3.connect(run.path("base.db"), isolation_level=None)
    base.execute(f"pragma journal_mode={journal}")
    base.execute(f"pragma synchronous={synchronous}")
    base.execute("create table t (n integer, x blob)")
    for seen in ("no table", "0 rows, ok"):
        run.note("base.db", begun, look_at_table, seen)
    for n in range(1, 15):
        begun = run.length()
        base.execute("insert into t values (?, ?)", (n, bytes(3000)))
        run.note("base.db", begun, look_at_table, f"{n} rows, ok")
    run.open.append(base)


def sqlite_full(run: Run) -> None:
    """SQLite with synchronous=FULL and a journal that it deletes, as it comes."""
    _sqlite(run, "delete", "full")


def sqlite_extra(run: Run) -> None:
    """The same with synchronous=EXTRA, which syncs the folder of the journal too."""
    _sqlite(run, "delete", "extra")


def sqlite_wal(run: Run) -> None:
    """SQLite with a write-ahead log."""
    _sqlite(run, "wal", "full")


OF_GEOS = {work.__name__: work for work in (new, script, processes, many, big, put, copy, asm, library)}
CONTROLS = {work.__name__: work for work in (no_sync, replace, sqlite_full, sqlite_extra, sqlite_wal)}
