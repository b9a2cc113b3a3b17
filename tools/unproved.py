"""Runs `geos` from its sources without proving them, for a request that changes no file.

usage: unproved WORD..     the words of `geos`

Standard output and the exit status are the program's own. What an unproved run cannot do is an error in one line.
A request that may change a file, or reads one that others may be changing, needs the proved program, which `build --run` builds and runs.
"""

from __future__ import annotations

import streams

CLOSED = streams.open_closed()

import contextlib
import os
import re
import shutil
import stat
import subprocess
import sys
import tempfile
import unicodedata
from collections.abc import Iterator
from dataclasses import dataclass, field
from pathlib import Path

from crates import TOP

# What `rt try` takes of standard input and of each file, in bytes.
MOST_INPUT = 64 << 20
# How long the program may run, in seconds, once it is compiled.
MOST_SECONDS = 600
CURE = "run `./build geos` first, and then again"
# Lines of `rt try` about its own work, after the program's standard error.
OWN_LINE = re.compile(rb"(interpreter|checked|races): |run=|rt: ")
# Names that `rt try` keeps for itself in the folder in which the program runs.
TAKEN = ("program", "stdin", "stdout", "stderr", "given")
# The options of `geos` with a word after them.
WITH_WORD = ("--break", "--color", "--file", "--from", "--grant", "--html", "--journal", "--junit", "--language", "--most-blocks", "--most-bytes", "--most-steps", "--only", "--region", "--script", "--steps", "--watch", "--when")
# The options of `call`, `explain`, `test` and `trace` that name a VM file, or a file that is written.
NEEDS_PROOF = ("--file", "--html", "--junit")
# The options that may stand before the command.
ANYWHERE = ("--color", "--diagnostics", "--no-warnings")
# The ending of the names of sources, by which the program knows them.
SOURCE = ".tkv"
# A line of a source that uses another file.
USE = re.compile(rb'^use +"([^"\n]*)"[ \t]*;', re.MULTILINE)
SCRIPT = "--script="


class Refused(Exception):
    """What an unproved run cannot do, in one line."""


def say(text: str) -> None:
    streams.say(f"geos: {text}")


@dataclass
class Request:
    """The words of `geos`, and what they ask of files."""

    words: list[str]
    plain: list[int] = field(default_factory=list)  # places of the command's words that are no options
    scripts: list[int] = field(default_factory=list)  # places of the words that name a script to explain

    def __post_init__(self) -> None:
        option = ""
        first = self.first
        for place, word in enumerate(self.words[first + 1 :], start=first + 1):
            if option == "--script" or word.startswith(SCRIPT):
                self.scripts.append(place)
            elif option == "--" or not option and (word == "-" or not word.startswith("-")):
                self.plain.append(place)
            if option != "--":
                option = word if not option and word in (*WITH_WORD, "--") else ""

    @property
    def first(self) -> int:
        """The place of the command, which options may precede."""
        place = 0
        while place < len(self.words) and self.words[place].split("=")[0] in ANYWHERE:
            place += 2 if self.words[place] in WITH_WORD else 1
        return min(place, len(self.words))

    @property
    def command(self) -> str:
        return self.words[self.first] if self.first < len(self.words) else ""

    @property
    def asks_for_help(self) -> bool:
        """Whether it prints help, or is refused: no command does anything with one of these words before `--`."""
        end = self.words.index("--") if "--" in self.words else None
        return not {"-h", "--help"}.isdisjoint(self.words[:end])

    def needs_proof(self) -> bool:
        """Whether it may change a file, or reads a VM file."""
        if self.asks_for_help:
            return False
        if self.command in ("call", "explain", "test", "trace"):
            return any(word in NEEDS_PROOF or word.startswith(tuple(f"{name}=" for name in NEEDS_PROOF)) for word in self.words)
        if self.command in ("budget", "fmt") and "--in-place" in self.words:
            return True
        if self.command in ("asm", "budget", "fmt"):
            return len(self.plain) > 1 and self.words[self.plain[1]] != "-"
        if self.command == "check":
            return any(is_vm_file(self.words[place]) for place in self.plain[:1])
        return self.command in ("new", "copy", "run", "put", "get", "dump", "diff", "map", "shell", "lsp")

    def inputs(self) -> list[int]:
        """Where the words stand that name files to read."""
        if self.asks_for_help:
            return []
        if self.command == "test":
            return self.plain
        reads = self.command in ("call", "trace", "asm", "budget", "fmt", "list", "check", "explain")
        return [*(self.plain[:1] if reads else []), *self.scripts]

    def reads_standard_input(self) -> bool:
        if not self.command:
            return True
        if self.command == "call" and len(self.plain) == 1 and not self.asks_for_help:
            return True
        return any(self.words[place] == "-" for place in self.inputs())


def is_vm_file(word: str) -> bool:
    """Whether the path leads to a regular file that begins as a VM file does."""
    try:
        if not stat.S_ISREG(os.stat(word).st_mode):
            return False
        with open(word, "rb") as file:
            return file.read(4) == b"GVM1"
    except (OSError, ValueError):
        return False


@dataclass
class Trial:
    """The words and files that the program gets in the folder in which `rt try` runs it."""

    words: list[str]
    copies: Path  # the folder that the copies of files go to
    files: dict[str, Path] = field(default_factory=dict)  # the name there, and the copy
    renamed: dict[str, str] = field(default_factory=dict)  # the name there, and the word that the caller gave

    def give(self, place: int) -> None:
        """Gives the program the file that a word names, under the same name if the folder can have that."""
        word = self.words[place]
        option = SCRIPT if word.startswith(SCRIPT) else ""
        name = word = word.removeprefix(option)
        if not_text(word) or name in self.files:
            return  # the program refuses it, or the caller names it twice
        if os.path.normpath(word) != word or name.split("/")[0] in ("", "..", *TAKEN) or "=" in word:
            name = f"given/{len(self.renamed)}{SOURCE if word.endswith(SOURCE) else ''}"
            self.renamed[name] = word
            self.words[place] = option + name
        self.copy(name, word)

    def copy(self, name: str, word: str) -> None:
        """Gives the program the file that a word names under a name, and those that it uses if it is a source."""
        if name in self.files:
            return
        try:
            if not stat.S_ISREG(os.stat(word).st_mode):
                raise Refused(f"an unproved run reads regular files only, and {word!r} is none; {CURE}")
            file = os.open(word, os.O_RDONLY)
        except OSError:
            return  # the program finds no such file either
        # A copy, as a name like /dev/stdin means another file to `rt`, and as others may change the file.
        self.files[name] = self.copies / str(len(self.files))
        try:
            if not copied(file, self.files[name]):
                raise Refused(f"an unproved run reads at most {MOST_INPUT} bytes, and {word!r} has more; {CURE}")
        finally:
            os.close(file)
        if name.endswith(SOURCE):
            self.copy_used(name, word)

    def copy_used(self, name: str, word: str) -> None:
        """Gives the program the files that a source uses, at the same places beside it."""
        for found in USE.findall(self.files[name].read_bytes()):
            used = found.decode(errors="replace")
            there = os.path.normpath(os.path.join(os.path.dirname(name), used))
            given = there.startswith("given/") and name.startswith("given/")
            if os.path.isabs(used) or (there.split("/")[0] in ("..", *TAKEN) and not given):
                raise Refused(f"an unproved run reads no file outside of the folder of the source, as {used!r}; {CURE}")
            path = os.path.join(os.path.dirname(word), used)
            if given:
                self.renamed.setdefault(there, path)
            self.copy(there, path)

    @property
    def names_scripts(self) -> bool:
        """Whether the program prints the names of files on standard output."""
        return Request(self.words).command == "test"

    def restored(self, said: bytes) -> bytes:
        """A message of the program with the names that the caller gave, written as the program writes names."""
        names = {os.fsencode(name): shown(word) for name, word in self.renamed.items()}
        return re.sub(rb"given/[^\s:,]+", lambda found: names.get(found[0], found[0]), said)


def shown(word: str) -> bytes:
    """A name in a message: '' for an empty one, and the bytes of control characters in hexadecimal."""
    return "".join(
        "".join(f"\\x{byte:02x}" for byte in each.encode()) if unicodedata.category(each) == "Cc" else each for each in word
    ).encode() or b"''"


def not_text(word: str) -> bool:
    """Whether a word of the command line is not UTF-8."""
    try:
        word.encode()
    except UnicodeEncodeError:
        return True
    return False


def copied(number: int, to: Path) -> bool:
    """Copies a stream up to its end to a file, if it is not too long."""
    size = 0
    with to.open("wb") as copy:
        while more := os.read(number, 1 << 20):
            size += len(more)
            if size > MOST_INPUT:
                return False
            copy.write(more)
    return True


def trial_of(request: Request, copies: Path) -> Trial:
    trial = Trial(list(request.words), copies)
    for place in request.inputs():
        if trial.words[place] != "-":
            trial.give(place)
    return trial


def copy_input(request: Request, to: Path) -> None:
    """Copies standard input to a file, up to its end."""
    if not request.reads_standard_input():
        to.touch()
        return
    if 0 in CLOSED:
        raise Refused("cannot read standard input: it is closed")
    if os.isatty(0):
        raise Refused(f"an unproved run reads no terminal: give a file with `< FILE`, or {CURE}")
    if not copied(0, to):
        raise Refused(f"an unproved run reads at most {MOST_INPUT} bytes of standard input; {CURE}")


@contextlib.contextmanager
def folder() -> Iterator[Path]:
    """A folder for this run, which is removed at its end."""
    made = Path(tempfile.mkdtemp(prefix="geos-unproved-"))
    try:
        yield made
    finally:
        shutil.rmtree(made, ignore_errors=True)


def command_of(trial: Trial) -> list[str]:
    command = ["rt", "try", "--steps", "1", "--seconds", str(MOST_SECONDS)]
    for name, file in trial.files.items():
        command += ["--data", f"{name}={file}"]
    return [*command, "--", *trial.words]


def run(trial: Trial, given: Path) -> tuple[int, bytes, bytes]:
    """Compiles the program without proof and runs it. Returns the status of `rt try` and what came on its two streams."""
    with given.open("rb") as standard_input:
        command = subprocess.Popen(
            command_of(trial),
            cwd=TOP / "crates" / "geos",
            env={**os.environ, "TMPDIR": str(given.parent)},
            stdin=standard_input,
            stdout=subprocess.PIPE,
            stderr=subprocess.PIPE,
        )
    try:
        printed, said = command.communicate()
    finally:
        if command.poll() is None:
            command.terminate()
            command.wait()
    return command.returncode, printed, said


def own_lines(said: bytes) -> tuple[bytes, bytes]:
    """Parts what `rt try` said into the program's standard error and the lines about the run."""
    lines = said.splitlines(keepends=True)
    count = len(lines)
    while count and OWN_LINE.match(lines[count - 1]):
        count -= 1
    first = 0
    while first < count and lines[first].startswith(b"rt: "):
        first += 1
    return b"".join(lines[first:count]), b"".join(lines[count:])


def write(number: int, text: bytes) -> None:
    if text and number in CLOSED:
        raise OSError
    while text:
        text = text[os.write(number, text) :]


def report(trial: Trial, status: int, printed: bytes, said: bytes) -> int:
    """Passes on what the program printed and said, and returns its status."""
    own, about = own_lines(said)
    if b"run=ended" not in about:
        reason = (about or said).decode(errors="replace").strip().splitlines()
        why = next((line for line in reason if line.startswith("checked: ")), reason[-1] if reason else "rt was stopped")
        raise Refused(f"the unproved run gave no answer: {why.removeprefix('checked: ').removeprefix('no-answer: ')}; {CURE}")
    with contextlib.suppress(OSError):
        write(2, trial.restored(own))
    try:
        write(1, trial.restored(printed) if trial.names_scripts else printed)
    except OSError:
        raise Refused("cannot write -") from None
    return status


def answer(words: list[str]) -> int:
    request = Request(words)
    if request.needs_proof():
        streams.become(TOP / "build", "--run", *words)
    minutes = subprocess.run([TOP / "build", "--minutes", "geos"], capture_output=True, text=True).stdout.strip()
    with folder() as made:
        trial = trial_of(request, made)
        given = made / "input"
        copy_input(request, given)
        say(
            "this run uses an unproved build, which takes about 2 minutes to compile; "
            f"`./build geos` (about {minutes} minutes) or `./test` proves everything, and then ./geos uses the proved program"
        )
        status, printed, said = run(trial, given)
    return report(trial, status, printed, said)


def main() -> int:
    streams.end_on_signals()
    try:
        return answer(sys.argv[1:])
    except Refused as why:
        say(str(why))
    except OSError as error:
        say(f"the unproved run failed: {error.strerror}; {CURE}")
    return 1


if __name__ == "__main__":
    sys.exit(main())
