"""Builds a program or a static library of crates/, and proves each crate that it stands on.

usage: build NAME              builds NAME, unless it is built from the present sources, and prints its path
       build --run WORD..      builds geos, and then runs ./geos with these words
       build --has NAME        prints its path if it is built from the present sources; otherwise ends with status 1
       build --minutes NAME    prints how many minutes a build takes from nothing on this machine
       build --sums NAME..     prints the checksums of what these are built from
       build --take NAME.. SUMS
                               takes what `rt ci` has built at the top of the repository, if the file SUMS still has its checksums

What the build says goes to standard error. Status 1: it was not built; the last line says why. Status 2: wrong words.
"""

from __future__ import annotations

import streams

streams.open_closed()

import contextlib
import fcntl
import os
import shutil
import subprocess
import sys
from collections.abc import Iterator
from pathlib import Path

import crates
from crates import TOP, Crate
from plan import Plan
from progress import Progress, minutes

OUT = TOP / "out"
LOG = OUT / "log"
# What a repository of some crates needs of each: no edits that must fail.
COPIED = ("src", "specs", "proofs", "args", "stdin", "stdout", "status", "data")


class NotBuilt(Exception):
    """Why there is no program, in one line."""


def say(text: str) -> None:
    streams.say(f"build: {text}")


def stamp_of(crate: Crate) -> Path:
    """The file that says what the program or the library was built from."""
    return crate.folder / "out" / f"{crate.name}.sums"


def stamp_text(crate: Crate, sums: str) -> str:
    """The checksums of the sources, and then of the files that were built of them."""
    return sums + "".join(f"{crates.checksum(file)} {file.name}\n" for file in crate.outputs)


def is_built(crate: Crate, sums: str) -> bool:
    try:
        return stamp_of(crate).read_text() == stamp_text(crate, sums)
    except OSError:
        return False


def stamp(crate: Crate, sums: str) -> None:
    """Writes down that the program or the library was built from sources with these checksums."""
    made = stamp_of(crate).with_suffix(f".{os.getpid()}")
    made.write_text(stamp_text(crate, sums))
    made.replace(stamp_of(crate))


def ready(crate: Crate) -> None:
    """Checks that a build can begin, before anything is written."""
    if not shutil.which("rt"):
        raise NotBuilt("a build is due, but there is no rt on the PATH; README.md says what it takes")
    for folder in (crate.folder / "out", OUT):
        with contextlib.suppress(OSError):
            folder.mkdir(exist_ok=True)
        if not os.access(folder, os.W_OK):
            raise NotBuilt(f"a build is due, but {folder} can't be written")


@contextlib.contextmanager
def locked() -> Iterator[None]:
    """Waits until no other build is at work in this checkout."""
    try:
        lock = open(OUT / "lock", "a")
    except OSError:
        raise NotBuilt(f"a build is due, but {OUT / 'lock'} can't be written") from None
    with lock:
        try:
            fcntl.flock(lock, fcntl.LOCK_EX | fcntl.LOCK_NB)
        except BlockingIOError:
            say("another build is at work here; waiting for it")
            fcntl.flock(lock, fcntl.LOCK_EX)
        yield


@contextlib.contextmanager
def room(some: list[Crate]) -> Iterator[Path]:
    """A repository of only these crates, in a folder that is removed at the end."""
    folder = OUT / "room"
    shutil.rmtree(folder, ignore_errors=True)
    try:
        try:
            (folder / ".git").mkdir(parents=True)
            shutil.copy(TOP / "HANDLES", folder)
            for crate in some:
                add(crate, folder)
        except OSError as error:
            raise NotBuilt(f"a build is due, but its sources can't be copied to {folder}: {error.strerror or error}") from None
        yield folder
    finally:
        shutil.rmtree(folder, ignore_errors=True)


def add(crate: Crate, folder: Path) -> None:
    """Adds a crate to a repository."""
    to = folder / "crates" / crate.name
    to.mkdir(parents=True)
    for part in map(crate.folder.joinpath, COPIED):
        if part.is_dir():
            shutil.copytree(part, to / part.name, ignore_dangling_symlinks=True)  # an editor's locks
        elif part.exists():
            shutil.copy(part, to)
    with (folder / "crates.txt").open("a") as listed:
        listed.write(f"{crate.line}\n")


def prove(folder: Path, some: list[Crate]) -> None:
    """Runs `rt ci` in a repository of some crates, and shows how far it is."""
    progress = Progress(Plan(some, os.cpu_count() or 1))
    # Without RT_JOBS, a proof that begins while cores are idle gets these too, as the last ones of a build do.
    command = subprocess.Popen(
        ["rt", "ci"],
        cwd=folder,
        stdin=subprocess.DEVNULL,
        stdout=subprocess.PIPE,
        stderr=subprocess.STDOUT,
        text=True,
        errors="replace",
    )
    last = ""
    try:
        with LOG.open("w") as log:
            for line in command.stdout or ():
                log.write(line)
                progress.read(line)
                last = line.strip() or last
    finally:
        stop(command)
        progress.end()
    if command.returncode:
        raise NotBuilt(f"{LOG} says why: {last}")


def stop(command: subprocess.Popen[str]) -> None:
    """Waits for a command's end. If this process has been told to stop, the command is told so first."""
    if sys.exc_info()[0] is not None:
        command.terminate()
    command.wait()


def take(crate: Crate, folder: Path) -> None:
    """Takes the program from a repository in which its crates were proved, or makes the library there."""
    if crate.is_static_library:
        crate.built.parent.mkdir(exist_ok=True)
        if folder != TOP:
            add(crate, folder)
        archive = TOP / "library" / "archive.sh"
        if subprocess.run([archive, folder, crate.name, crate.built], stdout=2).returncode:
            raise NotBuilt(f"{crate.name} was not proved, or does not compile")
    elif folder != TOP:
        shutil.move(folder / "crates" / crate.name / "out" / crate.name, crate.built)


def build(all_crates: dict[str, Crate], crate: Crate) -> None:
    """Proves the crates that `crate` stands on, and leaves the program or the library in its folder `out`."""
    ready(crate)
    with locked():
        sums = crates.sums(all_crates, crate.name)
        if is_built(crate, sums):
            return
        # Making a static library proves its own crate, so only those below it are proved before.
        some = crates.below(all_crates, crate.name)[: -1 if crate.is_static_library else None]
        say(f"proving {len(some)} crates for {crate.name} first, about {whole_minutes(some)} minutes from nothing")
        with room(some) as folder:
            if crates.sums(all_crates, crate.name) != sums:
                raise NotBuilt("sources have changed while they were copied; run it again")
            stamp_of(crate).unlink(missing_ok=True)
            prove(folder, some)
            take(crate, folder)
        # The sources of a static library itself are copied last.
        if crate.is_static_library and not sums.endswith(crates.sums({crate.name: crate}, crate.name)):
            raise NotBuilt(f"sources of {crate.name} have changed since the build began; run it again")
        stamp(crate, sums)


def whole_minutes(some: list[Crate]) -> int:
    return minutes(Plan(some, os.cpu_count() or 1).left(set(), {}))


def take_all(all_crates: dict[str, Crate], names: list[str], sums: Path) -> None:
    """Takes what `rt ci` has built at the top of the repository, if its sources have not changed since `sums` was written."""
    if "".join(crates.sums(all_crates, name) for name in names) != sums.read_text():
        raise NotBuilt("sources have changed since the gate began")
    # An earlier `rt check` here leaves libraries with a stamp, perhaps of other sources, and `rt ci` puts them back in their places.
    is_stale = any(TOP.glob("crates/*/out/rlib/stamp"))
    for crate in map(all_crates.__getitem__, names):
        if not (crate.is_static_library and is_stale):
            try:
                take(crate, TOP)
                stamp(crate, crates.sums(all_crates, crate.name))
            except (NotBuilt, OSError) as why:  # a later `build` builds this one
                say(f"{crate.name} was not taken: {why}")


def answer(words: list[str]) -> int:
    """Does what the words say, and returns the exit status."""
    all_crates = crates.read()
    if words[:1] == ["--run"]:
        build(all_crates, all_crates["geos"])
        streams.become(TOP / "geos", *words[1:])
    flag = words.pop(0) if words and words[0].startswith("--") else ""
    sums = Path(words.pop()) if flag == "--take" and words else None
    if not words or not all(name in all_crates and can_be_built(all_crates[name]) for name in words):
        say("give the name of a program or a static library of crates/, as in `build geos`")
        return 2
    crate = all_crates[words[0]]
    if flag == "--sums":
        print("".join(crates.sums(all_crates, name) for name in words), end="")
    elif flag == "--minutes":
        print(whole_minutes(crates.below(all_crates, crate.name)))
    elif sums:
        with locked():
            take_all(all_crates, words, sums)
    elif flag == "--has" or not flag:
        if not is_built(crate, crates.sums(all_crates, crate.name)):
            if flag:
                return 1
            build(all_crates, crate)
        print(crate.built)
    else:
        say(f"there is no {flag}; `build NAME`, `--run`, `--has`, `--minutes`, `--sums` and `--take` are there")
        return 2
    return 0


def can_be_built(crate: Crate) -> bool:
    return crate.is_program or crate.is_static_library


def main() -> int:
    streams.end_on_signals()
    try:
        return answer(sys.argv[1:])
    except NotBuilt as why:
        say(str(why))
        return 1
    except OSError as error:
        say(f"not built: {error.filename}: {error.strerror}" if error.filename else f"not built: {error.strerror}")
        return 1


if __name__ == "__main__":
    sys.exit(main())
