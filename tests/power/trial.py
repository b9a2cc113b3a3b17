"""A trial: a workload on a file system, over the disk of disk.c, and power cuts of that disk."""

from __future__ import annotations

import os
import random
import shutil
import signal
import subprocess
import tempfile
import time
from collections import Counter
from collections.abc import Callable, Iterator
from contextlib import ExitStack, contextmanager
from typing import NamedTuple, Optional

import cuts
import workloads

MIB = 1 << 20
# Of each file system: the size of its disk, and the command that makes it.
FILE_SYSTEMS = {
    "ext4": (48 * MIB, ["mkfs.ext4", "-q", "-F", "-b", "4096"]),
    "xfs": (320 * MIB, ["mkfs.xfs", "-q", "-f", "-K"]),
    "btrfs": (128 * MIB, ["mkfs.btrfs", "-q", "-f", "-K"]),
}
# The longest time in microseconds in which the disk answers.
LONGEST_WAIT = 1500
# What a cut file is found to be: a state that is due, an older one, refused by `geos dump`, any other; or the file system was not mounted.
FOUND = ("good", "older", "refused", "other", "not mounted")


class Trial(NamedTuple):
    """A workload on a file system; `lost` are the syncs that the program leaves out."""

    system: str
    workload: str
    lost: str = ""

    def __str__(self) -> str:
        return f"{self.system} {self.workload}" + (f" without {self.lost}" if self.lost else "")


class Tools(NamedTuple):
    """The programs that are tried, the disk, the library that leaves out syncs, and a folder for disks."""

    programs: workloads.Programs
    disk: str
    lost_syncs: str
    folder: str


def _do(*words: str) -> str:
    done = subprocess.run(words, capture_output=True, text=True)
    if done.returncode != 0:
        raise RuntimeError(f"{' '.join(words)}: {done.stderr.strip()}")
    return done.stdout.strip()


@contextmanager
def _loop(image: str, *options: str) -> Iterator[str]:
    device = _do("losetup", "-f", "--show", *options, image)
    try:
        yield device
    finally:
        _do("losetup", "-d", device)


def _unmount(folder: str) -> None:
    for _ in range(50):
        if subprocess.run(["umount", folder], capture_output=True).returncode == 0:
            return
        time.sleep(0.1)
    _do("umount", "-l", folder)


@contextmanager
def _mounted(system: str, device: str, folder: str) -> Iterator[None]:
    _do("mount", "-t", system, device, folder)
    try:
        yield
    finally:
        _unmount(folder)


@contextmanager
def _disk(tools: Tools, folder: str, image: str, log: str, seed: int) -> Iterator[str]:
    """The image as a disk that logs; gives the path of the disk."""
    path = os.path.join(folder, "disk.img")
    process = subprocess.Popen([tools.disk, folder, image, log, str(LONGEST_WAIT), str(seed)])
    try:
        while not os.path.exists(path):
            if process.poll() is not None:
                raise RuntimeError("the disk did not begin")
            time.sleep(0.02)
        yield path
    finally:
        process.send_signal(signal.SIGTERM)
        process.wait()


class _Recorded(NamedTuple):
    """A run on the disk, with its log, and behind which events the power may be cut."""

    run: workloads.Run
    events: list[cuts.Event]
    moments: range


class _Place:
    """The folders and files of a trial."""

    def __init__(self, folder: str) -> None:
        self.folder = folder
        self.image, self.base, self.cut, self.log = (os.path.join(folder, name) for name in ("image", "base", "cut.img", "log"))
        self.plain, self.fuse, self.mount = (os.path.join(folder, name) for name in ("plain", "fuse", "mount"))
        for name in (self.plain, self.fuse, self.mount):
            os.mkdir(name)


def _work(tools: Tools, trial: Trial, folder: str, known: Optional[workloads.Known], length: Callable[[], int]) -> workloads.Run:
    env = dict(os.environ)
    if trial.lost and known is not None:
        env.update(LD_PRELOAD=tools.lost_syncs, LOST=trial.lost)
    run = workloads.Run(tools.programs, folder, length, known, env)
    (workloads.OF_GEOS | workloads.CONTROLS)[trial.workload](run)
    return run


def _record(tools: Tools, trial: Trial, place: _Place, seed: int) -> _Recorded:
    """Runs the workload on a plain folder, and then on the disk."""
    size, make = FILE_SYSTEMS[trial.system]
    with open(place.image, "wb") as file:
        file.truncate(size)
    _do(*make, place.image)
    _do("cp", "--sparse=always", place.image, place.base)
    plain = _work(tools, trial, place.plain, None, lambda: 0)
    known = {name: [state.seen for state in line.states] for name, line in plain.timelines.items()}
    with ExitStack() as stack:
        disk = stack.enter_context(_disk(tools, place.fuse, place.image, place.log, seed))
        device = stack.enter_context(_loop(disk, "--direct-io=on"))
        stack.enter_context(_mounted(trial.system, device, place.mount))
        length = lambda: os.stat(place.log).st_size
        _do("sync", "-f", place.mount)
        begin = length()
        run = _work(tools, trial, place.mount, known, length)
        end = length()
        for base in run.open:
            base.close()
    for base in plain.open:
        base.close()
    events = cuts.read_log(place.log)
    first = next(n for n, event in enumerate(events) if event.end >= begin)
    last = max(n for n, event in enumerate(events) if event.end <= max(end, events[first].end))
    return _Recorded(run, events, range(first, last + 1))


def _find(line: workloads.Timeline, path: str, length: int) -> str:
    """What a file is found to be behind a cut at this length of the log."""
    done, begun = line.due(length)
    seen = line.look(path)
    states = [state.seen for state in line.states]
    if seen in states[done : begun + 1]:
        return "good"
    if seen in states[:done]:
        return "older"
    return "refused" if seen.startswith("refused") else "other"


def _look(trial: Trial, place: _Place, run: workloads.Run, length: int) -> str:
    """What is found on a disk that was cut: the worst of its files."""
    with _loop(place.cut) as device:
        try:
            _do("mount", "-t", trial.system, device, place.mount)
        except RuntimeError:
            return "not mounted"
        try:
            found = [_find(line, os.path.join(place.mount, name), length) for name, line in run.timelines.items()]
        finally:
            _unmount(place.mount)
    return max(found, key=FOUND.index)


def run(tools: Tools, trial: Trial, count: int, seed: int) -> Counter[str]:
    """Cuts the power so many times, and counts what is found."""
    if count == 0:
        return Counter()
    folder = tempfile.mkdtemp(dir=tools.folder)
    try:
        place = _Place(folder)
        recorded = _record(tools, trial, place, seed)
        duties = lambda length: tuple(line.due(length) for line in recorded.run.timelines.values())
        chosen = cuts.choose(recorded.events, recorded.moments, count, seed, duties)
        found: Counter[str] = Counter()
        cache, index = cuts.Cache(), 0
        for cut in chosen:
            while index <= cut.index:
                cuts.put(place.base, cache.take(recorded.events[index]))
                index += 1
            _do("cp", "--sparse=always", place.base, place.cut)
            cuts.put(place.cut, cache.left(cut.kind, random.Random(cut.seed)))
            found[_look(trial, place, recorded.run, recorded.events[cut.index].end)] += 1
        return found
    finally:
        shutil.rmtree(folder)
