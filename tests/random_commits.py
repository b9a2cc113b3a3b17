"""Makes random lists of commits on a VM file, stops the device at each of its calls, and lets it lose or garble what was not synced. Compares
what the program of `trials` answers, and the pair that it finds afterwards, with a plain model of the device and with the second
reading of files. The pair that is found must be the one from before or the new one, as docs/FILES.md says for the call that failed.

    python3 random_commits.py PROGRAM
"""

import random
import sys

from damaged_files import Lines, runs, shown, with_chunk
from file_reading import EMPTY, Directory, read, spell, spell_directory

LISTS = 400
MOST_COMMITS = 4
# Sizes of areas, with how many blocks a directory may have: in the smaller one not every pair has room, and in the larger one many a pair
# takes two parts, each of which a stop leaves by itself.
AREAS = ((512, (0, 1, 1, 2, 2, 3, 4)), (1024, (0, 2, 3, 4, 5, 6)))
# What a stop leaves of a part of 512 bytes that was written since the last sync, and the byte of what is garbled.
OLD, NEW, GARBAGE = range(3)
GARBLED = 0xA5
# `create` makes two calls of the device, and no stop in them is spoken of.
FIRST_CALL = 3


class Disk(Exception):
    """A call of the device fails."""


class Device:
    """A device with a cache, of which a call and each later one fails."""

    def __init__(self, data, call):
        self.now, self.lasting, self.written = data, data, []
        self.calls, self.call = FIRST_CALL - 1, call

    def fails(self):
        self.calls += 1
        return 0 < self.call <= self.calls

    def read(self):
        if self.fails():
            raise Disk

    def write(self, at, data):
        fails = self.fails()
        done = data[: len(data) // 2] if fails else data
        self.now = self.now[:at] + done + self.now[at + len(done) :]
        self.written.append((at, at + len(done)))
        if fails:
            raise Disk

    def sync(self):
        if self.fails():
            raise Disk
        self.lasting, self.written = self.now, []

    def after_stop(self, parts):
        """What a stop leaves."""
        data = list(self.lasting)
        for start, end in self.written:
            for at in range(start, end):
                data[at] = {OLD: data[at], NEW: self.now[at], GARBAGE: GARBLED}[parts[at // 512]]
        return bytes(data)


class File:
    """An open file: the pair that it is sure of, or that and the new one where it is unsure."""

    def __init__(self, device, area):
        self.device, self.area, self.pairs, self.selector = device, area, [(EMPTY, EMPTY)], 0

    def pair_of(self, how, given):
        current, saved = self.pairs[0]
        return {"update": (given, saved), "save": (given, given), "revert": (saved, saved)}[how]

    def reads(self, how, given, resident):
        """How many blocks are read: those that are not in memory, and the saved ones."""
        absent = sum(handle not in resident for handle, _, _ in given.entries)
        saved = len(self.pairs[0][1].entries)
        return {"update": absent + saved, "save": absent, "revert": saved}[how]

    def commit(self, how, given, resident):
        """What a commit answers."""
        pair = self.pair_of(how, given)
        data = b"".join(map(spell_directory, pair))
        if len(self.pairs) > 1:
            return "unsure"
        if len(data) > self.area:
            return "too big"
        try:
            for _ in range(self.reads(how, given, resident)):
                self.device.read()
            self.device.write(1024 + (1 - self.selector) * self.area, data)
            self.device.sync()
        except Disk:
            return "disk"
        try:
            self.device.write(512, bytes([1 - self.selector]))
            self.device.sync()
        except Disk:
            self.pairs.append(pair)
            return "disk"
        self.pairs, self.selector = [pair], 1 - self.selector
        return "ok"


def random_commit(choices, counts):
    """How, the handles of the directory, which are so many, its map block, and the handles of the blocks in memory with their byte."""
    most = max(counts)
    handles = sorted(choices.sample(range(1, most + 1), choices.choice(counts)))
    first = choices.randint(1, most)
    resident = choices.choice((range(0), range(first, most + 1), range(1, most + 1)))
    return choices.choice(("update", "update", "save", "revert")), handles, choices.choice([0, *handles]), resident, choices.randrange(256)


def directory_of(file, handles, map_block, resident, byte):
    """The directory with the blocks in memory, or those of the current one; None where one is in neither."""
    blocks = {handle: block for handle, _, block in file.pairs[0][0].entries}
    blocks.update({handle: with_chunk(handle, byte) for handle in resident})
    if any(handle not in blocks for handle in handles):
        return None
    return Directory(tuple((handle, 5, blocks[handle]) for handle in handles), map_block, 0, 0)


def ask_commit(lines, file, commit):
    """Adds the lines of a commit."""
    how, handles, map_block, resident, byte = commit
    lines.ask("no_block")
    for handle in handles:
        lines.ask(f"entry {handle} 5 64")
    lines.ask(f"map_block {map_block}")
    lines.ask(f"residents {resident[0]} {resident[-1]} {byte}" if resident else "absent")
    given = directory_of(file, handles, map_block, resident, byte)
    lines.ask(how, "not asked: it may not be committed" if given is None else file.commit(how, given, resident))
    lines.ask("current", shown(file.pairs[0][0]))
    lines.ask("saved", shown(file.pairs[0][1]))


def ask_found(lines, file, parts):
    """Adds the lines of a stop, and of the file that is found afterwards."""
    lines.ask("power_off " + " ".join(map(str, parts)))
    found = read(file.device.after_stop(parts))
    if found not in file.pairs:
        print(f"after {lines.wanted[-20:]} the pair is neither from before nor new")
    lines.ask("open")
    for directory, line, block_line in zip(found, ("current", "saved"), ("block", "saved_block")):
        lines.ask(line, shown(directory))
        for handle, _, block in directory.entries:
            lines.ask(f"{block_line} {handle}", runs(block))


def ask_run(lines, area, commits, call, parts):
    """Adds the lines of a run on areas of this size that is stopped from a call on. Gives back how many calls it has."""
    device = Device(spell(area, 0, (EMPTY, EMPTY)), call)
    file = File(device, area)
    lines.ask(f"cached {len(device.now)} {call}")
    lines.ask(f"create {area}")
    for commit in commits:
        ask_commit(lines, file, commit)
    ask_found(lines, file, parts)
    return device.calls


def main():
    lines = Lines()
    choices = random.Random(1)
    stops = 0
    for number in range(LISTS):
        area, counts = AREAS[number % len(AREAS)]
        parts_there = (1024 + 2 * area) // 512
        commits = [random_commit(choices, counts) for _ in range(choices.randint(1, MOST_COMMITS))]
        calls = ask_run(lines, area, commits, 0, [GARBAGE] * parts_there)
        for call in range(FIRST_CALL, calls + 1):
            for parts in (*([left] * parts_there for left in (OLD, NEW, GARBAGE)), [choices.randrange(3) for _ in range(parts_there)]):
                ask_run(lines, area, commits, call, parts)
                stops += 1
    lines.compare(sys.argv[1])
    print(f"{LISTS} lists of commits")
    print(f"{stops} stops", file=sys.stderr)


if __name__ == "__main__":
    main()
