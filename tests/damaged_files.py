"""Sets each byte that is read of two VM files with one header to each value, and each other byte to some, and cuts the files at each length;
and compares what the program of `trials` answers with a second reading of files: the directories and the bytes of blocks, or the
offset of the first fault. Of a cut file it says only whether it is opened, or where the fault is.

    python3 damaged_files.py PROGRAM
"""

import subprocess
import sys
from functools import lru_cache
from itertools import groupby

import block_reading
import file_reading
from file_reading import GROUP, Directory

AREA = 512
# Blocks of this size alone are read by the program.
SIZE = 64
# Where the last zero byte of the header stands, and the selector behind it.
SELECTOR = 512
# What a byte that is not read is set to: the same pair is to be found, whatever it is.
OTHER_VALUES = (0, 1, 64, 255)


def words(*numbers):
    return b"".join(number.to_bytes(2, "little") for number in numbers)


def fresh(handle):
    """A block without a chunk."""
    return words(handle, 16, 0, 0, SIZE, 2, 20, 44, 0, 0, 44, 0).ljust(SIZE, b"\0")


def with_chunk(handle, byte):
    """A block with a chunk of two bytes, as the program makes it."""
    return (words(handle, 16, 0, 0, SIZE, 2, 24, 40, 22, 0, 4, byte) + words(40, 0)).ljust(SIZE, b"\0")


def with_items(handle):
    """A block with a chunk of three bytes and one of ten."""
    return words(handle, 16, 0, 0, SIZE, 2, 40, 24, 22, 30, 5) + b"abc\0\0\0" + words(12) + b"0123456789" + words(24, 0).ljust(24, b"\0")


ONE_BLOCK = Directory(((1, 5, with_chunk(1, 77)),), 1, 0, 0)
WITH_GROUP = Directory(((1, 5, fresh(1)), (3, GROUP, with_items(3))), 1, 3, 18)


class Lines:
    """The lines that the program is given, each with what it must answer."""

    def __init__(self):
        self.wanted = ["on_file -> ok"]
        self.opened = 0

    def ask(self, line, answer="ok"):
        self.wanted.append(f"{line} -> {answer}")

    def write(self, at, data):
        """Writes bytes, of which a line has six at most."""
        for i in range(0, len(data), 6):
            part = data[i : i + 6]
            if any(part):
                self.ask(f"write {at + i} {len(part)} {' '.join(map(str, part))}")

    def give(self, data):
        """Gives the program a device with these bytes."""
        self.ask(f"memory {len(data)}")
        self.write(0, data)

    def open(self, data):
        """Wants what the second reading says of the file."""
        try:
            current, saved = file_reading.read(data)
        except file_reading.Fault as fault:
            return self.ask("open", f"bad file at {fault.at}")
        self.opened += 1
        self.ask("open")
        self.ask("current", shown(current))
        self.ask("saved", shown(saved))
        for line, directory in (("block", current), ("saved_block", saved)):
            for handle, _, block in directory.entries:
                self.ask(f"{line} {handle}", runs(block) if len(block) == SIZE else "not asked: no such block")
        return None

    def change(self, data, at, values=range(256)):
        """Wants the answers to a file with a byte set to each of these values, and sets it back."""
        for value in values:
            self.ask(f"write {at} 1 {value}")
            self.open(data[:at] + bytes([value]) + data[at + 1 :])
        self.ask(f"write {at} 1 {data[at]}")

    def cut(self, data, length):
        """Wants the answer to the first bytes of the file that the program keeps."""
        try:
            file_reading.read(data[:length])
            self.ask(f"cut {length}")
        except file_reading.Fault as fault:
            self.ask(f"cut {length}", f"bad file at {fault.at}")

    def compare(self, program):
        """Prints each answer that is not the one that is wanted, with the lines before it."""
        asked = "".join(line.split(" -> ")[0] + "\n" for line in self.wanted)
        answered = subprocess.run([program], input=asked, stdout=subprocess.PIPE, text=True, check=True).stdout.splitlines()
        for number, (line, answer) in enumerate(zip(self.wanted, answered)):
            if line != answer:
                before = "; ".join(self.wanted[max(number - 3, 0) : number])
                print(f"{before}: wanted {line}, but was answered {answer}")
        if len(self.wanted) != len(answered):
            print(f"{len(self.wanted)} lines were asked and {len(answered)} answered")


@lru_cache(maxsize=None)
def runs(data):
    """Bytes as the program prints them."""
    counted = [(byte, len(list(same))) for byte, same in groupby(data)]
    return ", ".join(f"{byte} {count} times" if count > 1 else str(byte) for byte, count in counted)


def shown(directory):
    """A directory as the program prints it."""
    entries = ", ".join(f"{h} (user {user}, {len(block)} bytes)" for h, user, block in directory.entries)
    return f"{entries or 'no block'}; map block {directory.map_block}; map item {directory.item} of {directory.group}"


def commits():
    """Lines by which the program makes a file with a current and a saved block, and the bytes of this file."""
    lines = Lines()
    saved = ONE_BLOCK._replace(entries=((1, 5, with_chunk(1, 9)),))
    for line in ("memory 2048", "create 512", "entry 1 5 64", "map_block 1", "resident 1 9", "save", "resident 1 77", "update"):
        lines.ask(line)
    # the save is in area B, and the update in area A
    data = file_reading.spell(AREA, 0, (ONE_BLOCK, saved))
    other = b"".join(2 * [file_reading.spell_directory(saved)])
    data = data[:1536] + other + data[1536 + len(other) :]
    lines.ask("read 0 2048", runs(data))
    return lines, data


def damage(program, lines, data, pair, first):
    """Tries a file, of which this pair is read, from its first byte on or from another one."""
    assert file_reading.read(data) == pair
    assert all(block_reading.chunks(block) for directory in pair for _, _, block in directory.entries)
    lines.open(data)
    start = 1024 + data[SELECTOR] % 2 * AREA
    read = [*range(first, SELECTOR + 1), *range(start, start + len(b"".join(map(file_reading.spell_directory, pair))))]
    for at in read:
        lines.change(data, at)
    others = [at for at in range(SELECTOR + 1, len(data)) if at not in read]
    for at in others:
        assert all(file_reading.read(data[:at] + bytes([value]) + data[at + 1 :]) == pair for value in OTHER_VALUES)
        lines.change(data, at, OTHER_VALUES)
    lines.ask("keep")
    for length in range(len(data) + 1):
        lines.cut(data, length)
    # the shortest one that is opened, and one byte more than the file has
    for other in (data[: read[-1] + 1], data + b"\1"):
        lines.give(other)
        lines.open(other)
    lines.compare(program)
    print(f"{256 * len(read)} changed files, {len(OTHER_VALUES) * len(others)} with another byte that is not read, {len(data) + 1} cut ones")
    print(f"{lines.opened} opened", file=sys.stderr)


def main():
    program = sys.argv[1]
    lines, data = commits()
    damage(program, lines, data, file_reading.read(data), 0)
    # the header is that of the first file
    data = file_reading.spell(AREA, 1, (WITH_GROUP, ONE_BLOCK))
    lines = Lines()
    lines.give(data)
    damage(program, lines, data, (WITH_GROUP, ONE_BLOCK), SELECTOR)


if __name__ == "__main__":
    main()
