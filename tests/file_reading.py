"""A second reading of VM files: the pair of directories that bytes spell, or where their first fault is; and how a pair is spelled. Written
from docs/FILES.md.
"""

from collections import namedtuple

from block_reading import is_block

GROUP = 65280
HEADER = 1024
MOST_BLOCKS = 1024

# Entries are (handle, user ID, bytes); the map item is its group and the item.
Directory = namedtuple("Directory", "entries map_block group item")
EMPTY = Directory((), 0, 0, 0)


class Fault(Exception):
    """The offset of the first byte of the first field that is cut or breaks its rule."""

    def __init__(self, at):
        super().__init__(at)
        self.at = at


class Reader:
    """Reads fields one after another, up to an end."""

    def __init__(self, data, at, end):
        self.data, self.at, self.end = data, at, min(end, len(data))

    def field(self, length):
        """The bytes of a field, and where it stands."""
        at = self.at
        if at + length > self.end:
            raise Fault(at)
        self.at += length
        return self.data[at : at + length], at

    def word(self, is_legal):
        """A word for which a rule holds."""
        field, at = self.field(2)
        number = int.from_bytes(field, "little")
        if not is_legal(number):
            raise Fault(at)
        return number

    def directory(self):
        count = self.word(lambda n: n <= MOST_BLOCKS)
        entries = []
        last = 0
        for _ in range(count):
            last = self.word(lambda h, before=last: before < h <= 1024)
            user = self.word(lambda n: True)
            length = self.word(lambda n: 64 <= n <= 65520 and n % 16 == 0)
            block, at = self.field(length)
            if not is_block(block, last):
                raise Fault(at)
            entries.append((last, user, block))
        users = {handle: user for handle, user, _ in entries}
        map_block = self.word(lambda h: h == 0 or users.get(h, GROUP) != GROUP)
        group = self.word(lambda h: h == 0 or users.get(h) == GROUP)
        item = self.word(lambda n: group != 0 or n == 0)
        return Directory(tuple(entries), map_block, group, item)


def read(data):
    """The current and the saved directory of a file; a `Fault` where the bytes are none."""
    head = Reader(data, 0, HEADER)
    if head.field(4)[0] != b"GVM1":
        raise Fault(0)
    head.word(lambda n: n == 1)
    head.word(lambda n: n == 0)
    field, at = head.field(4)
    area = int.from_bytes(field, "little")
    if area % 512 != 0 or not 512 <= area <= 16777216:
        raise Fault(at)
    zeros = data[12:512]
    if len(zeros) < 500 or any(zeros):
        raise Fault(12 + len(zeros) - len(zeros.lstrip(b"\0")))
    head.field(500)
    (selector,), _ = head.field(1)
    start = HEADER + selector % 2 * area
    reader = Reader(data, start, start + area)
    return reader.directory(), reader.directory()


def word(number):
    return number.to_bytes(2, "little")


def spell_directory(directory):
    entries = b"".join(word(h) + word(user) + word(len(block)) + block for h, user, block in directory.entries)
    numbers = directory.map_block, directory.group, directory.item
    return word(len(directory.entries)) + entries + b"".join(map(word, numbers))


def spell(area, selector, pair):
    """A file with this pair in the area that the selector names, and two empty directories in the other one."""
    filled = b"".join(map(spell_directory, pair)).ljust(area, b"\0")
    areas = [bytes(area), filled] if selector % 2 else [filled, bytes(area)]
    return (b"GVM1\1\0\0\0" + area.to_bytes(4, "little")).ljust(512, b"\0") + bytes([selector]).ljust(512, b"\0") + b"".join(areas)
