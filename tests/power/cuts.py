"""What a disk may hold after a power cut: the log of disk.c, what of it lasts for certain, and what of the rest a cut leaves."""

from __future__ import annotations

import os
import random
import struct
from collections.abc import Callable
from typing import NamedTuple

WRITE_BEGINS, WRITE_ENDS, FLUSH_BEGINS, FLUSH_ENDS = 1, 2, 3, 4
_EVENT = struct.Struct("<IIQQ")

# What a cut leaves of the writes that need not last: nothing; all; each with a chance; all but one; one; the first ones; of each part of
# 4,096 or 512 bytes of the disk, each with a chance.
KINDS = ("none", "all", "each", "but one", "one", "first", "4096", "512")


class Event(NamedTuple):
    """An event of the log: `end` is how long the log is with it."""

    kind: int
    number: int
    at: int
    content: memoryview
    end: int


class Piece(NamedTuple):
    """Bytes that a cut leaves at an offset of the disk, of the write of this number."""

    number: int
    at: int
    content: memoryview


def read_log(path: str) -> list[Event]:
    """The events of a log."""
    with open(path, "rb") as file:
        log = memoryview(file.read())
    events, at = [], 0
    while at < len(log):
        kind, number, offset, length = _EVENT.unpack_from(log, at)
        begin = at + _EVENT.size
        at = begin + length
        events.append(Event(kind, number, offset, log[begin:at], at))
    return events


class Cache:
    """The writes that the disk was asked for and that need not last yet."""

    def __init__(self) -> None:
        self.writes: dict[int, Piece] = {}
        self._answered: set[int] = set()
        self._covered: dict[int, set[int]] = {}

    def take(self, event: Event) -> list[Piece]:
        """Takes the next event; gives the writes that last from it on."""
        if event.kind == WRITE_BEGINS:
            self.writes[event.number] = Piece(event.number, event.at, event.content)
        elif event.kind == WRITE_ENDS:
            self._answered.add(event.number)
        elif event.kind == FLUSH_BEGINS:
            self._covered[event.number] = set(self._answered)
        else:
            covered = sorted(self._covered.pop(event.number) & self.writes.keys())
            self._answered.difference_update(covered)
            return [self.writes.pop(number) for number in covered]
        return []

    def left(self, kind: str, choices: random.Random) -> list[Piece]:
        """What a cut of this kind leaves of these writes."""
        writes = [self.writes[number] for number in sorted(self.writes)]
        if kind == "none" or not writes:
            return []
        if kind == "all":
            return writes
        chance = choices.choice((0.15, 0.5, 0.85))
        if kind == "each":
            return [write for write in writes if choices.random() < chance]
        chosen = choices.randrange(len(writes))
        if kind == "but one":
            return writes[:chosen] + writes[chosen + 1 :]
        if kind == "one":
            return [writes[chosen]]
        if kind == "first":
            return writes[:chosen]
        return [piece for write in writes for piece in _torn(write, int(kind)) if choices.random() < chance]


def _torn(write: Piece, unit: int) -> list[Piece]:
    """The parts of a write that lie in different units of the disk."""
    pieces, done = [], 0
    while done < len(write.content):
        size = unit - (write.at + done) % unit
        pieces.append(Piece(write.number, write.at + done, write.content[done : done + size]))
        done += size
    return pieces


def put(path: str, pieces: list[Piece]) -> None:
    """Writes pieces into an image of the disk."""
    if not pieces:
        return
    fd = os.open(path, os.O_WRONLY)
    try:
        for piece in pieces:
            os.pwrite(fd, piece.content, piece.at)
    finally:
        os.close(fd)


class Cut(NamedTuple):
    """A power cut behind the event of this index."""

    index: int
    kind: str
    seed: int


def choose(events: list[Event], moments: range, count: int, seed: int, duties: Callable[[int], object]) -> list[Cut]:
    """So many cuts behind events of these indices, in the order of the log, that leave different disks or, by `duties` of the length of the log,
    come where different states have to be found; fewer if there are no more."""
    choices = random.Random(seed)
    tries = [Cut(choices.choice(moments), choices.choice(KINDS), choices.randrange(1 << 30)) for _ in range(count * 12)]
    cache, flushed, index, seen, distinct = Cache(), 0, 0, set(), []
    for cut in sorted(tries):
        while index <= cut.index:
            flushed += len(cache.take(events[index]))
            index += 1
        pieces = cache.left(cut.kind, random.Random(cut.seed))
        key = (flushed, duties(events[cut.index].end), tuple((piece.number, piece.at, len(piece.content)) for piece in pieces))
        if key not in seen:
            seen.add(key)
            distinct.append(cut)
    return sorted(choices.sample(distinct, min(count, len(distinct))))
