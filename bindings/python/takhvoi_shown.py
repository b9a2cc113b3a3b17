"""What a debugger or an editor shows of a kernel, an image, a run or a text, over takhvoi.py.

    for place in takhvoi_shown.places(kernel):
        print(place.at, place.size, place.handle)

The records have the fields that takhvoi.h explains.
"""

from __future__ import annotations

import ctypes
from collections.abc import Callable, Sequence
from typing import NamedTuple, Optional, TypeVar, Union

from _takhvoi import BAD_IMAGE, SHORT_BUFFER, U16, U32, Error, RawChunk, RawEntry, RawFinding, RawPlace, RawRoutine, RawState, bytes_of, library, room, sixteen
from takhvoi import Data, Image, Kernel, LockedBlock, Outcome

__all__ = ["Block", "Chunk", "Entry", "Finding", "Routine", "State", "chunks", "entries", "findings", "lines", "places", "region", "routines", "trace"]


class Block(NamedTuple):
    """A block in memory: where it begins in the region, its size in bytes, and how often it is locked."""

    handle: int
    of_file: bool
    at: int
    size: int
    locks: int


class Chunk(NamedTuple):
    """A chunk: its handle, where its bytes begin in the region, and how many there are."""

    handle: int
    at: int
    size: int


class Entry(NamedTuple):
    """A block or group of the VM file."""

    handle: int
    user_id: int
    size: int
    in_memory: bool
    is_marked: bool
    locks: int


class Routine(NamedTuple):
    """A routine: its first instruction, how many it has, its budget, and the bounds of words and what slots hold where it begins."""

    name: str
    is_public: bool
    first: int
    length: int
    budget: int
    bounds: list[int]
    slots: list[int]


class Finding(NamedTuple):
    """Why a text may not run. `kind` is 1 for a faulty line, 2 for a routine without rows, 3 for a refusal by `rule`."""

    kind: int
    line: int
    column: Optional[int]
    rule: Optional[int]
    routine: int
    instruction: int
    sentence: str


class State(NamedTuple):
    """A machine before a step. A pointer is where it leads in the region and how many bytes there are, or None if it may be stale; a slot is the
    handle of its block and whether that is of the VM file, or None."""

    instruction: int
    pointers: list[Optional[tuple[int, int]]]
    slots: list[Optional[tuple[int, bool]]]
    words: list[int]
    counters: list[int]


Raw = TypeVar("Raw", bound=ctypes.Structure)


def _shown(kernel: Kernel, raw: type[Raw], name: str, *given: int) -> list[Raw]:
    """The records that a call writes, in as much room as it wants."""
    size = 256
    while True:
        into, count = (raw * size)(), U32()
        kernel._call(name, *given, into, size, count)
        if count.value <= size:
            return list(into[: count.value])
        size = count.value


def places(kernel: Kernel) -> list[Block]:
    """The blocks in memory, in the order in which they lie in the region."""
    return [Block(it.block % 65536, it.block >= 65536, it.at, it.size, it.locks) for it in _shown(kernel, RawPlace, "places")]


def region(kernel: Kernel, at: int, size: int) -> bytes:
    """So many bytes of the region, from an offset on."""
    into = room(size)
    kernel._call("region", bytes_of(at), into, size)
    return ctypes.string_at(into, size)


def chunks(kernel: Kernel, handle: int, of_file: bool = False) -> list[Chunk]:
    """The chunks of a block in memory, which need not be locked."""
    return [Chunk(it.handle, it.at, it.len) for it in _shown(kernel, RawChunk, "chunks", sixteen(handle) + 65536 * of_file)]


def entries(kernel: Kernel) -> list[Entry]:
    """The blocks and groups of the VM file."""
    return [Entry(it.handle, it.user_id, it.size, it.in_memory != 0, it.marked != 0, it.locks) for it in _shown(kernel, RawEntry, "entries")]


def routines(image: Image) -> list[Routine]:
    """The routines of an image, by their numbers."""
    shown = _shown(image._kernel, RawRoutine, "routines", image._given())
    return [Routine(it.name.decode(), it.is_public != 0, it.first, it.length, it.budget, list(it.bounds), list(it.slots)) for it in shown]


def lines(text: Union[str, Data]) -> list[int]:
    """The line of each instruction of a text. An Error's place is the first faulty line."""
    given = text.encode() if isinstance(text, str) else bytes(text)
    into, told = (U32 * 4096)(), ctypes.c_uint64()
    status = library.takhvoi_lines(given, len(given), into, 4096, told)
    if status:
        raise Error(status, told.value if status == BAD_IMAGE else None)
    return into[: told.value]


def findings(text: Union[str, Data]) -> list[Finding]:
    """The findings about a text; none if the verifier accepts its image."""
    given = text.encode() if isinstance(text, str) else bytes(text)
    most, size = 256, 1 << 14
    while True:
        into, count, said, told = (RawFinding * most)(), U32(), room(size), ctypes.c_uint64()
        status = library.takhvoi_findings(given, len(given), into, most, count, said, size, told)
        if status == SHORT_BUFFER:
            most, size = count.value + 1, told.value + 1
            continue
        if status:
            raise Error(status)
        sentences = ctypes.string_at(said, told.value)
        return [_finding(it, sentences) for it in into[: count.value]]


def _finding(it: RawFinding, sentences: bytes) -> Finding:
    sentence = sentences[it.first : it.first + it.len].decode(errors="replace")
    return Finding(it.kind, it.line, it.column or None, it.rule or None, it.routine, it.instruction, sentence)


def _state(it: RawState) -> State:
    return State(
        it.instruction,
        [(it.pointers[n], it.spans[n]) if it.good >> n & 1 else None for n in range(4)],
        [(it.slots[n] % 65536, it.slots[n] >= 65536) if it.held >> n & 1 else None for n in range(4)],
        list(it.words),
        list(it.counters),
    )


def trace(
    image: Image,
    routine: Union[int, str],
    words: Sequence[int] = (),
    lent: Sequence[Optional[LockedBlock]] = (),
    first: int = 0,
    most: int = 10_000,
) -> tuple[Outcome, list[State]]:
    """Runs a public routine as `Image.run` does, and gives the states before its steps from `first` on, counted from 0: at most so many."""
    kernel = image._kernel
    given, output, count, steps = (U16 * 8)(*map(sixteen, words)), (U16 * 1024)(), U32(), U32()
    states = (RawState * max(bytes_of(most), 1))()
    with kernel._turn:
        number = image.routine(routine) if isinstance(routine, str) else sixteen(routine)
        handles = (U16 * 4)(*(0 if it is None else it._given() - 65536 for it in lent))
        kernel._call("file_flush")
        kernel._call("trace", image._given(), number, given, handles, output, 1024, count, steps, bytes_of(first), states, most)
        kernel._call("file_flush")
    noted = min(max(steps.value - first, 0), most)
    return Outcome(list(given), output[: min(count.value, 1024)], steps.value), [_state(it) for it in states[:noted]]
