"""Takhvoi for Python: blocks that move, VM files, and routines that a verifier has checked, over libtakhvoi.so.

A Kernel has blocks of memory and those of its VM file. A block is locked while its chunks are used, and given back by `with`:

    with Kernel.create("book.vm") as kernel:
        with kernel.make_file_block(user_id=1) as block:
            chunk = block.make_chunk(b"Curie")
            kernel.set_map_block(block.handle)
        kernel.save()

What the kernel or the library refuses comes as an Error with its number in takhvoi.h and its text. Threads may share a kernel: a method waits
until those of other threads on it have ended. The library is looked for where the environment's TAKHVOI_LIBRARY says, beside this file, where
`make install-library` puts it, and where the system keeps libraries.
"""

from __future__ import annotations

import ctypes
import enum
import os
import threading
from collections.abc import Callable, Iterator, Sequence
from types import TracebackType
from typing import NamedTuple, Optional, Union

from _takhvoi import BAD_FILE, BAD_IMAGE, NO_KERNEL, NOT_ADMITTED, NOT_GRANTED, NOT_LOCKED, REFUSED, SHORT_BUFFER, U16, U32
from _takhvoi import Error, RawFile, bytes_of, library, room, sixteen

__version__ = "0.1.0"
__all__ = ["Array", "Chunk", "Effect", "Error", "Explanation", "Image", "Kernel", "LockedBlock", "Outcome", "assemble", "compile_source", "explain", "explain_source", "explain_text",
           "list_image"]

REGION = 1 << 20
AREA = 1 << 16


class Effect(enum.IntFlag):
    """What a routine does to what is not its own; docs/GRANTS.md explains each."""

    OUTPUT = 1
    MEMORY = 2
    LOCKS_BY_HANDLE = 4
    READS_FILE = 8
    CHANGES_FILE = 16
    MAP = 32
    COMMITS = 64
    READS_LENT = 0xF00
    CHANGES_LENT = 0xF000
    ALL = 0xFF7F


Data = Union[bytes, bytearray, memoryview]
Path = Union[str, bytes, "os.PathLike[str]"]


def _spelled(path: Path) -> bytes:
    """A path as C has it."""
    spelled = os.fsencode(path)
    if b"\0" in spelled:
        raise ValueError("a path has a zero byte")
    return spelled


class Kernel:
    """A kernel, with its VM file. It is closed by `with`, `close` or when it goes, and what no commit has kept is lost."""

    def __init__(self) -> None:
        # ctypes lets other threads run during a call, and no two calls may work on one kernel at once.
        self._turn = threading.RLock()
        self._raw = RawFile(fd=-1)

    @classmethod
    def in_memory(cls, area: int = AREA, region: int = REGION) -> Kernel:
        """A kernel on a VM file in memory, which goes with it."""
        kernel = cls()
        kernel._call("new", bytes_of(area), bytes_of(region))
        return kernel

    @classmethod
    def create(cls, path: Path, area: int = AREA, region: int = REGION) -> Kernel:
        """A kernel on a new VM file, whose lock it has until it is closed."""
        kernel = cls()
        kernel._call("file_create", _spelled(path), bytes_of(area), bytes_of(region))
        return kernel

    @classmethod
    def open(cls, path: Path, region: int = REGION) -> Kernel:
        """A kernel on a VM file that is there."""
        kernel, place = cls(), ctypes.c_uint64()
        status = library.takhvoi_file_open(kernel._raw, _spelled(path), bytes_of(region), place)
        if status:
            raise Error(status, place.value if status == BAD_FILE else None)
        return kernel

    def close(self) -> None:
        """Closes it. A later call raises an Error, and so does this one if the file refuses what a commit has still to write."""
        with self._turn:
            status = library.takhvoi_file_close(self._raw)
        if status not in (0, NO_KERNEL):
            raise Error(status)

    def __enter__(self) -> Kernel:
        return self

    def __exit__(self, kind: Optional[type], error: Optional[BaseException], trace: Optional[TracebackType]) -> None:
        self.close()

    def __del__(self) -> None:
        if hasattr(self, "_raw"):
            library.takhvoi_file_close(self._raw)

    def _call(self, name: str, *given: object) -> None:
        with self._turn:
            status = getattr(library, "takhvoi_" + name)(self._raw, *given)
        if status:
            raise Error(status)

    def _told(self, name: str, *given: object) -> int:
        number = U16()
        self._call(name, *given, number)
        return number.value

    def _listed(self, name: str, *given: object) -> list[int]:
        room = 1024
        while True:
            into, count = (U16 * room)(), U32()
            self._call(name, *given, into, room, count)
            if count.value <= room:
                return into[: count.value]
            room = count.value

    def blocks(self) -> list[int]:
        """The handles of all blocks of memory."""
        return self._listed("mlist")

    def file_blocks(self) -> list[int]:
        """The handles of all blocks and groups of the VM file. The user ID of a group is 65,280."""
        return self._listed("vlist")

    def items(self, group: int) -> list[int]:
        """The items of a group, which is brought into memory."""
        return self._listed("ilist", sixteen(group))

    def make_block(self) -> LockedBlock:
        """Makes a block of memory, and locks it."""
        return LockedBlock(self, self._told("mnew"), of_file=False)

    def make_file_block(self, user_id: int) -> LockedBlock:
        """Makes a block of the VM file, locks it and marks it."""
        return LockedBlock(self, self._told("vnew", sixteen(user_id)), of_file=True)

    def lock(self, handle: int) -> LockedBlock:
        """Locks a block of memory once more."""
        self._call("mlock", sixteen(handle))
        return LockedBlock(self, handle, of_file=False)

    def lock_file_block(self, handle: int) -> LockedBlock:
        """Locks a block of the VM file once more."""
        self._call("vlock", sixteen(handle))
        return LockedBlock(self, handle, of_file=True)

    def free(self, handle: int) -> None:
        """Frees a block of memory that is not locked."""
        self._call("mfree", sixteen(handle))

    def free_file_block(self, handle: int) -> None:
        """Frees a block of the VM file that is not locked."""
        self._call("vfree", sixteen(handle))

    def locks(self, handle: int) -> int:
        """How often a block of memory is locked."""
        return self._told("locks", sixteen(handle))

    def file_locks(self, handle: int) -> int:
        """How often a block of the VM file, or a group, is locked."""
        return self._told("locks", 65536 + sixteen(handle))

    def is_marked(self, handle: int) -> bool:
        """Whether a block of the VM file, or a group, is marked."""
        return self._told("marked", sixteen(handle)) != 0

    def find(self, user_id: int, above: int = 0) -> Optional[int]:
        """The first block of the VM file above a handle that has a user ID."""
        return self._told("vfind", sixteen(above), sixteen(user_id)) or None

    def user_id(self, handle: int) -> int:
        """The user ID of a block of the VM file."""
        return self._told("vuid", sixteen(handle))

    def map_block(self) -> Optional[int]:
        """The map block, by which a program finds the others."""
        return self._told("vgetmap") or None

    def set_map_block(self, handle: int) -> None:
        """Names the map block."""
        self._call("vsetmap", sixteen(handle))

    def make_group(self) -> int:
        """Makes a group. The calls on its items bring it into memory and mark it by themselves."""
        return self._told("gnew")

    def free_group(self, group: int) -> None:
        """Frees a group that is not locked, with its items."""
        self._call("gfree", sixteen(group))

    def make_item(self, group: int, size: int) -> int:
        """Makes an item of zero bytes."""
        return self._told("inew", sixteen(group), sixteen(size))

    def resize_item(self, group: int, item: int, size: int) -> None:
        """Gives an item so many bytes: its first ones that fit, and zeros behind them."""
        self._call("irealloc", sixteen(group), sixteen(item), sixteen(size))

    def insert_in_item(self, group: int, item: int, at: int, size: int) -> None:
        """Inserts zero bytes into an item."""
        self._call("iins", sixteen(group), sixteen(item), sixteen(at), sixteen(size))

    def delete_in_item(self, group: int, item: int, at: int, size: int) -> None:
        """Takes bytes out of an item."""
        self._call("idel", sixteen(group), sixteen(item), sixteen(at), sixteen(size))

    def free_item(self, group: int, item: int) -> None:
        """Frees an item."""
        self._call("ifree", sixteen(group), sixteen(item))

    def lock_item(self, group: int, item: int) -> LockedBlock:
        """Locks the group of an item that is there: the item is the chunk with its handle."""
        self._told("ilock", sixteen(group), sixteen(item))
        return LockedBlock(self, group, of_file=True)

    def map_item(self) -> Optional[tuple[int, int]]:
        """The group and the item of the map item."""
        group, item = U16(), U16()
        self._call("igetmap", group, item)
        return (group.value, item.value) if group.value else None

    def set_map_item(self, group: int, item: int) -> None:
        """Names the map item."""
        self._call("isetmap", sixteen(group), sixteen(item))

    def update(self) -> None:
        """Commits what has changed; a revert takes it back until the next save. No block of the VM file is locked."""
        self._call("file_update")

    def save(self) -> None:
        """Commits what has changed for good. No block of the VM file is locked."""
        self._call("file_save")

    def revert(self) -> None:
        """Goes back to what was last saved. No block of the VM file is locked."""
        self._call("file_revert")

    def is_sure(self) -> bool:
        """Whether the VM file is sure of what it keeps. Where it is not, it takes no commit, and is opened again."""
        return self._told("is_sure") != 0

    def limit(self, more: int) -> None:
        """Lets all blocks in memory together have `more` bytes more than they have, at most the whole region, until the next such call."""
        self._call("limit", bytes_of(min(more, 0xFFFFFFFF)))

    def limit_blocks(self, last: int) -> None:
        """Lets new blocks of memory get only handles up to `last`, until the next such call; 1,024 takes the limit away."""
        self._call("limit_blocks", sixteen(min(last, 0xFFFF)))

    def load(self, image: Data, grants: Effect = Effect.ALL) -> Image:
        """Loads an image, which the verifier checks. Its public routines do only what has its bit in `grants`: else the Error has the routine and
        the effect."""
        given, number, place, rule, routine, effect = bytes(image), U32(), ctypes.c_uint64(), U32(), U16(), U32()
        with self._turn:
            status = library.takhvoi_load_granted(self._raw, given, len(given), grants.value, number, place, rule, routine, effect)
        if status == NOT_GRANTED:
            raise Error(status, place.value, None, routine.value, Effect(effect.value))
        if status:
            raise Error(status, place.value if status in (BAD_IMAGE, REFUSED) else None, rule.value if status == REFUSED else None)
        return Image(self, number.value)


class LockedBlock:
    """A lock on a block or group, which `with` or `unlock` gives back."""

    def __init__(self, kernel: Kernel, handle: int, of_file: bool) -> None:
        self._kernel = kernel
        self._block = handle + 65536 * of_file
        self._is_locked = True
        self.handle = handle
        self.of_file = of_file

    def __enter__(self) -> LockedBlock:
        return self

    def __exit__(self, kind: Optional[type], error: Optional[BaseException], trace: Optional[TracebackType]) -> None:
        self.unlock()

    def unlock(self) -> None:
        """Gives the lock back, once. A later call of this object, or of its chunks, raises an Error."""
        with self._kernel._turn:
            if self._is_locked:
                self._is_locked = False
                self._kernel._call("unlock", self._block)

    def _given(self) -> int:
        if not self._is_locked:
            raise Error(NOT_LOCKED)
        return self._block

    def mark(self) -> None:
        """Marks a block of the VM file, before its chunks are changed. A block of memory wants no mark."""
        self._given()
        if self.of_file:
            self._kernel._call("vdirty", self.handle)

    def make_chunk(self, content: Union[int, Data]) -> Chunk:
        """Makes a chunk with these bytes, or with so many zero bytes."""
        given = bytes(sixteen(content)) if isinstance(content, int) else bytes(content)
        with self._kernel._turn:
            chunk = self.chunk(self._kernel._told("lalloc", self._given(), sixteen(len(given))))
            if not isinstance(content, int):
                chunk.write(0, given)
        return chunk

    def make_array(self, element_size: int = 0) -> Array:
        """Makes an array of elements of one size, or of sizes of their own where that is 0."""
        return self.array(self._kernel._told("canew", self._given(), sixteen(element_size)))

    def chunks(self) -> list[int]:
        """The handles of all its chunks; of a group, those of its items."""
        return self._kernel._listed("llist", self._given())

    def chunk(self, handle: int) -> Chunk:
        """The chunk with a handle; its calls say where there is none."""
        return Chunk(self, handle)

    def array(self, handle: int) -> Array:
        """The array in the chunk with a handle; its calls say where there is none."""
        return Array(self, handle)

    def contract(self) -> None:
        """Packs the block: what its chunks leave is given back."""
        self._kernel._call("lcontract", self._given())


class _Place:
    """A chunk of a block, while that is locked."""

    def __init__(self, block: LockedBlock, handle: int) -> None:
        self._block = block
        self._turn = block._kernel._turn
        self.handle = sixteen(handle)

    def _call(self, name: str, *given: object) -> None:
        self._block._kernel._call(name, self._block._given(), self.handle, *given)

    def _told(self, name: str, *given: object) -> int:
        return self._block._kernel._told(name, self._block._given(), self.handle, *given)

    def _read(self, name: str, size: int, *given: object) -> bytes:
        into = room(size)
        self._call(name, *given, into, size)
        return ctypes.string_at(into, size)


class Chunk(_Place):
    """A chunk of a block, while that is locked."""

    def __len__(self) -> int:
        return self._told("lsize")

    def read(self, at: int = 0, size: Optional[int] = None) -> bytes:
        """Its bytes from `at` on, so many or all."""
        with self._turn:
            return self._read("read", max(len(self) - at, 0) if size is None else size, sixteen(at))

    def write(self, at: int, content: Data) -> None:
        """Copies bytes over those from `at` on."""
        given = bytes(content)
        self._call("write", sixteen(at), given, len(given))

    def resize(self, size: int) -> None:
        """Gives it so many bytes: its first ones that fit, and zeros behind them."""
        self._call("lrealloc", sixteen(size))

    def insert(self, at: int, size: int) -> None:
        """Inserts zero bytes."""
        self._call("lins", sixteen(at), sixteen(size))

    def delete(self, at: int, size: int) -> None:
        """Takes bytes out."""
        self._call("ldel", sixteen(at), sixteen(size))

    def free(self) -> None:
        """Frees it: its handle is given again."""
        self._call("lfree")


class Array(_Place):
    """An array in a chunk of a block, while that is locked."""

    def __len__(self) -> int:
        return self._told("cacount")

    def __getitem__(self, index: int) -> bytes:
        with self._turn:
            if not 0 <= index < len(self):
                raise IndexError(index)
            return self._read("caread", self.size(index), index, 0)

    def __iter__(self) -> Iterator[bytes]:
        for index in range(len(self)):
            yield self[index]

    def size(self, index: int) -> int:
        """How many bytes an element has."""
        return self._told("casize", sixteen(index))

    def read(self, index: int, at: int, size: int) -> bytes:
        """So many bytes of an element from `at` on."""
        return self._read("caread", size, sixteen(index), sixteen(at))

    def write(self, index: int, at: int, content: Data) -> None:
        """Copies bytes over those of an element from `at` on."""
        given = bytes(content)
        self._call("cawrite", sixteen(index), sixteen(at), given, len(given))

    def append(self, content: Data) -> None:
        """Appends an element with these bytes."""
        given = bytes(content)
        with self._turn:
            last = len(self)
            self._call("caadd", sixteen(len(given)))
            self.write(last, 0, given)

    def insert(self, index: int, size: int) -> None:
        """Inserts an element of zero bytes."""
        self._call("cains", sixteen(index), sixteen(size))

    def resize(self, index: int, size: int) -> None:
        """Gives an element so many bytes: its first ones that fit, and zeros behind them."""
        self._call("caresize", sixteen(index), sixteen(size))

    def __delitem__(self, index: int) -> None:
        self._call("cadel", sixteen(index))

    def clear(self) -> None:
        """Takes all elements out."""
        self._call("cazero")


class Outcome(NamedTuple):
    """What a run leaves: the words w0 to w7, those that it put out, and how many instructions it took."""

    words: list[int]
    output: list[int]
    steps: int


class Image:
    """An image that the verifier accepted. `with` or `unload` frees it."""

    def __init__(self, kernel: Kernel, number: int) -> None:
        self._kernel = kernel
        self._number: Optional[int] = number

    def __enter__(self) -> Image:
        return self

    def __exit__(self, kind: Optional[type], error: Optional[BaseException], trace: Optional[TracebackType]) -> None:
        self.unload()

    def unload(self) -> None:
        """Frees it, once. A later run raises an Error."""
        with self._kernel._turn:
            if self._number is not None:
                number, self._number = self._number, None
                self._kernel._call("unload", number)

    def _given(self) -> int:
        if self._number is None:
            raise Error(NOT_ADMITTED)
        return self._number

    def routine(self, name: str) -> int:
        """The number of the routine with a name: no two of an image have the same."""
        spelled = name.encode()
        return self._kernel._told("routine", self._given(), spelled, len(spelled))

    def effects(self, routine: Union[int, str]) -> Effect:
        """What a routine does to what is not its own, with those that it calls."""
        number, bits = self.routine(routine) if isinstance(routine, str) else sixteen(routine), U32()
        self._kernel._call("effects", self._given(), number, bits)
        return Effect(bits.value)

    def budget(self, routine: Union[int, str]) -> int:
        """How many steps a run of a routine takes at most."""
        number, steps = self.routine(routine) if isinstance(routine, str) else sixteen(routine), U32()
        self._kernel._call("budget", self._given(), number, steps)
        return steps.value

    def run(
        self,
        routine: Union[int, str],
        words: Sequence[int] = (),
        lent: Sequence[Optional[LockedBlock]] = (),
        room: int = 1024,
    ) -> Outcome:
        """Runs a public routine, by its number or name. It gets these words in w0 to w7, is lent these locked blocks of the VM file for s0
        to s3, and no other block of the file is locked. It gives as many of the words that it puts out as there is room for."""
        if len(words) > 8 or len(lent) > 4 or any(it is not None and (not it.of_file or it._kernel is not self._kernel) for it in lent):
            raise Error(NOT_ADMITTED)
        given = (U16 * 8)(*map(sixteen, words))
        output, count, steps = (U16 * max(bytes_of(room), 1))(), U32(), U32()
        with self._kernel._turn:
            number = self.routine(routine) if isinstance(routine, str) else sixteen(routine)
            handles = (U16 * 4)(*(0 if it is None else it._given() - 65536 for it in lent))
            self._kernel._call("file_run", self._given(), number, given, handles, output, room, count, steps)
        return Outcome(list(given), output[: min(count.value, room)], steps.value)


def _made(call: Callable[..., int], given: bytes) -> bytes:
    """What a call makes of bytes, in as much room as it wants."""
    size = 1 << 16
    while True:
        into, told = room(size), ctypes.c_uint64()
        status = call(given, len(given), into, size, told)
        if status == 0:
            return ctypes.string_at(into, told.value)
        if status != SHORT_BUFFER:
            raise Error(status, told.value if status in (BAD_IMAGE, REFUSED) else None)
        size = told.value


def assemble(text: Union[str, Data]) -> bytes:
    """The image of an assembly text. An Error's place is the line of a fault, or of a routine for which no rows are found."""
    return _made(library.takhvoi_assemble, text.encode() if isinstance(text, str) else bytes(text))


def compile_source(source: Union[str, Data]) -> bytes:
    """The image of a source of the structured language. An Error's place is the line of a fault."""
    return _made(library.takhvoi_compile, source.encode() if isinstance(source, str) else bytes(source))


def list_image(image: Data) -> str:
    """The listing of an image, an assembly text."""
    return _made(library.takhvoi_list, bytes(image)).decode()


def explain(image: Data) -> str:
    """The listing of an image with what is known at each instruction, and where the verifier refuses it, why."""
    return _made(library.takhvoi_explain, bytes(image)).decode()


class Explanation(NamedTuple):
    """What there is to say of a text. `line` is that of the first thing that is wrong, or None if the verifier accepts its image; `column` counts
    from 1, and is None if the whole line is meant."""

    text: str
    line: Optional[int]
    column: Optional[int]


def explain_text(text: Union[str, Data]) -> Explanation:
    """The lines of a text with what is known at each instruction, and why the verifier refuses its image, if it does; or what is wrong with each
    faulty line; or why no rows are found."""
    return _explained(library.takhvoi_explain_text, text)


def explain_source(source: Union[str, Data]) -> Explanation:
    """The first fault of a source of the structured language; an empty text if there is none."""
    return _explained(library.takhvoi_explain_source, source)


def _explained(call: Callable[..., int], text: Union[str, Data]) -> Explanation:
    line, column = ctypes.c_uint64(), ctypes.c_uint64()
    given = text.encode() if isinstance(text, str) else bytes(text)
    said = _made(lambda *takes: call(*takes, line, column), given)
    return Explanation(said.decode(errors="replace"), line.value or None, column.value or None)
