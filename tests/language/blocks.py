"""The memory of a run as lists of bytes: what each call does, and when it is refused. The refusals 4, 11, 12 and 13 do not occur here."""

from dataclasses import dataclass, field, replace

GROUPS = 65_280
MOST_HANDLES = 1_024
LARGEST = 65_520
HEADER = 8


class Refused(Exception):
    """A refusal with its number."""

    def __init__(self, number: int) -> None:
        self.number = number


def refuse_if(number: int, wrong: bool) -> None:
    if wrong:
        raise Refused(number)


def word_at(data: bytes, at: int) -> int:
    return int.from_bytes(data[at : at + 2], "little")


def spelled(*numbers: int) -> bytes:
    return b"".join((n % 65_536).to_bytes(2, "little") for n in numbers)


@dataclass
class Block:
    """A block: its user ID, its chunks by handle, the entries of its table, its locks, and how often its chunks may have moved."""

    user: int = 0
    chunks: dict[int, bytes] = field(default_factory=dict)
    entries: int = 2
    locks: int = 0
    moves: int = 0

    def taken(self, chunks: dict[int, bytes], entries: int) -> int:
        """The bytes of a block with these chunks."""
        padded = sum((len(c) + 2 + 3) // 4 * 4 for c in chunks.values() if c)
        return (16 + 2 * entries + padded + 15) // 16 * 16

    def put(self, handle: int, data: bytes) -> None:
        """Gives a chunk these bytes, and the table two more entries if it needs them. Refused 6 if the block gets too large."""
        chunks = self.chunks | {handle: data}
        entries = max(self.entries, (handle - 16) // 2 // 2 * 2 + 2)
        refuse_if(6, self.taken(chunks, entries) > LARGEST)
        self.chunks, self.entries = chunks, entries

    def chunk(self, handle: int) -> bytes:
        refuse_if(2, handle not in self.chunks)
        return self.chunks[handle]

    def lalloc(self, count: int) -> int:
        handle = next(h for h in range(16, 65_536, 2) if h not in self.chunks)
        self.put(handle, bytes(count))
        return handle

    def lfree(self, handle: int) -> None:
        self.chunk(handle)
        del self.chunks[handle]

    def lrealloc(self, handle: int, count: int) -> None:
        self.put(handle, (self.chunk(handle) + bytes(count))[:count])

    def lins(self, handle: int, at: int, count: int) -> None:
        data = self.chunk(handle)
        refuse_if(14, at > len(data))
        self.put(handle, data[:at] + bytes(count) + data[at:])

    def ldel(self, handle: int, at: int, count: int) -> None:
        data = self.chunk(handle)
        refuse_if(14, at + count > len(data))
        self.put(handle, data[:at] + data[at + count :])

    def lsize(self, handle: int) -> int:
        return len(self.chunk(handle))

    def lcontract(self) -> None:
        pass

    # Arrays: a header of count, size, 0 and 8; elements of one size, or offsets and elements.

    def array(self, handle: int) -> tuple[int, list[bytes]]:
        """The size of each element, 0 if sizes vary, and the elements. Refused 8 if the chunk is no array."""
        data = self.chunk(handle)
        refuse_if(8, len(data) < HEADER or word_at(data, 4) != 0 or word_at(data, 6) != HEADER)
        count, size = word_at(data, 0), word_at(data, 2)
        if size:
            refuse_if(8, len(data) != HEADER + count * size)
            return size, [data[at : at + size] for at in range(HEADER, len(data), size)]
        refuse_if(8, len(data) < HEADER + 2 * count or (count == 0 and len(data) != HEADER))
        ends = [word_at(data, HEADER + 2 * i) for i in range(count)] + [len(data)]
        refuse_if(8, ends[0] != HEADER + 2 * count or ends != sorted(ends))
        return 0, [data[a:b] for a, b in zip(ends, ends[1:])]

    def put_array(self, handle: int, size: int, elements: list[bytes]) -> None:
        offsets, at = [], HEADER + 2 * len(elements)
        for element in elements if size == 0 else []:
            offsets.append(at)
            at += len(element)
        self.put(handle, spelled(len(elements), size, 0, HEADER, *offsets) + b"".join(elements))

    def element_start(self, handle: int, index: int) -> int:
        size, elements = self.array(handle)
        return HEADER + (index * size if size else 2 * len(elements) + sum(map(len, elements[:index])))

    def canew(self, size: int) -> int:
        handle = self.lalloc(HEADER)
        self.put_array(handle, size, [])
        return handle

    def cains(self, handle: int, index: int, count: int = 0) -> None:
        size, elements = self.array(handle)
        refuse_if(9, index > len(elements))
        self.put_array(handle, size, [*elements[:index], bytes(size or count), *elements[index:]])

    def caadd(self, handle: int, count: int = 0) -> None:
        self.cains(handle, len(self.array(handle)[1]), count)

    def cadel(self, handle: int, index: int) -> None:
        size, elements = self.array(handle)
        refuse_if(9, index >= len(elements))
        self.put_array(handle, size, elements[:index] + elements[index + 1 :])

    def cacount(self, handle: int) -> int:
        return len(self.array(handle)[1])

    def cazero(self, handle: int) -> None:
        self.put_array(handle, self.array(handle)[0], [])

    def caresize(self, handle: int, index: int, count: int) -> None:
        size, elements = self.array(handle)
        refuse_if(8, size != 0)
        refuse_if(9, index >= len(elements))
        elements[index] = (elements[index] + bytes(count))[:count]
        self.put_array(handle, 0, elements)


Blocks = dict[int, Block]


def copied(blocks: Blocks) -> Blocks:
    return {handle: replace(block, chunks=dict(block.chunks), locks=0) for handle, block in blocks.items()}


@dataclass
class Memory:
    """Blocks of memory and of a file, with its map block, its map item, and what was saved last."""

    memory: Blocks = field(default_factory=dict)
    file: Blocks = field(default_factory=dict)
    map: int = 0
    item: tuple[int, int] = (0, 0)
    saved: tuple[Blocks, int, tuple[int, int]] = field(default_factory=lambda: ({}, 0, (0, 0)))

    def make(self, blocks: Blocks, user: int = 0) -> int:
        handle = next(h for h in range(1, MOST_HANDLES + 2) if h not in blocks)
        refuse_if(5, handle > MOST_HANDLES)
        blocks[handle] = Block(user)
        return handle

    def block(self, handle: int) -> Block:
        refuse_if(1, handle not in self.memory)
        return self.memory[handle]

    def file_block(self, handle: int) -> Block:
        refuse_if(1, handle not in self.file)
        refuse_if(15, self.file[handle].user == GROUPS)
        return self.file[handle]

    def group(self, handle: int) -> Block:
        refuse_if(1, handle not in self.file or self.file[handle].user != GROUPS)
        return self.file[handle]

    def mnew(self) -> int:
        return self.make(self.memory)

    def vnew(self, user: int) -> int:
        refuse_if(15, user == GROUPS)
        return self.make(self.file, user)

    def mfree(self, handle: int) -> None:
        refuse_if(7, self.block(handle).locks > 0)
        del self.memory[handle]

    def vfree(self, handle: int) -> None:
        refuse_if(7, self.file_block(handle).locks > 0)
        del self.file[handle]
        if self.map == handle:
            self.map = 0

    def vfind(self, above: int, user: int) -> int:
        refuse_if(15, user == GROUPS)
        return min((h for h, b in self.file.items() if h > above and b.user == user), default=0)

    def vuid(self, handle: int) -> int:
        refuse_if(1, handle not in self.file)
        return self.file[handle].user

    def vgetmap(self) -> int:
        return self.map

    def vsetmap(self, handle: int) -> None:
        if handle:
            self.file_block(handle)
        self.map = handle

    def vupdate(self) -> None:
        pass

    def vsave(self) -> None:
        self.saved = copied(self.file), self.map, self.item

    def vrevert(self) -> None:
        blocks, self.map, self.item = self.saved
        self.file = copied(blocks)

    def gnew(self) -> int:
        return self.make(self.file, GROUPS)

    def gfree(self, handle: int) -> None:
        refuse_if(7, self.group(handle).locks > 0)
        del self.file[handle]
        if self.item[0] == handle:
            self.item = (0, 0)

    def igetmap(self) -> tuple[int, int]:
        return self.item

    def isetmap(self, group: int, item: int) -> None:
        if group:
            self.group(group)
        refuse_if(14, group == 0 and item != 0)
        self.item = (group, item)

    def bytes_of_file(self) -> int:
        """About how many bytes the blocks of the file take, in both directories."""
        return sum(b.taken(b.chunks, b.entries) for bs in (self.file, self.saved[0]) for b in bs.values())
