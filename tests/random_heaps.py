"""Makes random lists of calls on a heap, and compares what the program of `trials` answers with what a plain model does.

    python3 random_heaps.py PROGRAM

The model keeps the bytes of each chunk in a list of their own. After each call the heap must be one, with the model's chunks and
their bytes, and with as many free bytes as the model says.
"""

import subprocess
import sys

LISTS = 8
CALLS = 500
# The block's size at first, how long it may grow here, and how long any block may be.
FIRST_SIZE = 64
MOST_SIZE = 512
LARGEST_SIZE = 65520
FIRST_HANDLE = 16
HEADER = 16
ENTRY = 2
# The byte that a new block, and a block's new bytes, are filled with.
FILLER = 170


class Random:
    """Numbers by a linear congruence."""

    def __init__(self, seed):
        self.state = seed

    def below(self, bound):
        self.state = (self.state * 1664525 + 1013904223) % 2**32
        return self.state // 256 % bound

    def length(self):
        """A short length mostly, and a long one now and then."""
        return self.below(65536) if self.below(64) == 0 else self.below(48)

    def handle(self, entries):
        """A handle of one of so many entries, or one that is no chunk's."""
        odd = 1 if self.below(32) == 0 else 0
        return FIRST_HANDLE + 2 * self.below(entries + 1) + odd

    def call(self, entries):
        """A call on a heap with so many entries: its word and its numbers."""
        length, at, handle = self.length(), self.length(), self.handle(entries)
        kind = self.below(20)
        if kind < 5:
            return "alloc", [length]
        if kind < 9:
            return "free", [handle]
        if kind < 13:
            return "realloc", [handle, length]
        if kind < 16:
            return "insert", [handle, at, length]
        if kind < 19:
            return "delete", [handle, at, length]
        return "contract", []


class Refusal(Exception):
    """Why a call is refused."""


class NoRoom(Exception):
    """A call is refused since the block would need this size."""

    def __init__(self, need):
        super().__init__("TooBig" if need > LARGEST_SIZE else f"NeedMore({need})")
        self.need = need


def cost(length):
    """What a chunk takes: a size word, its bytes, and padding to a multiple of 4."""
    return 0 if length == 0 else (length + 2 + 3) // 4 * 4


def used(chunks):
    """What the header, the table and the chunks take."""
    return HEADER + ENTRY * len(chunks) + sum(cost(len(chunk)) for chunk in chunks if chunk is not None)


class Heap:
    """The heap of a block: for each entry of its table the bytes of a chunk, or None."""

    def __init__(self):
        self.size = FIRST_SIZE
        self.chunks = [None, None]

    def entry(self, handle):
        """The entry of a chunk."""
        i, odd = divmod(handle - FIRST_HANDLE, 2)
        if odd or i >= len(self.chunks) or self.chunks[i] is None:
            raise Refusal("BadChunk")
        return i

    def put(self, i, chunk):
        """Gives an entry this chunk, where the block has room for it. The table grows by two entries."""
        chunks = self.chunks + [None, None] if i == len(self.chunks) else list(self.chunks)
        chunks[i] = chunk
        need = (used(chunks) + 15) // 16 * 16
        if need > self.size:
            raise NoRoom(need)
        self.chunks = chunks

    def alloc(self, length):
        i = self.chunks.index(None) if None in self.chunks else len(self.chunks)
        self.put(i, [0] * length)
        return FIRST_HANDLE + 2 * i

    def free(self, handle):
        self.chunks[self.entry(handle)] = None
        return "ok"

    def realloc(self, handle, length):
        i = self.entry(handle)
        self.put(i, (self.chunks[i] + [0] * length)[:length])
        return "ok"

    def insert(self, handle, at, length):
        i = self.entry(handle)
        chunk = self.chunks[i]
        if at > len(chunk):
            raise Refusal("Range")
        self.put(i, chunk[:at] + [0] * length + chunk[at:])
        return "ok"

    def delete(self, handle, at, length):
        i = self.entry(handle)
        chunk = self.chunks[i]
        if at + length > len(chunk):
            raise Refusal("Range")
        self.put(i, chunk[:at] + chunk[at + length :])
        return "ok"

    def contract(self):
        return "ok"

    def count_into(self, handle, first):
        i = self.entry(handle)
        self.chunks[i] = [(first + at) % 256 for at in range(len(self.chunks[i]))]
        return "ok"

    def enlarged(self, size, _filler):
        self.size = size
        return "ok"

    def bytes(self, handle):
        return self.chunks[self.entry(handle)]

    def total_free(self):
        return self.size - used(self.chunks)


class CallList:
    """A list of lines on a heap, each with what it must be answered."""

    def __init__(self):
        self.heap = Heap()
        self.wanted = [f"block {FIRST_SIZE} {FILLER} -> ok", "init 1 -> ok"]

    def ask(self, word, *numbers):
        """Adds a call and its answer. Gives both back: the answer, and the size that the block would need, or None."""
        need = None
        try:
            answer = getattr(self.heap, word)(*numbers)
        except Refusal as refusal:
            answer = refusal
        except NoRoom as refusal:
            # want of room is all that `alloc` refuses, and one of the refusals of the others
            answer = refusal if word == "alloc" else f"Room({refusal})"
            need = refusal.need
        line = " ".join([word, *map(str, numbers)])
        self.wanted.append(f"{line} -> {answer}")
        return answer, need

    def step(self, word, numbers, first):
        """Adds a call. A new chunk is filled, and the block grows as far as it may where it is too small."""
        answer, need = self.ask(word, *numbers)
        if word == "alloc" and need is None:
            self.ask("count_into", answer, first)
        if need is not None and need <= MOST_SIZE:
            self.ask("enlarged", need, FILLER)
        self.look()

    def look(self):
        """Adds lines that look at the whole heap."""
        self.wanted.append("check -> true")
        self.ask("total_free")
        for i in range(len(self.heap.chunks)):
            self.ask("bytes", FIRST_HANDLE + 2 * i)


def random_list(seed):
    """The lines of a random list, with their answers."""
    random = Random(seed)
    calls = CallList()
    for k in range(CALLS):
        word, numbers = random.call(len(calls.heap.chunks))
        calls.step(word, numbers, k % 256)
    return calls.wanted


def main():
    wanted = ["on_heap -> ok"] + [line for seed in range(1, LISTS + 1) for line in random_list(seed)]
    asked = "".join(line.split(" -> ")[0] + "\n" for line in wanted)
    answered = subprocess.run(sys.argv[1:], input=asked, stdout=subprocess.PIPE, text=True, check=True).stdout.splitlines()
    for number, (line, answer) in enumerate(zip(wanted, answered), 1):
        if line != answer:
            sys.exit(f"line {number}: wanted {line}, but was answered {answer}")
    if len(wanted) != len(answered):
        sys.exit(f"{len(wanted)} lines were asked and {len(answered)} answered")
    print(f"{LISTS} lists of {CALLS} calls")


if __name__ == "__main__":
    main()
