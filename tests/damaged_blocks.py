"""Sets each byte of two blocks of 64 bytes to each value, changes up to three of their words at random, and cuts them at each length; and
compares what the program of `trials` answers with a second reading of blocks: whether they are heaps, and with which chunks.

    python3 damaged_blocks.py PROGRAM
"""

import random
import subprocess
import sys

import block_reading

SIZE = 64
# How often words are changed at random in each block.
CHANGES = 30000
# Which words these are, and what they become.
PLACES = range(8, 64, 2)
VALUES = [0, 2, 3, 4, 65535] + 2 * [*range(5, 65)]


def words(*numbers):
    return b"".join(number.to_bytes(2, "little") for number in numbers)


# Two entries that are not in use, and one free chunk.
FRESH = words(1, 16, 0, 0, 64, 2, 20, 44, 0, 0, 44, 0).ljust(SIZE, b"\0")
# Four entries: chunks of five and of three bytes with a hole between them and one behind, one of no byte, and one not in use. Padding is
# not 0.
HOLES = (
    words(1, 16, 0, 0, 64, 4, 32, 24, 26, 0, 46, 65535)
    + words(7)
    + b"abcde\xaa"
    + words(12, 52, 9, 9, 9, 9)
    + words(5)
    + b"xyz\xaa\xaa\xaa"
    + words(12, 0, 9, 9, 9, 9)
)

# The fresh block with its free chunk as two that touch, and with one chunk for both entries.
TOUCHING = FRESH[:20] + words(20, 40).ljust(20, b"\0") + words(24).ljust(24, b"\0")
SHARED = (words(1, 16, 0, 0, 64, 2, 0, 0, 22, 22, 44)).ljust(SIZE, b"\0")


class Lines:
    """The lines that the program is given, each with what it must answer."""

    def __init__(self):
        self.wanted = ["on_heap -> ok"]
        self.heaps = 0

    def ask(self, line, answer):
        self.wanted.append(f"{line} -> {answer}")

    def give(self, block):
        """Gives the program a block."""
        self.ask(f"block {len(block)} 0", "ok")
        self.put(bytes(len(block)), block)

    def put(self, before, block):
        """Writes the bytes in which two blocks differ."""
        for at, byte in enumerate(block):
            if before[at] != byte:
                self.ask(f"put {at} {byte}", "ok")

    def check(self, block):
        """Wants the answer of the second reading, and the chunks."""
        chunks = block_reading.chunks(block)
        self.ask("check", "false" if chunks is None else "true")
        if chunks is None:
            return
        self.heaps += 1
        self.ask("total_free", block_reading.total_free(block))
        for i, chunk in enumerate(chunks + [None]):
            handle = 16 + 2 * i
            self.ask(f"place {handle}", "BadChunk" if chunk is None else (chunk[0], len(chunk[1])))
            self.ask(f"bytes {handle}", "BadChunk" if chunk is None else list(chunk[1]))

    def change(self, block, changed):
        """Wants the answer to a changed block, and changes it back."""
        self.put(block, changed)
        self.check(changed)
        self.put(changed, block)

    def compare(self, program):
        """Prints each answer that is not the one that is wanted, with the lines before it."""
        asked = "".join(line.split(" -> ")[0] + "\n" for line in self.wanted)
        answered = subprocess.run([program], input=asked, stdout=subprocess.PIPE, text=True, check=True).stdout.splitlines()
        for number, (line, answer) in enumerate(zip(self.wanted, answered)):
            if line != answer:
                before = "; ".join(self.wanted[max(number - 6, 0) : number])
                print(f"{before}: wanted {line}, but was answered {answer}")
        if len(self.wanted) != len(answered):
            print(f"{len(self.wanted)} lines were asked and {len(answered)} answered")


def damage(program, block, seed):
    """Tries a block."""
    lines = Lines()
    lines.give(block)
    lines.check(block)
    for at in range(SIZE):
        for value in range(256):
            lines.change(block, block[:at] + bytes([value]) + block[at + 1 :])
    choices = random.Random(seed)
    for _ in range(CHANGES):
        changed = block
        for at in choices.sample(PLACES, choices.randint(1, 3)):
            changed = changed[:at] + words(choices.choice(VALUES)) + changed[at + 2 :]
        lines.change(block, changed)
    cut = [block[:length] for length in range(SIZE + 1)] + [block + bytes(more) for more in (1, 16)]
    for bytes_ in (TOUCHING, SHARED, *cut):
        lines.give(bytes_)
        lines.check(bytes_)
    lines.compare(program)
    print(f"{256 * SIZE} changed blocks, {CHANGES} with changed words, {len(cut)} of other lengths")
    print(f"{lines.heaps} heaps", file=sys.stderr)


def main():
    for seed, block in enumerate((FRESH, HOLES), 1):
        damage(sys.argv[1], block, seed)


if __name__ == "__main__":
    main()
