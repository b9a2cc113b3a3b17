"""Loads the random texts of random_grants.py into a kernel through the library, under random grants, and runs their public routines. The kernel
has the VM file of random_grants.py, and blocks of memory, some of which the host has locked. A text that is loaded changes only what was
granted: the VM file, which the second reading of files compares, and blocks of memory: their locks, chunks and bytes. A text that is not
loaded has an effect that is not granted, and the place is that of an instruction with this effect.

    python3 random_loads.py [COUNT [SEED]]

TAKHVOI_LIBRARY names the library, and PYTHONPATH the folder of takhvoi.py.
"""

import contextlib
import random
import sys
import tempfile
from pathlib import Path

from random_grants import PLAIN, SETUP, directories, kept_wrong, random_grants, random_text
from takhvoi import Effect, Error, Kernel, assemble

BITS = {word: 1 << bit for bit, word in enumerate(PLAIN)}
BITS |= {f"{what}-s{slot}": 1 << first + slot for what, first in (("reads", 8), ("changes", 12)) for slot in range(4)}
# How often the host has locked blocks 1 to 4 of memory while a routine runs.
LOCKS = (1, 2, 0, 0)


def image_of(text):
    """No routine has a loop, so the private one returns within so many steps, and a public one that calls it too."""
    return assemble(text.replace("public budget ?", "public budget 999").replace("budget ?", "budget 99"))


def make_file(path):
    """As SCRIPT of random_grants.py does."""
    with Kernel.create(path) as kernel, kernel.load(image_of(SETUP)) as image:
        for user_id in (11, 12, 13):
            image.run("block", [user_id])
        image.run("group")
        kernel.save()
        image.run("block", [14])
        kernel.update()


def make_memory(kernel):
    """Blocks with a chunk 16 and an array 18, as those of the file are, each with its own bytes."""
    for number, _ in enumerate(LOCKS):
        with kernel.make_block() as block:
            block.make_chunk(bytes([number] * 8))
            array = block.make_array(2)
            array.append(b"ab")
            array.append(b"cd")


def memory(kernel):
    """By handle each block of memory: how often it is locked, and its chunks."""
    found = {}
    for handle in kernel.blocks():
        locks = kernel.locks(handle)
        with kernel.lock(handle) as block:
            found[handle] = locks, {chunk: block.chunk(chunk).read() for chunk in block.chunks()}
    return found


def memory_wrong(granted, before, after):
    """What of memory changed that was not granted."""
    if "memory" not in granted and before != after:
        yield "memory changed"
    if "locks-by-handle" not in granted:
        for handle, block in before.items():
            if block[0] and after.get(handle) != block:
                yield f"block {handle} of memory changed, which the host has locked"


def instructions(text):
    """The lines that are instructions, by their place in the image."""
    return [line for line in text.lines if line.text.startswith(" ") and line.text.split()[0] not in ("in", "out")]


def refusal_wrong(text, effects, granted, error):
    """What is wrong with a refusal."""
    missing = {word for word in effects - granted if BITS[word] == error.effect}
    if error.number != 116 or error.routine != 1 or not missing:
        return f"it is refused: {error.number}, routine {error.routine}, effect {error.effect}"
    line = instructions(text)[error.place]
    if not missing <= line.effects or line.text.split()[0] == "CALL":
        return f"instruction {error.place} does not have {missing}"
    return None


class Trial:
    """A text, on a new copy of a file."""

    def __init__(self, first, path, choices):
        self.first, self.path, self.choices = first, path, choices
        self.text = random_text(choices)
        self.effects = self.text.public.effects()
        self.granted = random_grants(choices, self.effects)
        path.write_bytes(first.read_bytes())

    def wrong(self, counts):
        with Kernel.open(self.path) as kernel:
            make_memory(kernel)
            try:
                image = kernel.load(image_of(self.text.spelled()), Effect(sum(BITS[word] for word in self.granted)))
            except Error as error:
                counts["refused"] += 1
                wrong = refusal_wrong(self.text, self.effects, self.granted, error)
                return [wrong] if wrong else []
            counts["accepted"] += 1
            if not self.effects <= self.granted:
                return [f"it is accepted without {sorted(self.effects - self.granted)}"]
            return list(self.run_wrong(kernel, image))

    def run_wrong(self, kernel, image):
        """What changes that was not granted. What is in memory of the file is seen when a commit writes it."""
        files = directories(self.path)
        with contextlib.ExitStack() as locks:
            for handle, count in enumerate(LOCKS, 1):
                for _ in range(count):
                    locks.enter_context(kernel.lock(handle))
            before = memory(kernel)
            with contextlib.ExitStack() as lends:
                lent = [None] * 4
                for slot, handle in zip(self.text.public.lent, self.text.handles):
                    lent[slot] = lends.enter_context(kernel.lock_file_block(handle))
                output = image.run(1, lent=lent).output
            yield from memory_wrong(self.granted, before, memory(kernel))
        if "commits" not in self.granted:
            if self.path.read_bytes() != self.first.read_bytes():
                yield "the file changed"
            kernel.update()
        elif self.choices.randrange(2):
            kernel.update()
        yield from kept_wrong(self.text, self.granted, files, directories(self.path), output)


def main():
    count, seed = map(int, sys.argv[1:] + ["2000", "1"][len(sys.argv) - 1 :])
    choices = random.Random(seed)
    counts = {"accepted": 0, "refused": 0}
    with tempfile.TemporaryDirectory() as name:
        folder = Path(name)
        make_file(folder / "first.vm")
        for number in range(count):
            trial = Trial(folder / "first.vm", folder / "file.vm", choices)
            for wrong in trial.wrong(counts):
                print(f"text {number}: {wrong}\n{trial.text.spelled()}")
    enough = min(counts.values()) * 5 >= count
    print(f"{count} texts" if enough else f"{counts} of {count} texts")
    print(counts, file=sys.stderr)


if __name__ == "__main__":
    main()
