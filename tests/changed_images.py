"""Changes numbers of images at random, one to three of them, or one number of all rows, and compares what the program of `trials`
answers with a second reading of images, as damaged_images.py does.

    python3 changed_images.py PROGRAM COUNT SESSION..

Each SESSION is a file that begins with an image, of which COUNT changed ones are tried.
"""

import random
import sys
from collections import Counter

import image_reading
from damaged_images import Lines, image_of

# The fields of a row, an instruction and a potential: where each stands and its bytes.
ROW = [(2 * i, 2) for i in range(8)] + [(16 + i, 1) for i in range(4)]
ROW += [(at, 1) for at in (20, 24, 28, 32, 36)] + [(at, 2) for at in (22, 26, 30, 34)]
INSTR = [(i, 1) for i in range(5)] + [(6, 2), (8, 2)]
POTENTIAL = [(at, 4) for at in range(0, 20, 4)]
SMALL = [*range(12), 255, 65535]


class Numbers:
    """Where the numbers of an image stand."""

    def __init__(self, image):
        r, n = len(image.routines), len(image.instrs)
        heads = [8 + 100 * i for i in range(r)]
        points = [8 + 100 * r + 10 * n + 58 * i for i in range(n)]
        self.rows = [at + start for at in heads for start in (24, 62)] + points
        self.groups = [
            [(at + field, width) for at in heads for field, width in ((16, 1), (20, 4))],
            [(8 + 100 * r + 10 * i + field, width) for i in range(n) for field, width in INSTR],
            [(at + field, width) for at in self.rows for field, width in ROW],
            [(at + 38 + field, width) for at in points for field, width in POTENTIAL],
        ]

    def choose(self, choices):
        """The places that are to be changed, each with a width."""
        if choices.randrange(3) == 0:
            at, width = choices.choice(ROW)
            return [(row + at, width) for row in self.rows[choices.randrange(len(self.rows)) :]], True
        return [choices.choice(choices.choice(self.groups)) for _ in range(choices.randint(1, 3))], False


def value_for(choices, old):
    return choices.choice([old - 1, old + 1, choices.choice(SMALL), choices.choice(SMALL)])


def changed(data, numbers, choices):
    """The image with some numbers changed."""
    places, is_one_value = numbers.choose(choices)
    value = None
    for at, width in places:
        if value is None or not is_one_value:
            value = value_for(choices, int.from_bytes(data[at : at + width], "little"))
        data = data[:at] + (value % 256**width).to_bytes(width, "little") + data[at + width :]
    return data


def put(lines, before, data):
    """Adds the lines that make one image of another."""
    for at, (old, new) in enumerate(zip(before, data)):
        if old != new:
            lines.ask(f"byte {at} {new}", f"was {old}")


def try_image(program, data, count, seed):
    lines = Lines()
    lines.give(data)
    numbers = Numbers(image_reading.read(data))
    choices = random.Random(seed)
    before = data
    for _ in range(count):
        now = changed(data, numbers, choices)
        put(lines, before, now)
        lines.check("check", now)
        before = now
    lines.compare(program)
    print(f"{count} changed images")
    rules = Counter(line.split()[-1] for line in lines.wanted if "rejected at" in line)
    print(f"{lines.legal} legal, {lines.accepted} accepted, {lines.run} run, {dict(sorted(rules.items()))}", file=sys.stderr)


def main():
    program, count, *paths = sys.argv[1:]
    for seed, path in enumerate(paths):
        try_image(program, image_of(path), int(count), seed)


if __name__ == "__main__":
    main()
