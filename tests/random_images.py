"""Makes random images of a private routine, whose rows are alike but for some numbers and whose potentials fall by one, and compares what the
program of `trials` answers with a second reading of images. Nearly all are legal, those with borrowed slots in version 2 alone, and
the rules V2 to V9 and V11 to V13 come up. Then images whose rows are just what follows from the row before, or, now and then, a little more.
Each is tried in version 2 too, where it is legal there.

    python3 random_images.py PROGRAM
"""

import random
import sys
from collections import Counter

from damaged_images import Lines
from image_reading import COUNTS, KINDS, OPERANDS, PAIRS, Fault, after, in_version_2, read_instr, read_row

# How many images of either kind.
IMAGES = 5000
MOST_INSTRS = 5
SMALL = [*range(10), 255, 65535]
RET = next(code for code, (word, _) in OPERANDS.items() if word == "RET")


def word(number):
    return number.to_bytes(2, "little")


def random_row(choices):
    """A row most of whose pointers lead into slots that are held."""
    bounds = [choices.choice(SMALL) for _ in range(8)]
    states = choices.choice(((0, 1, 1, 2, 3, 4, 5), (0, 1, 2, 3, 5, 6, 6, 7)))
    slots = [choices.choice(states) for _ in range(4)]
    held = [i for i, slot in enumerate(slots) if slot] + choices.choice(([0], []))
    pointers = b""
    for _ in range(4):
        is_stale = not held or choices.randrange(3) == 0
        pointers += b"\xff\0\0\0" if is_stale else bytes([choices.choice(held), 0]) + word(choices.choice(SMALL))
    return b"".join(map(word, bounds)) + bytes(slots) + pointers + bytes([choices.randrange(64), 0])


def random_instr(choices, instrs):
    """A legal instruction, but no JMP and no CALL; those on slots and pointers come twice as often."""
    first = [code for code, (name, _) in OPERANDS.items() if name not in ("JMP", "CALL")]
    code = choices.choice(first + [code for code in first if code > RET])
    name, operands = OPERANDS[code]
    registers = [choices.randrange(COUNTS[operands[field]]) if field in operands else 0 for field in "abcd"]
    imm = choices.choice(SMALL[:10] if name == "SHR" else SMALL) if "n" in operands else 0
    target = choices.randrange(instrs) if "L" in operands else 0
    return bytes([code, *registers, 0]) + word(imm) + word(target)


def varied(choices, row):
    """The row, now and then with a byte of another row."""
    if choices.randrange(6):
        return row
    at = choices.randrange(38)
    return row[:at] + random_row(choices)[at : at + 1] + row[at + 1 :]


def spell(choices, instrs, rows, ends):
    """An image of one routine with these instructions and rows, and with an entry and an exit row."""
    n = len(instrs)
    head = b"a".ljust(16, b"\0") + bytes([choices.randrange(8) == 0, 0]) + word(n) + n.to_bytes(4, "little")
    points = []
    for i, row in enumerate(rows):
        constants = [n - i, *(choices.choice((0, 0, 0, 0, 0, 0, 1)) if i else 0 for _ in range(4))]
        points.append(row + b"".join(number.to_bytes(4, "little") for number in constants))
    return b"GRT1" + word(1) + word(1) + head + b"".join([*ends, *instrs, *points])


def random_image(choices):
    """An image whose rows are alike but for a number now and then."""
    n = choices.randint(1, MOST_INSTRS)
    row = random_row(choices)
    instrs = [random_instr(choices, n) for _ in range(n - 1)] + [bytes([RET, *[0] * 9])]
    return spell(choices, instrs, [varied(choices, row) for _ in instrs], [varied(choices, row) for _ in range(2)])


def spell_row(row):
    pointers = [b"\xff\0\0\0" if p is None else bytes([p[0], 0]) + word(p[1]) for p in row.pointers]
    bits = sum(1 << i for i, pair in enumerate(PAIRS) if pair in row.pairs)
    return b"".join([*map(word, row.bounds), bytes(row.slots), *pointers, bytes([bits, 0])])


def strengthened(choices, row):
    """The row, now and then with a bound that is lower, a pointer that is longer, or a pair more."""
    if choices.randrange(3):
        return row
    i = choices.randrange(8)
    bounds = tuple(max(bound - (k == i), 0) for k, bound in enumerate(row.bounds))
    pointers = tuple(p and (p[0], p[1] + (k == i and p[1] < 65535)) for k, p in enumerate(row.pointers))
    return [row._replace(bounds=bounds), row._replace(pointers=pointers), row._replace(pairs=row.pairs | {choices.choice(PAIRS)})][i % 3]


def tight_image(choices):
    """An image whose rows are what follows from the row before, or more. Each label is that of a RET of its own."""
    n = choices.randint(1, MOST_INSTRS)
    instrs = []
    for i in range(n):
        instr = random_instr(choices, 1)
        instrs.append(instr[:8] + word(n + 1 + i) if read_instr(instr, 1, 1).has_label else instr)
    row = read_row(random_row(choices), len(KINDS))
    rows, others = [row], []
    for instr in instrs:
        instr = read_instr(instr, 1, 2 * n + 1)
        others.append(strengthened(choices, after(None, instr, row, True)))
        row = strengthened(choices, after(None, instr, row, False))
        rows.append(row)
    returns = (n + 1) * [bytes([RET, *[0] * 9])]
    return spell(choices, instrs + returns, map(spell_row, rows + others), [spell_row(rows[0]), spell_row(row)])


def give(lines, image):
    """Tries an image, in version 2 too if it is legal there."""
    lines.give(image)
    try:
        lines.give(in_version_2(image))
    except Fault:
        pass


def main():
    lines = Lines()
    choices = random.Random(1)
    for _ in range(IMAGES):
        give(lines, random_image(choices))
        give(lines, tight_image(choices))
    lines.compare(sys.argv[1])
    print(f"{2 * IMAGES} random images")
    rules = Counter(line.split()[-1] for line in lines.wanted if "rejected at" in line)
    print(f"{lines.legal} legal, {lines.accepted} accepted, {lines.run} run, {dict(sorted(rules.items()))}", file=sys.stderr)


if __name__ == "__main__":
    main()
