"""Compares what the routines of the library return with what Python computes, for words at the edges and random words.

    python3 values.py GEOS SOURCE

SOURCE has a public routine `p_NAME` for each routine NAME, which prints the result, or the number of the refusal.
"""

import random
import subprocess
import sys
from collections.abc import Callable

EDGES = [0, 1, 2, 3, 7, 8, 10, 16, 255, 256, 257, 4_095, 4_096, 21_845, 32_767, 32_768, 32_769, 43_690, 65_534, 65_535]
ROUTINES: dict[str, Callable[[int, int], int]] = {
    "mul": lambda a, b: a * b % 65_536,
    "div": lambda a, b: a // b if b else 16,
    "rem": lambda a, b: a % b if b else 16,
    "and": lambda a, b: a & b,
    "or": lambda a, b: a | b,
    "xor": lambda a, b: a ^ b,
    "not": lambda a, _b: 65_535 - a,
}


def main() -> None:
    chosen = random.Random(1)
    pairs = [(a, b) for a in EDGES for b in EDGES]
    pairs += [(chosen.randrange(65_536), chosen.randrange(1 << chosen.randrange(1, 17))) for _ in range(300)]
    lines, wanted = [], []
    for a, b in pairs:
        for name, meaning in ROUTINES.items():
            lines.append(f"call p_{name} {a} {b}\n")
            wanted.append(str(meaning(a, b)))
    ran = subprocess.run([sys.argv[1], "call", sys.argv[2]], input="".join(lines), capture_output=True, text=True, check=False)
    printed = ran.stdout.split()
    wrong = [line for line, word, want in zip(lines, printed, wanted, strict=False) if word != want]
    print("".join(wrong[:5]), end="")
    print(f"{len(printed)} of {len(wanted)} results, {len(wrong)} wrong")


main()
