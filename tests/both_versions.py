"""Assembles texts in both versions of the image. A second reading says of each pair that the image with all rows is of version 1, that the
other one is that image in version 2, and that either has the length that the format gives it. The program lists, explains and checks both
alike.

    python3 both_versions.py PROGRAM TEXT..
"""

import subprocess
import sys
import tempfile
from pathlib import Path

from image_reading import in_version_2, keys_of, read


def answer(*words):
    """The status of a command, and what it prints and says."""
    run = subprocess.run(words, capture_output=True, check=False)
    return run.returncode, run.stdout, run.stderr


def compare(program, text, folder):
    """The lengths of the images of a text, or its fault."""
    whole, keyed = folder / "whole", folder / "keyed"
    made = answer(program, "asm", text, keyed)
    assert made == answer(program, "asm", "--all-rows", text, whole)
    if made[0]:
        return made[2].decode().strip()
    old, new = whole.read_bytes(), keyed.read_bytes()
    image = read(old)
    heads = 8 + 100 * len(image.routines)
    assert old[4:6] == b"\1\0" and len(old) == heads + 68 * len(image.instrs)
    assert new[4:6] == b"\2\0" and len(new) == heads + 30 * len(image.instrs) + 38 * len(keys_of(image.routines, image.instrs))
    assert new == in_version_2(old)
    for command in ("list", "explain", "check"):
        assert answer(program, command, whole) == answer(program, command, keyed), command
    return f"{len(old)} bytes, {len(new)} in version 2"


def main():
    program, *texts = sys.argv[1:]
    with tempfile.TemporaryDirectory() as folder:
        for text in texts:
            print(f"{Path(text).stem}: {compare(program, text, Path(folder))}")


if __name__ == "__main__":
    main()
