"""The address book of library/book.c in Python: the same file, the same words, the same answers."""

from __future__ import annotations

import sys

import takhvoi
from takhvoi import Error, Kernel, LockedBlock

USER_ID = 1
# The chunk that has the array: the first one of a new block.
ENTRIES = 16
NO_FILE, BAD_IMAGE, REFUSED, NOT_ADMITTED = 200, 112, 113, 114


def open_book(path: str) -> Kernel:
    try:
        return Kernel.open(path)
    except Error as error:
        if error.number != NO_FILE:
            raise
    kernel = Kernel.create(path)
    with kernel.make_file_block(USER_ID) as block:
        block.make_array()
    kernel.set_map_block(block.handle)
    kernel.save()
    return kernel


def lock(kernel: Kernel) -> LockedBlock:
    return kernel.lock_file_block(kernel.map_block() or 0)


def add(kernel: Kernel, person: str, number: str) -> None:
    with lock(kernel) as block:
        block.mark()
        block.array(ENTRIES).append(f"{person}\0{number}".encode())
    kernel.save()


def show(kernel: Kernel) -> None:
    with lock(kernel) as block:
        for entry in block.array(ENTRIES):
            print(entry.decode().replace("\0", " "))


def run(kernel: Kernel, path: str, given: list[str]) -> None:
    try:
        with open(path, "rb") as file:
            text = file.read()
    except OSError:
        raise Error(NO_FILE) from None
    image = kernel.load(takhvoi.assemble(text))
    with lock(kernel) as block:
        for word in image.run(0, [int(it) for it in given[:8]], [block]).output:
            print(word)


def work(words: list[str]) -> None:
    with open_book(words[0]) as kernel:
        if words[1] == "add" and len(words) == 4:
            add(kernel, words[2], words[3])
        elif words[1:] == ["list"]:
            show(kernel)
        elif words[1] == "run" and len(words) > 2:
            run(kernel, words[2], words[3:])
        else:
            raise Error(NOT_ADMITTED)


def main() -> int:
    if len(sys.argv) < 3:
        return 2
    try:
        work(sys.argv[1:])
    except Error as error:
        place = f"at {'line' if error.rule is None else 'instruction'} {error.place}: " if error.number in (BAD_IMAGE, REFUSED) else ""
        print(f"{place}book: {error.text}", file=sys.stderr)
        return 1
    return 0


if __name__ == "__main__":
    sys.exit(main())
