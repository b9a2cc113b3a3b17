"""A second reading of blocks: which chunks the bytes of a block spell. Written from docs/HEAPS.md."""

HEADER = 16
# The entry of a chunk of no byte.
NO_BYTE = 65535


def word(block, at):
    return block[at] + 256 * block[at + 1]


def free_pieces(block, at):
    """Where the free chunks stand from this one on, each with its size, or None where they are no list."""
    pieces = []
    end = 0
    while at != 0:
        # in ascending order, and not touching the one before
        if at % 4 != 0 or at + 4 > len(block) or pieces and at <= end:
            return None
        size = word(block, at)
        if size < 4 or size % 4 != 0:
            return None
        pieces.append((at, size))
        end = at + size
        at = word(block, at + 2)
    return pieces


def chunk_piece(block, entry):
    """Where the chunk of an entry stands with its size word, and the bytes that it takes there, or None where there is none."""
    at = entry - 2
    if at < HEADER or at % 4 != 0 or entry > len(block) or word(block, at) < 3:
        return None
    return at, (word(block, at) + 3) // 4 * 4


def is_covered(pieces, at, size):
    """Whether pieces stand one behind the other from here on to the block's end."""
    for start, length in sorted(pieces):
        if start != at:
            return False
        at += length
    return at == size


def entries(block):
    """The entries of the table where the header is one, else None."""
    if len(block) < 64 or len(block) > 65520 or len(block) % 16 != 0:
        return None
    count = word(block, 10)
    if [word(block, at) for at in (2, 4, 6, 8)] != [HEADER, 0, 0, len(block)]:
        return None
    if count < 2 or count % 2 != 0 or HEADER + 2 * count > len(block):
        return None
    return [word(block, HEADER + 2 * i) for i in range(count)]


def chunks(block):
    """For each entry of the table the place and the bytes of its chunk, or None; and None where the block is no heap."""
    table = entries(block)
    if table is None:
        return None
    free = free_pieces(block, word(block, 12))
    if free is None or sum(size for _, size in free) != word(block, 14):
        return None
    used = [chunk_piece(block, entry) for entry in table if entry not in (0, NO_BYTE)]
    if None in used or not is_covered(used + free, HEADER + 2 * len(table), len(block)):
        return None
    found = []
    for entry in table:
        length = 0 if entry in (0, NO_BYTE) else word(block, entry - 2) - 2
        at = 0 if length == 0 else entry
        found.append(None if entry == 0 else (at, block[at : at + length]))
    return found


def is_block(block, handle):
    """Whether the bytes are a heap under a handle."""
    return chunks(block) is not None and word(block, 0) == handle


def total_free(block):
    return word(block, 14)
