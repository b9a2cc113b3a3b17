"""Makes a screenshot small: a picture of at most 256 colours."""

import struct
import zlib
from collections import Counter
from pathlib import Path

SIGNATURE = b"\x89PNG\r\n\x1a\n"


def parts(data: bytes) -> dict[bytes, bytes]:
    """The chunks of a picture; those of one kind together."""
    found: dict[bytes, bytes] = {}
    at = len(SIGNATURE)
    while at < len(data):
        length, kind = struct.unpack(">I4s", data[at : at + 8])
        found[kind] = found.get(kind, b"") + data[at + 8 : at + 8 + length]
        at += 12 + length
    return found


def paeth(a: int, b: int, c: int) -> int:
    near = min((abs(b - c), 0, a), (abs(a - c), 1, b), (abs(a + b - 2 * c), 2, c))
    return near[2]


def unfiltered(kind: int, row: bytearray, above: bytes, wide: int) -> bytes:
    """A row of a picture, of which a pixel has `wide` bytes."""
    for i in range(len(row)):
        left = row[i - wide] if i >= wide else 0
        corner = above[i - wide] if i >= wide else 0
        row[i] = (row[i] + (0, left, above[i], (left + above[i]) // 2, paeth(left, above[i], corner))[kind]) & 255
    return bytes(row)


def rows_of(found: dict[bytes, bytes]) -> tuple[list[bytes], int, int]:
    """The rows, the bytes of a pixel, and the width."""
    width, height, depth, colours = struct.unpack(">IIBB", found[b"IHDR"][:10])
    if depth != 8 or colours not in (2, 6):
        raise SystemExit("png: another kind of picture")
    wide = 3 if colours == 2 else 4
    data = zlib.decompress(found[b"IDAT"])
    length = width * wide
    rows, above = [], bytes(length)
    for y in range(height):
        at = y * (length + 1)
        above = unfiltered(data[at], bytearray(data[at + 1 : at + 1 + length]), above, wide)
        rows.append(above)
    return rows, wide, width


def shrink(path: Path) -> None:
    """Replaces a picture by one with the 256 commonest colours. Any other colour becomes the nearest of these."""
    found = parts(path.read_bytes())
    rows, wide, width = rows_of(found)
    pixels = [[row[i : i + 3] for i in range(0, len(row), wide)] for row in rows]
    counts = Counter(pixel for row in pixels for pixel in row)
    palette = [colour for colour, _ in counts.most_common(256)]
    places = {colour: n for n, colour in enumerate(palette)}
    for colour in counts:
        if colour not in places:
            places[colour] = min(range(len(palette)), key=lambda n: sum((a - b) ** 2 for a, b in zip(palette[n], colour)))
    data = zlib.compress(b"".join(b"\0" + bytes(places[pixel] for pixel in row) for row in pixels), 9)
    head = struct.pack(">IIBBBBB", width, len(rows), 8, 3, 0, 0, 0)
    chunks = ((b"IHDR", head), (b"PLTE", b"".join(palette)), (b"IDAT", data), (b"IEND", b""))
    path.write_bytes(SIGNATURE + b"".join(struct.pack(">I", len(body)) + kind + body + struct.pack(">I", zlib.crc32(kind + body)) for kind, body in chunks))
