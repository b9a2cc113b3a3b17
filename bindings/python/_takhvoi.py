"""The calls of libtakhvoi.so as ctypes has them, and their refusals: what takhvoi.py stands on."""

from __future__ import annotations

import ctypes
import ctypes.util
import os
from typing import Optional

ABI = 1

TEXTS = {
    1: "no block of this kind has this handle",
    2: "no chunk has this handle",
    3: "the chunk or element is too short",
    4: "no room in the region",
    5: "no handle is free",
    6: "too big",
    7: "the block is locked",
    8: "the chunk is no such array",
    9: "no element has this index",
    10: "no more words can be put out",
    11: "the device failed",
    12: "it is not sure what the device holds",
    13: "out of memory",
    14: "out of range",
    15: "the user ID is reserved for groups",
    100: "no kernel is open",
    101: "the block is not locked",
    102: "the block is not marked as changed",
    103: "a block of the VM file is locked",
    104: "a kernel is open already",
    105: "a size or range is past its limits",
    106: "the host has not performed what is noted",
    110: "no VM file",
    111: "there is no memory",
    112: "no image, or a faulty text",
    113: "the verifier refuses",
    114: "no such image or routine, or it takes other words or blocks",
    115: "the buffer is too short",
    116: "it does something that is not granted",
    200: "no such file or folder",
    201: "the file is there already",
    202: "another has the file's lock",
    203: "the system refuses the file",
    210: "a pointer is null",
}


NO_KERNEL, NOT_LOCKED, BAD_SIZE, BAD_FILE, BAD_IMAGE, REFUSED, NOT_ADMITTED, SHORT_BUFFER = 100, 101, 105, 110, 112, 113, 114, 115
NOT_GRANTED = 116


class Error(Exception):
    """Why a call was not done: its number, its text, for files, images and texts the place of the fault and the verifier's rule, and the routine
    with an effect that is not granted."""

    def __init__(
        self,
        number: int,
        place: Optional[int] = None,
        rule: Optional[int] = None,
        routine: Optional[int] = None,
        effect: Optional[int] = None,
    ) -> None:
        self.number = number
        self.text = TEXTS.get(number, "no such number")
        self.place = place
        self.rule = rule
        self.routine = routine
        self.effect = effect
        beside = "" if place is None else f": at {place}" if rule is None else f": at {place}, by rule {rule}"
        super().__init__(self.text + beside)


class _Kernel(ctypes.Structure):
    _fields_ = [("at", ctypes.c_void_p), ("live", ctypes.c_uint32)]


class RawFile(ctypes.Structure):
    """A kernel on a file of the system, or on none, with fd=-1; its kernel is where it begins."""

    _fields_ = [("kernel", _Kernel), ("fd", ctypes.c_int), ("next", ctypes.c_uint32)]


def _numbers(*names: str) -> list[tuple[str, type]]:
    return [(name, ctypes.c_uint32) for name in names]


class RawPlace(ctypes.Structure):
    _fields_ = _numbers("block", "at", "size", "locks")


class RawChunk(ctypes.Structure):
    _fields_ = _numbers("handle", "at", "len")


class RawEntry(ctypes.Structure):
    _fields_ = _numbers("handle", "user_id", "size", "in_memory", "marked", "locks")


class RawRoutine(ctypes.Structure):
    _fields_ = [
        ("name", ctypes.c_char * 16),
        *_numbers("is_public", "first", "length", "budget"),
        ("bounds", ctypes.c_uint16 * 8),
        ("slots", ctypes.c_uint8 * 4),
    ]


class RawFinding(ctypes.Structure):
    _fields_ = _numbers("kind", "line", "column", "rule", "routine", "instruction", "first", "len")


class RawState(ctypes.Structure):
    _fields_ = [
        ("instruction", ctypes.c_uint32),
        *((name, ctypes.c_uint32 * 4) for name in ("pointers", "spans", "slots")),
        ("words", ctypes.c_uint16 * 8),
        ("counters", ctypes.c_uint16 * 4),
        ("held", ctypes.c_uint16),
        ("good", ctypes.c_uint16),
    ]


U16, U32, _SIZE = ctypes.c_uint16, ctypes.c_uint32, ctypes.c_size_t
_OUT16, _OUT32, _OUT64 = (ctypes.POINTER(it) for it in (U16, U32, ctypes.c_uint64))
_PLACES, _CHUNKS, _ENTRIES, _ROUTINES, _FINDINGS, _STATES = map(ctypes.POINTER, (RawPlace, RawChunk, RawEntry, RawRoutine, RawFinding, RawState))
_KERNEL, _BYTES, _ROOM = ctypes.POINTER(RawFile), ctypes.c_char_p, ctypes.POINTER(ctypes.c_uint8)

# What calls take behind the kernel, and the names of these calls.
_CALLS = {
    (): "file_close file_flush file_update file_save file_revert",
    (U16,): "limit_blocks mlock mfree vlock vdirty vfree vsetmap gfree",
    (U32,): "limit unlock lcontract unload",
    (_OUT16,): "is_sure mnew vgetmap gnew",
    (U16, U16): "ifree isetmap",
    (U16, _OUT16): "marked vnew vuid",
    (U32, U16): "lfree cazero",
    (U32, U32): "new",
    (U32, _OUT16): "locks",
    (_OUT16, _OUT16): "igetmap",
    (U16, U16, U16): "irealloc",
    (U16, U16, _OUT16): "vfind inew ilock",
    (U32, U16, U16): "lrealloc caadd cadel",
    (U32, U16, _OUT16): "lalloc lsize canew cacount",
    (U16, U16, U16, U16): "iins idel",
    (U32, U16, U16, U16): "lins ldel cains caresize",
    (U32, U16, U16, _OUT16): "casize",
    (_BYTES, U32, U32): "file_create",
    (_BYTES, U32, _OUT64): "file_open",
    (U32, _BYTES, _SIZE, _OUT16): "routine",
    (U32, U16, U16, _ROOM, _SIZE): "read",
    (U32, U16, U16, _BYTES, _SIZE): "write",
    (U32, U16, U16, U16, _ROOM, _SIZE): "caread",
    (U32, U16, U16, U16, _BYTES, _SIZE): "cawrite",
    (_BYTES, _SIZE, _OUT32, _OUT64, _OUT32): "load",
    (_BYTES, _SIZE, U32, _OUT32, _OUT64, _OUT32, _OUT16, _OUT32): "load_granted",
    (U32, U16, _OUT32): "effects budget",
    (_OUT16, _SIZE, _OUT32): "mlist vlist",
    (U16, _OUT16, _SIZE, _OUT32): "ilist",
    (U32, _OUT16, _SIZE, _OUT32): "llist",
    (U32, U16, _OUT16, _OUT16, _OUT16, _SIZE, _OUT32, _OUT32): "file_run",
    (_PLACES, _SIZE, _OUT32): "places",
    (U32, _ROOM, _SIZE): "region",
    (U32, _CHUNKS, _SIZE, _OUT32): "chunks",
    (_ENTRIES, _SIZE, _OUT32): "entries",
    (U32, _ROUTINES, _SIZE, _OUT32): "routines",
    (U32, U16, _OUT16, _OUT16, _OUT16, _SIZE, _OUT32, _OUT32, U32, _STATES, _SIZE): "trace",
    (U32, U16, _OUT16, _OUT16, U32, _PLACES, _SIZE, _OUT32, _ROOM, _SIZE): "memory_at",
}
_TEXT_CALLS = "assemble compile list explain"
_EXPLAIN_CALLS = "explain_text explain_source"
_SHOWN_CALLS = {
    (_OUT32, _SIZE, _OUT64): "lines",
    (_FINDINGS, _SIZE, _OUT32, _ROOM, _SIZE, _OUT64): "findings",
}


def _find() -> str:
    here = os.path.dirname(os.path.abspath(__file__))
    for path in (os.path.join(here, "libtakhvoi.so"), os.path.join(here, "../../../lib/libtakhvoi.so")):
        if os.path.exists(path):
            return path
    return ctypes.util.find_library("takhvoi") or f"libtakhvoi.so.{ABI}"


def _declared(library: ctypes.CDLL) -> ctypes.CDLL:
    takers = [((_KERNEL, *takes), names) for takes, names in _CALLS.items()]
    on_texts = (_BYTES, _SIZE, _ROOM, _SIZE, _OUT64)
    shown = [((_BYTES, _SIZE, *takes), names) for takes, names in _SHOWN_CALLS.items()]
    for takes, names in [*takers, *shown, (on_texts, _TEXT_CALLS), ((*on_texts, _OUT64, _OUT64), _EXPLAIN_CALLS)]:
        for name in names.split():
            call = getattr(library, "takhvoi_" + name)
            call.argtypes, call.restype = takes, U32
    library.takhvoi_abi.restype = U32
    if library.takhvoi_abi() != ABI:
        raise ImportError("libtakhvoi.so has another interface than takhvoi.py was made for")
    return library


library = _declared(ctypes.CDLL(os.environ.get("TAKHVOI_LIBRARY") or _find()))


def sixteen(number: int) -> int:
    """A number that a call takes in 16 bits: ctypes would drop the others."""
    if not 0 <= number <= 0xFFFF:
        raise ValueError(f"{number} is no number of 16 bits")
    return number


def bytes_of(size: int) -> int:
    """A size that a call takes in 32 bits."""
    if not 0 <= size <= 0xFFFFFFFF:
        raise Error(BAD_SIZE)
    return size


def room(size: int) -> ctypes.Array:
    """Bytes for a call to fill: at least one, since no pointer is null."""
    return (ctypes.c_uint8 * max(bytes_of(size), 1))()
