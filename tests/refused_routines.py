"""Has routines refused: each instruction with each of its refusals, on a kernel with blocks, chunks, groups and items, marks and counts of
locks. What the kernel has is read before and behind the run, by its own calls, and must be the same: whether it is sure of its file, what
is mapped, each block with its count of locks and its mark, each chunk with its bytes. Then the kernel is closed, and the pair is read that
its device keeps; and once more, it is reverted first and read again. All of that must be as where the routine was not run: so the saved
blocks and the device are as before too.

    python3 refused_routines.py GEOS KERNEL_TRIALS REFUSING INSTRUCTIONS

where REFUSING is the library of refusing.c, and INSTRUCTIONS the document whose table has the refusals. Prints a line for each scene with
how many instructions were refused in it, each that went otherwise, and the refusals of the table that no scene has.
"""

import os
import re
import subprocess
import sys
import tempfile
from pathlib import Path
from typing import NamedTuple

GEOS, TRIALS, REFUSING, INSTRUCTIONS = sys.argv[1:]
MOST_ROUTINES = 32
# What w7 has where the instruction is done, and where the routine does not get as far.
DONE, EARLIER = 0, 99


FIRST, EARLY, LATE = "first", "early", "late"
# What is read behind a run.
ENDS = (["close", "kept_bytes"], ["vrevert", "contents", "close", "kept_bytes"])


class Scene(NamedTuple):
    """What routines find, and what they try.

    `setup` are lines that make a kernel; those of `behind` stand between its first reading and the run. In `routine` the word TRY stands for
    the instruction. `tries` has a line for each: the instruction without its label, what takes it back where it is done, and the refusal.
    Of `words` are w0 to w6. `tail` are lines behind the second reading. Where `fails` is FIRST, the call of the device fails that comes first
    in the run; with EARLY each one of a commit up to the write of the selector, and with LATE that one and the sync behind it. Then, and
    only then, it is not sure any more what is kept.
    """

    name: str
    setup: str
    tries: str
    routine: str = "TRY"
    words: str = "1 1000 2 16 65535 18 20"
    behind: str = ""
    tail: str = ""
    fails: str = ""


# In a block, 16 is a chunk of two bytes that is no array; 18 an array of two elements of any size, 20 one of an element of two bytes.
CHUNKS = """
PREstore16 1 16 0 513
PREcanew 1 0
PREcaadd 1 18 2
PREcaadd 1 18 3
PREcaelt_store16 1 18 0 0 772
PREcanew 1 2
PREcaadd 1 20 2
PREcaelt_store16 1 20 0 0 1286
"""
IN_MEMORY = "kernel 65536\nmnew\nlalloc 1 2" + CHUNKS.replace("PRE", "")
CHANGES = "vsave\nLOCK\nvdirty 1\nvm_store8 1 16 0 7\nvunlock 1\n"
IN_FILE = "kernel 65536\nvnew 5\nvm_lalloc 1 2" + CHUNKS.replace("PRE", "vm_") + "vsetmap 1\nvunlock 1\n" + CHANGES.replace("LOCK", "vlock 1")
IN_GROUP = (
    "kernel 65536\ngnew\ninew 1 2\nilock 1 16 0"
    + CHUNKS.replace("PRE", "vm_")
    + "isetmap 1 18\nvunlock 1\n"
    + CHANGES.replace("LOCK", "ilock 1 16 0")
)
# A block of memory that leaves some 5,400 bytes of a region of 65,536, and one that leaves 64.
LARGE = "mnew\nlalloc H 60000\n"
LARGEST = "mnew\nlalloc H 65450\n"

# w7 has 6,000: more than a block may grow by.
ON_SLOT = "LDI w7 6000\nTRY"
SLOTS = {
    "memory": f"MLOCK s0 w0 e\n{ON_SLOT}\nMUNLOCK s0\nRET",
    "the file": f"VLOCK s0 w0 e\nVDIRTY s0\n{ON_SLOT}\nVUNLOCK s0\nRET",
    "a group": f"ILOCK s0 p0 w0 w3 2 e\nIDIRTY s0\n{ON_SLOT}\nIUNLOCK s0\nRET",
}
ON_CHUNKS = """
LALLOC s0 w1 w4 : 6
LALLOC s0 w1 w7 : 4
LFREE s0 w1 : 2
LREALLOC s0 w1 w2 : 2
LREALLOC s0 w3 w4 : 6
LREALLOC s0 w3 w7 : 4
LINS s0 w1 w2 w2 : 2
LINS s0 w3 w4 w2 : 14
LINS s0 w3 w2 w4 : 6
LINS s0 w3 w2 w7 : 4
LDEL s0 w1 w2 w2 : 2
LDEL s0 w3 w2 w2 : 14
LSIZE s0 w0 w1 : 2
DEREF s0 p0 w1 1 : 2
DEREF s0 p0 w3 3 : 3
CAADD s0 w1 w2 : 2
CAADD s0 w3 w2 : 8
CAADD s0 w5 w4 : 6
CAADD s0 w5 w7 : 4
CAINS s0 w1 w2 w2 : 2
CAINS s0 w3 w2 w2 : 8
CAINS s0 w5 w1 w2 : 9
CAINS s0 w5 w2 w4 : 6
CAINS s0 w5 w2 w7 : 4
CADEL s0 w1 w0 : 2
CADEL s0 w3 w0 : 8
CADEL s0 w5 w2 : 9
CACOUNT s0 w0 w1 : 2
CACOUNT s0 w0 w3 : 8
CAELT s0 p0 w1 w0 1 : 2
CAELT s0 p0 w3 w0 1 : 8
CAELT s0 p0 w5 w2 1 : 9
CAELT s0 p0 w5 w0 9 : 3
CAZERO s0 w1 : 2
CAZERO s0 w3 : 8
CARESIZE s0 w1 w0 w2 : 2
CARESIZE s0 w3 w0 w2 : 8
CARESIZE s0 w6 w0 w2 : 8
CARESIZE s0 w5 w2 w2 : 9
CARESIZE s0 w5 w0 w4 : 6
CARESIZE s0 w5 w0 w7 : 4
"""
ON_POINTERS = """
LDCB w0 p0 w2 : 14
LDCW w0 p0 w0 : 14
STCB w0 p0 w2 : 14
STCW w0 p0 w0 : 14
"""

# Block 1 with a chunk, group 2 with an item of two bytes, both mapped, and block 3, which is saved alone.
FILE = """kernel 65536
vnew 5
vm_lalloc 1 2
vsetmap 1
vunlock 1
gnew
inew 2 2
isetmap 2 16
vnew 6
vunlock 3
vsave
vlock 1
vdirty 1
vm_store16 1 16 0 513
vunlock 1
vfree 3
"""
FILE_WORDS = "1 1000 2 16 65535 65280 0"
ON_FILE = """
VNEW s0 w1 w5 ! VUNLOCK s0 : 15
VLOCK s0 w1 ! VUNLOCK s0 : 1
VLOCK s0 w2 ! VUNLOCK s0 : 15
VFREE w1 : 1
VFREE w2 : 15
VFIND w1 w0 w5 : 15
VUID w1 w1 : 1
VSETMAP w1 : 1
VSETMAP w2 : 15
GFREE w1 : 1
GFREE w0 : 1
INEW w1 w1 w2 : 1
INEW w1 w2 w4 : 6
IFREE w1 w3 : 1
IFREE w2 w1 : 2
IREALLOC w1 w3 w2 : 1
IREALLOC w2 w1 w2 : 2
IREALLOC w2 w3 w4 : 6
IINS w1 w3 w2 w2 : 1
IINS w2 w1 w2 w2 : 2
IINS w2 w3 w4 w2 : 14
IINS w2 w3 w2 w4 : 6
IDEL w1 w3 w2 w2 : 1
IDEL w2 w1 w2 w2 : 2
IDEL w2 w3 w2 w2 : 14
ILOCK s0 p0 w1 w3 2 ! IUNLOCK s0 : 1
ILOCK s0 p0 w2 w1 2 ! IUNLOCK s0 : 2
ILOCK s0 p0 w2 w3 3 ! IUNLOCK s0 : 3
ISETMAP w1 w3 : 1
ISETMAP w6 w3 : 14
"""
IN_ROOM = """
INEW w1 w2 w7 : 4
IREALLOC w2 w3 w7 : 4
IINS w2 w3 w2 w7 : 4
"""
BROUGHT = """
VLOCK s0 w0 ! VUNLOCK s0 : ?
INEW w1 w2 w2 : ?
IFREE w2 w3 : ?
IREALLOC w2 w3 w2 : ?
IINS w2 w3 w2 w2 : ?
IDEL w2 w3 w0 w0 : ?
ILOCK s0 p0 w2 w3 2 ! IUNLOCK s0 : ?
"""
FILLED = "mnew\nlalloc 1 65498\n"
FREED = "munlock 1\nmfree 1\n"
COMMITS = "VUPDATE : ?\nVSAVE : ?\nVREVERT : ?"
# Each block of 64 bytes takes 70 of an area, and each directory 8: so beside an empty one there is room for seven, and for four not twice.
FOUR_BLOCKS = "kernel 65536 512\ntimes 4 vnew 5\nvunlock_each 1 4\nvupdate\n"

SCENES = [
    scene
    for owner, setup, other in (("memory", IN_MEMORY, 2), ("the file", IN_FILE, 1), ("a group", IN_GROUP, 1))
    for scene in (
        Scene(f"chunks of {owner}", setup + LARGE.replace("H", str(other)), ON_CHUNKS, SLOTS[owner]),
        Scene(
            f"pointers into {owner}",
            setup,
            ON_POINTERS,
            SLOTS[owner].replace("TRY", "DEREF s0 p0 w3 2 u\nTRY") + "\nu: " + SLOTS[owner].split("\n")[-2] + "\nJMP e",
        ),
    )
]
for owner, prefix, make, lock in (("memory", "", "mnew", ""), ("the file", "vm_", "vnew 5", "vunlock 1\n"), ("a group", "", "gnew", "")):
    fill = "inew 1 N" if owner == "a group" else f"{prefix}lalloc 1 N"
    full = f"kernel 65536\n{make}\n{fill}\n{lock}"
    SCENES += [
        Scene(f"a full block of {owner}", full.replace("N", "65498"), "CANEW s0 w1 2 : 6", SLOTS[owner]),
        Scene(
            f"a full block of {owner} and no room",
            full.replace("N", "38") + LARGEST.replace("H", "2" if owner == "memory" else "1"),
            "CANEW s0 w1 2 : 4",
            SLOTS[owner],
        ),
    ]
SCENES += [
    Scene("blocks of memory", IN_MEMORY + "munlock 1\nmnew\n", "MLOCK s0 w1 ! MUNLOCK s0 : 1\nMFREE w1 : 1\nMFREE w2 : 7"),
    Scene("a block that the routine locks", IN_MEMORY, "MFREE w0 : 7", SLOTS["memory"]),
    Scene("the most locks", IN_MEMORY + "times 65534 mlock 1\n", "MLOCK s0 w0 ! MUNLOCK s0 : 7"),
    Scene("no handle of memory", "kernel 65536\ntimes 1024 mnew\n", "MNEW s0 w1 ! MUNLOCK s0 : 5"),
    Scene("no handle of the file", "kernel 65536\ntimes 1024 vnew 5\nvunlock_each 1 1024\n", "VNEW s0 w1 w2 ! VUNLOCK s0 : 5\nGNEW w1 : 5"),
    Scene("no room for a block", f"kernel 65536\n{FILLED}", "MNEW s0 w1 ! MUNLOCK s0 : 4\nVNEW s0 w1 w2 ! VUNLOCK s0 : 4\nGNEW w1 : 4"),
    Scene("the file", FILE, ON_FILE, words=FILE_WORDS),
    Scene("a block of the file that the routine locks", FILE, "VFREE w0 : 7", "VLOCK s0 w0 e\nTRY\nVUNLOCK s0\nRET", words=FILE_WORDS),
    Scene("a group that the routine locks", FILE, "GFREE w2 : 7", "ILOCK s0 p0 w2 w3 2 e\nTRY\nIUNLOCK s0\nRET", words=FILE_WORDS),
    Scene("no room for items", FILE + LARGE.replace("H", "1"), IN_ROOM, ON_SLOT, words=FILE_WORDS),
    Scene("no room to bring a block", FILE + "vupdate\n" + FILLED, BROUGHT.replace("?", "4"), words=FILE_WORDS, tail=FREED + "contents"),
    Scene("a device that fails at a read", FILE + "vupdate\n", BROUGHT.replace("?", "11"), words=FILE_WORDS, behind=FILLED + FREED, fails=FIRST),
    Scene("a device that fails in a commit", FILE, COMMITS.replace("?", "11"), fails=EARLY),
    Scene("a device that fails at the end of a commit", FILE, COMMITS.replace("?", "11"), fails=LATE),
    Scene("an unsure file", "fail 5\n" + FILE.replace("vsave", "vupdate"), COMMITS.replace("?", "12")),
    Scene("too much for an area", FOUR_BLOCKS, "VSAVE : 6"),
    Scene("eight blocks for an area", FOUR_BLOCKS + "times 4 vnew 5\nvunlock_each 5 8\n", "VUPDATE : 6\nVSAVE : 6"),
    Scene("a full output", IN_MEMORY, "OUT w2 : 10", "SETK k0 1023\no: OUT w2 e\nLOOP k0 o\nTRY"),
]
IN_MEMORY_REFUSED = Scene("memory that is refused", FILE, COMMITS.replace("?", "13"))


class Try(NamedTuple):
    """An instruction in a scene, what takes it back, and its refusal."""

    scene: Scene
    instruction: str
    undo: str
    refusal: int

    @classmethod
    def each(cls, scene):
        for line in scene.tries.strip().splitlines():
            text, refusal = line.rsplit(" : ", 1)
            instruction, _, undo = text.partition(" ! ")
            yield cls(scene, instruction, undo, int(refusal))

    def pair(self):
        return self.instruction.split()[0], self.refusal

    def text(self, number):
        """The routine of this number."""
        tried = [f"{self.instruction} r", self.undo, f"LDI w7 {DONE}", "r: LDI w0 0"]
        body = self.scene.routine.replace("TRY", "\n".join(line for line in tried if line))
        lines = [*body.split("\n"), "RET"] if not body.endswith(("RET", "JMP e")) else body.split("\n")
        if re.search(r"\be\b", body):
            lines += [f"e: LDI w7 {EARLIER}", "RET"]
        labelled = re.sub(r"\b([eoru])\b", rf"t{number}_\1", "\n".join(lines))
        return f"routine t{number} public budget 6000\n{labelled}\n"

    def lines(self, number, end=(), fault=0):
        """The lines of the trial up to the run, that of the run, and those behind it with this end."""
        before = [f"fail {fault}"] * (fault > 0) + self.scene.setup.split("\n") + ["contents"] + self.scene.behind.split("\n")
        behind = ["contents", *self.scene.tail.split("\n"), *end]
        return list(filter(None, before)), f"call {number} {self.scene.words}", list(filter(None, behind))


def image_of(tries, folder):
    """The digits of the image with a routine for each."""
    text, image = folder / "text.asm", folder / "image"
    text.write_text("\n".join(each.text(number) for number, each in enumerate(tries)))
    subprocess.run([GEOS, "asm", text, image], check=True)
    return ["image", image.read_bytes().hex(), "end"]


def answers(lines, environment=None):
    """What the trial answers to lines, without those of an image's digits; and how it ends."""
    text = "".join(line + "\n" for line in ("on_kernel", *lines))
    done = subprocess.run([TRIALS], input=text, stdout=subprocess.PIPE, stderr=subprocess.PIPE, env=environment, text=True, check=False)
    return [line.partition(" -> ")[2] for line in done.stdout.splitlines()[1:]], done.returncode


def calls_so_far(each):
    """How many calls of the device were made up to the run."""
    before, _, _ = each.lines(0)
    return int(answers([*before, "close", "calls"])[0][-1])


def looked_at(each, image, number, end, fault):
    """What is wrong where a routine is run and this is read at the end, or None."""
    before, run, behind = each.lines(number, end, fault)
    told, status = answers([*image, *before, run, *behind])
    without, _ = answers(before[1:] + behind if fault else before + behind)
    return fault_of(each, told, status, without, len(before) + 2, len(behind), before.index("contents") + 2)


def fault_of(each, told, status, without, place, count, first):
    """What is wrong with the answers: that of the run is at `place`, the first reading at `first`, and so many stand behind the run."""
    if status or len(told) != place + 1 + count:
        return f"it ended with {status} after {len(told)} answers"
    if not told[1].startswith("accepted"):
        return f"the routine is {told[1]}"
    words = re.search("words ([0-9 ]*)", told[place])
    if not words or int(words[1].split()[-1]) != each.refusal:
        return f"it is answered {told[place]}"
    late = each.scene.fails == LATE
    wanted = re.sub("^sure", "unsure", told[first]) if late else told[first]
    if told[place + 1] != wanted:
        return f"the kernel has {told[place + 1]}\nand had {told[first]}"
    if late:
        return None
    return next((f"{had}, and with it {has}" for had, has in zip(without[-count:], told[-count:], strict=True) if had != has), None)


def faults_of(each):
    """The calls of the device that fail, each in a run of its own; 0 for none. The last two of a commit are the write of the selector and a
    sync."""
    if not each.scene.fails:
        return [0]
    first = calls_so_far(each)
    if each.scene.fails == FIRST:
        return [first + 1]
    before, _, _ = each.lines(0)
    last = int(answers([*before, each.instruction.lower(), "close", "calls"])[0][-1])
    return range(first + 1, last - 1) if each.scene.fails == EARLY else range(last - 1, last + 1)


def run_scene(scene, folder):
    """Tries all of a scene, and gives the pairs that went as they should."""
    tries = list(Try.each(scene))
    pairs, runs = set(), 0
    for start in range(0, len(tries), MOST_ROUTINES):
        some = tries[start : start + MOST_ROUTINES]
        image = image_of(some, folder)
        for number, each in enumerate(some):
            for fault in faults_of(each):
                runs += 1
                wrong = list(filter(None, (looked_at(each, image, number, end, fault) for end in ENDS)))
                for what in wrong:
                    print(f"{scene.name}: {each.instruction} {each.refusal}, fault {fault}: {what}")
                if not wrong:
                    pairs.add(each.pair())
    print(f"{scene.name}: {len(tries)} refused in {runs} runs")
    return pairs


def refusing_memory(folder):
    """Commits of which the allocation is refused: the trial's own allocations stand before it and behind it."""
    counts = folder / "counts"
    pairs = set()
    for each in Try.each(IN_MEMORY_REFUSED):
        image = image_of([each], folder)
        before, run, behind = each.lines(0, ENDS[1])
        without, _ = answers(before + behind)

        def asked(lines, refused=0):
            environment = {**os.environ, "LD_PRELOAD": REFUSING, "COUNTS": str(counts), "REFUSED": str(refused)}
            told, status = answers(lines, environment)
            return int(counts.read_text().split()[0]), told, status

        first, last = asked([*image, *before])[0], asked([*image, *before, run])[0]
        for refused in range(first - 4, last + 1):
            _, told, status = asked([*image, *before, run, *behind], refused)
            if fault_of(each, told, status, without, len(before) + 2, len(behind), before.index("contents") + 2) is None:
                pairs.add(each.pair())
    print(f"{IN_MEMORY_REFUSED.name}: {len(pairs)} refused")
    return pairs


PUT = """routine put public budget 20
LDI w1 5
VNEW s0 w0 w1 e
VUNLOCK s0
e: RET

routine revert public budget 20
VREVERT r
LDI w7 0
r: OUT w7 x
x: RET
"""


def too_long_a_revert(folder):
    """A revert that an area is too small for: on a file whose saved directory has more than half of one, which no commit makes."""
    text, image, file, script = (folder / name for name in ("text.asm", "image", "file.vm", "script"))
    text.write_text(PUT)
    script.write_text("call put\n" * 4 + "update\n")
    file.unlink(missing_ok=True)
    for command in (["asm", text, image], ["new", file, "--area", "512"], ["run", image, file, script]):
        subprocess.run([GEOS, *command], check=True)
    # The update wrote the second area: 288 bytes of four blocks, and 8 of none. They change places.
    data = bytearray(file.read_bytes())
    area = 1024 + 512
    data[area : area + 296] = data[area + 288 : area + 296] + data[area : area + 288]
    file.write_bytes(data)
    script.write_text("call revert\n")
    said = subprocess.run([GEOS, "run", image, file, script], stdout=subprocess.PIPE, check=True).stdout
    right = said == b"6\n" and file.read_bytes() == data
    print("a saved directory that is too long: " + ("1 refused" if right else f"VREVERT is answered {said}"))
    return {("VREVERT", 6)} if right else set()


def in_table():
    """The refusals of the table of instructions."""
    for line in Path(INSTRUCTIONS).read_text().splitlines():
        row = re.fullmatch(r"\| \[[0-9a-f]{2}\]\S* \| \[([A-Z]+)\][^|]*\|.*\| ([0-9, ]*) \|", line)
        if row:
            yield from ((row[1], int(number)) for number in row[2].split(", ") if number)


def main():
    """Prints a line for each scene, and what no scene has."""
    pairs = set()
    with tempfile.TemporaryDirectory() as name:
        folder = Path(name)
        for scene in SCENES:
            pairs |= run_scene(scene, folder)
        pairs |= refusing_memory(folder)
        pairs |= too_long_a_revert(folder)
    table = list(dict.fromkeys(in_table()))
    print(f"{len(set(table) & pairs)} of {len(table)} refusals of instructions leave all as it was; not tried:")
    for instruction, refusal in table:
        if (instruction, refusal) not in pairs:
            print(f"{instruction} {refusal}")


main()
