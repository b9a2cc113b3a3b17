"""Makes random texts with a routine of their own and a public one, and calls the public one under random grants, on a VM file with blocks,
groups, items and a map. A second reading of effects, a table of which instruction does what, says which grants are enough. A call that is
accepted changes only what was granted: a second reading of VM files compares the file before and after it, all bytes of the blocks of both
directories, and the map; and nothing is printed. A call that is refused names a public routine, an effect that it has and that is not granted,
and the line of an instruction that has this effect. Blocks of memory do not last longer than a call, so nothing is compared of them here:
random_loads.py does this, with the same texts.

    python3 random_grants.py GEOS [COUNT [SEED]]
"""

import random
import re
import subprocess
import sys
import tempfile
from pathlib import Path
from typing import NamedTuple

import file_reading

SLOTS = range(4)
PLAIN = ("output", "memory", "locks-by-handle", "reads-file", "changes-file", "map", "commits")
WORDS = [*PLAIN, *(f"{what}-s{slot}" for what in ("reads", "changes") for slot in SLOTS)]
# How a refusal names each effect.
NAMES = {
    "outputs": "output",
    "uses memory": "memory",
    "locks by handle": "locks-by-handle",
    "reads the file": "reads-file",
    "changes the file": "changes-file",
    "changes the map": "map",
    "commits": "commits",
} | {f"{what} s{slot}": f"{what}-s{slot}" for what in ("reads", "changes") for slot in SLOTS}
# What each instruction does, whatever is in its slot.
EFFECTS = {
    "OUT": "output",
    "MNEW": "memory",
    "MLOCK": "memory locks-by-handle",
    "MUNLOCK": "memory",
    "MFREE": "memory",
    "VLOCK": "reads-file",
    "VFIND": "reads-file",
    "VUID": "reads-file",
    "VGETMAP": "reads-file",
    "ILOCK": "reads-file",
    "IGETMAP": "reads-file",
    "VNEW": "changes-file",
    "VFREE": "changes-file map",
    "VREVERT": "changes-file map commits",
    "GNEW": "changes-file",
    "GFREE": "changes-file map",
    "INEW": "changes-file",
    "IFREE": "changes-file",
    "IREALLOC": "changes-file",
    "IINS": "changes-file",
    "IDEL": "changes-file",
    "VSETMAP": "map",
    "ISETMAP": "map",
    "VUPDATE": "commits",
    "VSAVE": "commits",
}
# What is done to the block of a slot, or through a pointer into it.
READS = "LSIZE DEREF CACOUNT CAELT LDB LDW LDXB LDXW LDCB LDCW".split()
CHANGES = "VDIRTY IDIRTY STB STW STXB STXW STCB STCW LALLOC LFREE LREALLOC LINS LDEL LCONTRACT CANEW CAADD CAINS CADEL CARESIZE CAZERO".split()
OWNERS = {"memory": "memory memory", "file": "reads-file changes-file", "lent": "reads-s{0} changes-s{0}"}

# The file has the blocks 1, 2, 3 and 5, each with a chunk 16 of eight bytes and an array 18, and the group 4 with two items. Block 1 and
# the item 16 are mapped. Block 5 is not saved.
SETUP = """
routine block public budget 30
        VNEW s0 w1 w0 block_end
        LDI w2 8
        LALLOC s0 w3 w2 block_unlock
        DEREF s0 p0 w3 8 block_unlock
        STW w0 p0 2
        CANEW s0 w3 2 block_unlock
        LDI w2 2
        CAADD s0 w3 w2 block_unlock
        CAADD s0 w3 w2 block_unlock
block_unlock:
        VUNLOCK s0
block_end:
        RET
routine group public budget 30
        GNEW w0 group_end
        LDI w1 8
        INEW w2 w0 w1 group_end
        INEW w3 w0 w1 group_end
        ISETMAP w0 w2 group_end
        LDI w1 1
        VSETMAP w1 group_end
group_end:
        RET
"""
SCRIPT = "call block 11\ncall block 12\ncall block 13\ncall group\nsave\ncall block 14\nupdate\n"
# More to be put into the chunks and the slots: what a fragment may do to a block that a slot has, where w1 to w3 have small numbers.
ON_BLOCK = {
    "reads": (
        "LSIZE s w4 w2 L",
        "DEREF s p w2 2 L\nLDB w4 p 1",
        "DEREF s p w2 4 L\nLDCW w4 p w1 L",
        "CHK w1 6 L\nDEREF s p w2 8 L\nLDXW w4 p w1",
        "CHK w1 0 L\nDEREF s p w2 1 L\nLDXB w4 p w1",
        "DEREF s p w2 1 L\nPLEN w4 p",
        "CACOUNT s w4 w3 L",
        "CAELT s p w3 w1 2 L\nLDW w4 p 0",
    ),
    "changes": (
        "LALLOC s w4 w1 L",
        "LFREE s w2 L",
        "LREALLOC s w2 w1 L",
        "LINS s w2 w1 w1 L",
        "LDEL s w2 w1 w1 L",
        "LCONTRACT s",
        "CANEW s w4 2 L",
        "CAADD s w3 w1 L",
        "CAINS s w3 w1 w1 L",
        "CADEL s w3 w1 L",
        "CARESIZE s w3 w1 w2 L",
        "CAZERO s w3 L",
        "DEREF s p w2 4 L\nSTW w5 p 2",
        "DEREF s p w2 4 L\nMOVP p p\nSTB w5 p 3",
        "CHK w1 6 L\nDEREF s p w2 8 L\nSTXW w5 p w1",
        "CHK w1 5 L\nDEREF s p w2 6 L\nSTXB w5 p w1",
        "DEREF s p w2 1 L\nSTCB w5 p w1 L",
    ),
}
# What a fragment may do without a slot.
WITHOUT_SLOT = (
    "OUT w1 L",
    "OUT w7 L",
    "MFREE w1 L",
    "VFREE w1 L",
    "VFIND w4 w1 w5 L",
    "VUID w4 w1 L",
    "VGETMAP w4",
    "VSETMAP w1 L",
    "GNEW w4 L",
    "GFREE w6 L",
    "INEW w4 w6 w1 L",
    "IFREE w6 w2 L",
    "IREALLOC w6 w2 w1 L",
    "IINS w6 w2 w1 w1 L",
    "IDEL w6 w2 w1 w1 L",
    "IGETMAP w4 w5",
    "ISETMAP w6 w2 L",
    "ADD w5 w5 w1",
)
COMMITS = ("VUPDATE L", "VSAVE L", "VREVERT L")
# How a slot of its own gets a block, and lets it go.
OWN = (
    ("memory", "MNEW s w4 E", "", "MUNLOCK s"),
    ("memory", "MLOCK s w1 E", "", "MUNLOCK s"),
    ("file", "VNEW s w4 w5 E", "", "VUNLOCK s"),
    ("file", "VLOCK s w1 E", "VDIRTY s", "VUNLOCK s"),
    ("file", "ILOCK s p w6 w2 1 E", "IDIRTY s", "IUNLOCK s"),
)


class Line(NamedTuple):
    """A line of a text, with what it does."""

    text: str
    effects: frozenset = frozenset()


def line_of(text, slot=None, owner=None):
    """A line on a slot that holds a block of this owner."""
    word = text.split()[0]
    found = set(EFFECTS.get(word, "").split())
    if owner:
        reads, changes = OWNERS[owner].format(slot).split()
        # Reads of memory are no effect.
        if word in READS and owner != "memory":
            found.add(reads)
        if word in CHANGES:
            found.add(changes)
    return Line("        " + text, frozenset(found))


def spelled(text, meant):
    """A text some of whose words mean others."""
    return " ".join(meant.get(word, word) for word in text.split())


class Routine:
    """A random routine that the verifier accepts: fragments, each of which lets go what it takes."""

    def __init__(self, choices, name, lent=(), callee=None):
        self.choices, self.name, self.lent, self.labels, self.lines = choices, name, lent, 0, []
        if lent:
            slots = " ".join(f"s{slot}=vm@" for slot in lent)
            self.lines += [Line(f"        in {slots}"), Line(f"        out {slots}")]
        self.numbers()
        for _ in range(choices.randint(1, 4)):
            self.fragment(callee)
        self.lines.append(line_of("RET"))

    def label(self):
        self.labels += 1
        return f"{self.name}_{self.labels}"

    def here(self, label):
        self.lines.append(Line(f"{label}:"))

    def numbers(self):
        """A handle and a size, a chunk, an array, a user ID and a group."""
        choose = self.choices.choice
        for text in (f"LDI w1 {choose((0, 1, 1, 2, 3, 4, 5, 6))}", f"LDI w2 {choose((16, 16, 16, 18, 20))}", f"LDI w3 {choose((18, 18, 16))}"):
            self.lines.append(line_of(text))
        self.lines += [line_of(f"LDI w5 {choose((11, 12, 14, 65280))}"), line_of(f"LDI w6 {choose((4, 4, 4, 1, 9))}")]

    def on_block(self, slot, owner, end):
        """What is done to the block of a slot."""
        for _ in range(self.choices.randint(0, 3)):
            kind = self.choices.choice(("reads", "changes"))
            for text in self.choices.choice(ON_BLOCK[kind]).splitlines():
                self.lines.append(line_of(spelled(text, {"s": f"s{slot}", "p": f"p{slot}", "L": end}), slot, owner))

    def on_lent(self):
        slot, end = self.choices.choice(self.lent), self.label()
        if self.choices.randrange(2):
            self.lines.append(line_of(f"VDIRTY s{slot}", slot, "lent"))
            self.on_block(slot, "lent", end)
        else:
            for text in self.choices.choice(ON_BLOCK["reads"]).splitlines():
                self.lines.append(line_of(spelled(text, {"s": f"s{slot}", "p": f"p{slot}", "L": end}), slot, "lent"))
        self.here(end)

    def copy(self):
        """What one lent block has is copied to another."""
        into, out_of, end = *self.choices.sample(self.lent, 2), self.label()
        self.lines.append(line_of(f"VDIRTY s{into}", into, "lent"))
        for slot in (into, out_of):
            self.lines.append(line_of(f"DEREF s{slot} p{slot} w2 4 {end}", slot, "lent"))
        self.lines.append(Line(f"        COPY p{into} p{out_of} 4", frozenset((f"changes-s{into}", f"reads-s{out_of}"))))
        self.here(end)

    def on_own(self):
        free = [slot for slot in SLOTS if slot not in self.lent]
        owner, take, mark, give = self.choices.choice(OWN)
        slot, unlock, end = self.choices.choice(free), self.label(), self.label()
        for text in filter(None, (take, mark)):
            self.lines.append(line_of(spelled(text, {"s": f"s{slot}", "p": f"p{slot}", "E": end}), slot, owner))
        self.on_block(slot, owner, unlock)
        self.here(unlock)
        self.lines.append(line_of(spelled(give, {"s": f"s{slot}"})))
        self.here(end)

    def fragment(self, callee):
        kind = self.choices.randrange(8)
        if kind == 0 and callee:
            self.lines.append(Line(f"        CALL {callee.name}", callee.effects()))
        elif kind in (1, 2) and self.lent:
            self.on_lent()
        elif kind in (3, 4) and len(self.lent) < len(SLOTS):
            self.on_own()
        elif kind == 5 and not self.lent:
            self.simple(self.choices.choice(COMMITS))
        elif kind == 5 and len(self.lent) > 1:
            self.copy()
        else:
            self.simple(self.choices.choice(WITHOUT_SLOT))

    def simple(self, text):
        end = self.label()
        self.lines.append(line_of(spelled(text, {"L": end})))
        self.here(end)

    def effects(self):
        return frozenset().union(*(line.effects for line in self.lines))


class Text(NamedTuple):
    """A text of two routines, and the handles that are lent to the public one."""

    lines: list
    public: Routine
    handles: list

    def spelled(self):
        return "".join(line.text + "\n" for line in self.lines)


def random_text(choices):
    lent = sorted(choices.sample(SLOTS, choices.choice((0, 0, 1, 1, 2))))
    own = Routine(choices, "own", lent)
    public = Routine(choices, "public_one", lent, own)
    lines = [Line("routine own budget ?"), *own.lines, Line("routine public_one public budget ?"), *public.lines]
    return Text(lines, public, [choices.randint(1, 3) for _ in lent])


def random_grants(choices, effects):
    """Often all that is needed, often all but one effect, or anything."""
    kind = choices.randrange(4)
    granted = set(choices.sample(WORDS, choices.randint(0, len(WORDS))))
    if kind < 3:
        granted |= effects
    if kind == 2 and effects:
        granted.discard(choices.choice(sorted(effects)))
    return granted


class Directory(NamedTuple):
    """The map block and the map item, and by handle the user ID and the bytes of each block."""

    mapped: tuple
    blocks: dict


def directories(file):
    """The current directory of a file and the saved one."""
    read = file_reading.read(Path(file).read_bytes())
    return [Directory((it.map_block, it.group, it.item), {handle: (user, block) for handle, user, block in it.entries}) for it in read]


def kept_wrong(text, granted, before, after, printed):
    """What changed that was not granted."""
    (current, saved), (new, new_saved) = before, after
    if "output" not in granted and printed:
        yield "it printed"
    if "commits" not in granted and saved != new_saved:
        yield "the saved directory changed"
    if "map" not in granted and current.mapped != new.mapped:
        yield "the map changed"
    if "changes-file" in granted:
        return
    slots = {}
    for slot, handle in zip(text.public.lent, text.handles):
        slots.setdefault(handle, []).append(slot)
    for handle in current.blocks.keys() | new.blocks.keys():
        may = any(f"changes-s{slot}" in granted for slot in slots.get(handle, []))
        if not may and current.blocks.get(handle) != new.blocks.get(handle):
            yield f"block {handle} changed"


def witness_wrong(text, effects, granted, said):
    """What is wrong with the line of a refusal."""
    found = re.fullmatch(r"refused: public_one (.*) \((\w+) at line (\d+)\)\n", said)
    if not found or found[1] not in NAMES:
        return f"it is refused by {said!r}"
    effect, word, number = NAMES[found[1]], found[2], int(found[3])
    line = text.lines[number - 1]
    if effect in granted or effect not in effects:
        return f"{effect} is granted, or no effect"
    if line.text.split()[0] != word or effect not in line.effects or word == "CALL":
        return f"line {number} does not have {effect}"
    return None


def try_text(geos, folder, choices, counts):
    """Calls a random routine under random grants, and says what is wrong."""
    text = random_text(choices)
    effects = text.public.effects()
    granted = random_grants(choices, effects)
    file, source = folder / "file.vm", folder / "text.asm"
    file.write_bytes((folder / "first.vm").read_bytes())
    source.write_text(text.spelled())
    before = directories(file)
    words = [geos, "call", source, "public_one", *(f"@{handle}" for handle in text.handles), "--file", file, "--grant", ",".join(sorted(granted)) or "none"]
    # The file is as before without `commits`; what is in memory at the end is seen where the call commits it.
    commits = choices.choice(([], ["--update"])) if "commits" in granted else ["--update"]
    done = subprocess.run(words, capture_output=True, text=True)
    if "commits" not in granted and file.read_bytes() != (folder / "first.vm").read_bytes():
        yield "the file changed"
    if done.stderr.startswith("refused: "):
        counts["refused"] += 1
        if wrong := witness_wrong(text, effects, granted, done.stderr):
            yield wrong
        if effects <= granted:
            yield "it is refused, though all that it does is granted"
        return
    if done.returncode:
        yield f"status {done.returncode}: {done.stderr}"
        return
    counts["accepted"] += 1
    if not effects <= granted:
        yield f"it is accepted without {sorted(effects - granted)}"
    file.write_bytes((folder / "first.vm").read_bytes())
    done = subprocess.run([*words, *commits], capture_output=True, text=True)
    if done.returncode and not done.stderr.startswith("refused "):
        yield f"status {done.returncode}: {done.stderr}"
    yield from kept_wrong(text, granted, before, directories(file), done.stdout)


def main():
    geos, count, seed = sys.argv[1:] + ["200", "1"][len(sys.argv) - 2 :]
    count, choices = int(count), random.Random(int(seed))
    counts = {"accepted": 0, "refused": 0}
    with tempfile.TemporaryDirectory() as name:
        folder = Path(name)
        (folder / "setup.asm").write_text(SETUP)
        subprocess.run([geos, "new", folder / "first.vm", "--area", "4096"], check=True)
        subprocess.run([geos, "call", folder / "setup.asm", "--file", folder / "first.vm"], input=SCRIPT, text=True, check=True)
        for number in range(count):
            for wrong in try_text(geos, folder, choices, counts):
                print(f"text {number}: {wrong}")
                print((folder / "text.asm").read_text())
    enough = min(counts.values()) * 5 >= count
    print(f"{count} texts" if enough else f"{counts} of {count} texts")
    print(counts, file=sys.stderr)


if __name__ == "__main__":
    main()
