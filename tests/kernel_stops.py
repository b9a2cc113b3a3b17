"""Stops the kernel's commits at each call of the device, and lets the device lose or garble what was not synced. Compares what the
program of `trials` answers, and the pair of directories that it finds afterwards, with what docs/FILES.md says: where the device
fails before the selector is written, the pair from before is found, and the commit can be made again; at the write of the selector and the
sync after it, the pair from before or the new one, and no commit is made any more; once a commit is done, the new one. All other calls
write nothing.

    python3 kernel_stops.py PROGRAM
"""

import copy
import subprocess
import sys

from damaged_files import runs

AREA = 1024
GROUP = 65280
# What a stop leaves of a part of 512 bytes that was written since the last sync: the header, the selector, two of the first area, two of the
# second.
OLD, NEW, GARBAGE = range(3)
STOPS = (
    [OLD] * 6,
    [NEW] * 6,
    [GARBAGE] * 6,
    [OLD, NEW, OLD, OLD, GARBAGE, GARBAGE],
    [OLD, GARBAGE, NEW, NEW, NEW, NEW],
    [OLD, NEW, NEW, OLD, NEW, OLD],
    [OLD, NEW, OLD, NEW, OLD, NEW],
    [OLD, OLD, NEW, OLD, GARBAGE, NEW],
)
COMMITS = ("vupdate", "vsave", "vrevert")
# A commit ends with four calls of the device: the write of an area, a sync, the write of the selector, a sync. In the last two it is not
# sure what is kept.
UNSURE_CALLS = 2
FAILED, UNSURE = "the device failed", "it is not sure what the device holds"
NONE, RESERVED, NOT_LOCKED = "no block of this kind has this handle", "the user ID is reserved for groups", "not asked: not locked"
# So many handles are in use.
HANDLES = range(1, 5)


class Directory:
    """Blocks by handle, each with a user ID and chunks by handle; the map block and the map item."""

    def __init__(self):
        self.blocks, self.map_block, self.map_item = {}, 0, (0, 0)

    def shown(self):
        """As the program prints what is kept; each block has 64 bytes."""
        blocks = "".join(
            f"; {h} uid {user} size 64 chunks" + "".join(f" {c}:{len(data)}" for c, data in sorted(chunks.items()))
            for h, (user, chunks) in sorted(self.blocks.items())
        )
        return f"map {self.map_block} item {self.map_item[0]} {self.map_item[1]}{blocks}"

    def reads(self):
        """Lines that read all of it, which are the same of each directory, with their answers."""
        yield "vgetmap", str(self.map_block)
        yield "igetmap", f"{self.map_item[0]} {self.map_item[1]}"
        for h in HANDLES:
            user, chunks = self.blocks.get(h, (None, {16: b""}))
            yield f"vuid {h}", NONE if user is None else str(user)
            yield f"vlock {h}", {None: NONE, GROUP: RESERVED}.get(user, "ok")
            yield f"ilock {h} 16 0", str(len(chunks[16])) if user == GROUP else NONE
            yield f"vm_bytes {h} 16", NOT_LOCKED if user is None else runs(chunks[16])
            yield f"vunlock {h}", NOT_LOCKED if user is None else "ok"


class Script:
    """Calls on a new file: lines with their answers where no call of the device fails, and what is kept after each."""

    def __init__(self):
        self.lines, self.kept = [], []
        self.current, self.saved = Directory(), Directory()
        self.pair = (Directory(), Directory())
        self.ask(f"kernel 65536 {AREA}")

    def ask(self, line, answer="ok"):
        self.lines.append((line, answer))
        self.kept.append(self.pair)

    def put(self, byte):
        """Makes the lowest block that is free the map block, with a chunk of two bytes."""
        h = min(set(HANDLES) - set(self.current.blocks))
        self.ask("vnew 5", str(h))
        self.ask(f"vm_lalloc {h} 2", "16")
        self.ask(f"vm_store16 {h} 16 0 {byte}")
        self.ask(f"vsetmap {h}")
        self.ask(f"vunlock {h}")
        self.current.blocks[h] = 5, {16: bytes([byte, 0])}
        self.current.map_block = h

    def change(self, h, byte):
        """Changes a byte of a block, and nothing else."""
        self.ask(f"vlock {h}")
        self.ask(f"vdirty {h}")
        self.ask(f"vm_store8 {h} 16 1 {byte}")
        self.ask(f"vunlock {h}")
        self.current.blocks[h] = 5, {16: self.current.blocks[h][1][16][:1] + bytes([byte])}

    def put_item(self, n):
        """Makes a group with the map item, of so many zero bytes."""
        h = min(set(HANDLES) - set(self.current.blocks))
        self.ask("gnew", str(h))
        self.ask(f"inew {h} {n}", "16")
        self.ask(f"isetmap {h} 16")
        self.current.blocks[h] = GROUP, {16: bytes(n)}
        self.current.map_item = h, 16

    def free(self, h):
        """Frees a block that is not mapped."""
        self.ask(f"vfree {h}")
        del self.current.blocks[h]

    def discard(self):
        """Lets all blocks that no commit has to write go out of memory."""
        for line, answer in (("mnew", "1"), ("lalloc 1 65498", "16"), ("munlock 1", "ok"), ("mfree 1", "ok")):
            self.ask(line, answer)

    def commit(self, how):
        """Adds a commit."""
        if how == "vsave":
            self.saved = copy.deepcopy(self.current)
        elif how == "vrevert":
            self.current = copy.deepcopy(self.saved)
        self.pair = copy.deepcopy((self.current, self.saved))
        self.ask(how)


def saved_and_updated():
    """A script with a block that is saved, and another one that an update keeps beside it."""
    script = Script()
    script.put(1)
    script.commit("vsave")
    script.put(2)
    script.commit("vupdate")
    return script


def scripts():
    """Scripts that end with each commit: the first one of a file, one with a changed byte and an item, one with blocks that are not in
    memory, and one with so many blocks that the pair takes two parts of an area, over the pair of an earlier commit."""
    yield saved_and_updated()
    for how in COMMITS:
        script = Script()
        script.put(1)
        script.commit(how)
        yield script
        script = saved_and_updated()
        script.change(1, 7)
        script.put_item(3)
        script.commit(how)
        yield script
        script = Script()
        script.put(1)
        script.put(2)
        script.put_item(4)
        script.commit("vsave")
        script.discard()
        script.free(1)
        script.put(3)
        script.commit(how)
        yield script
        script = Script()
        for byte in HANDLES:
            script.put(byte)
        script.commit("vsave")
        script.change(1, 7)
        script.commit("vupdate")
        script.change(4, 8)
        script.commit(how)
        yield script


class Runs:
    """Runs of the program, each with the lists of answers of which one is wanted."""

    def __init__(self, program):
        self.program, self.runs = program, []

    def answers(self, lines):
        """What the program prints."""
        asked = "".join(f"{line}\n" for line in ("on_kernel", *lines))
        return subprocess.run([self.program], input=asked, stdout=subprocess.PIPE, text=True, check=True).stdout.splitlines()[1:]

    def calls(self, lines):
        """How many calls of the device the program makes for these lines."""
        return int(self.answers([*(line for line, _ in lines), "close", "calls"])[-1].split()[-1])

    def add(self, lines, pairs):
        """Adds a run of lines, after which one of these pairs is to be found: what is kept, and all that can be read of it."""
        for stop in STOPS:
            before = [*lines, ("power_off " + " ".join(map(str, stop)), "ok")]
            self.runs.append([[*before, *found(current, saved)] for current, saved in pairs])

    def compare(self):
        """Prints the answers of each run that none of its lists has."""
        answered = iter(self.answers([line for lists in self.runs for line, _ in lists[0]]))
        for lists in self.runs:
            got = [next(answered) for _ in lists[0]]
            wanted = [[f"{line} -> {answer}" for line, answer in lines] for lines in lists]
            if got not in wanted:
                print("\n".join(["one of the answers", *map("; ".join, wanted), "was wanted, and these came", "; ".join(got)]))


def found(current, saved):
    """Lines that read a pair, with their answers."""
    yield "kept", f"current {current.shown()}; saved {saved.shown()}"
    yield "open", "ok"
    yield from current.reads()
    yield "vrevert", "ok"
    yield from saved.reads()


def stop_at(runs, word, call, script, calls):
    """Adds the runs of a script that ends with a commit, of which a call of the device fails."""
    *lines, (commit, _) = [(f"{word} {call}", "ok"), *script.lines]
    before, after = script.kept[-2:]
    if call > calls:
        return runs.add([*lines, (commit, "ok")], [after])
    if call > calls - UNSURE_CALLS:
        return runs.add([*lines, (commit, FAILED), ("is_sure", "false"), *((how, UNSURE) for how in COMMITS)], [before, after])
    runs.add([*lines, (commit, FAILED), ("is_sure", "true")], [before])
    if word == "stop":
        return runs.add([*lines, *((how, FAILED) for how in (commit, commit)), ("is_sure", "true")], [before])
    return runs.add([*lines, (commit, FAILED), (commit, "ok")], [after])


def stop_from(runs, call, script, saved, updated):
    """Adds the runs of a save and an update, made by this script with so many calls, of which a call and each later one fails."""
    new, with_one, with_two = script.kept[0], script.kept[script.lines.index(("vsave", "ok"))], script.kept[-1]
    save, update, pairs = next(
        row
        for last, *row in (
            (saved - UNSURE_CALLS, FAILED, FAILED, [new]),
            (saved, FAILED, UNSURE, [new, with_one]),
            (updated - UNSURE_CALLS, "ok", FAILED, [with_one]),
            (updated, "ok", FAILED, [with_one, with_two]),
            (call, "ok", "ok", [with_two]),
        )
        if call <= last
    )
    answers = {"vsave": save, "vupdate": update}
    runs.add([(f"stop {call}", "ok"), *((line, answers.get(line, answer)) for line, answer in script.lines)], pairs)


def main():
    runs = Runs(sys.argv[1])
    commits = stops = 0
    for script in scripts():
        commits += 1
        first, calls = runs.calls(script.lines[:-1]) + 1, runs.calls(script.lines)
        for call in range(first, calls + 2):
            for word in ("fail", "stop"):
                stop_at(runs, word, call, script, calls)
                stops += 1
        for count, pair in enumerate(script.kept):
            runs.add(script.lines[: count + 1], [pair])
    script = saved_and_updated()
    saved, updated = runs.calls(script.lines[: script.lines.index(("vsave", "ok")) + 1]), runs.calls(script.lines)
    for call in range(saved - 3, updated + 2):
        stop_from(runs, call, script, saved, updated)
        stops += 1
    runs.compare()
    print(f"{commits} commits, {stops} failing calls, {len(runs.runs)} stops")


if __name__ == "__main__":
    main()
