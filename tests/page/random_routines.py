"""Writes random texts with a public routine `main` and a private one, most of which the verifier accepts. They use every instruction: a
block that is locked stays so for some statements, and what is refused goes on behind them."""

import random
from collections.abc import Callable

SIZES = [0, 1, 2, 3, 4, 5, 8, 10, 12, 16, 30, 64, 100, 250, 1000, 4000]
LARGE = [20_000, 40_000, 65_000, 65_535]
# Of chunks in blocks that fill the region.
FILLING = [500, 3_000, 9_000, 15_000, 25_000]
# Words by what they mostly hold: handles of a block, of a block of the file, of a group, of chunks, a size and an index. w7 has refusals.
BLOCK, VM_BLOCK, GROUP, CHUNK, OTHER, SIZE, INDEX = (f"w{n}" for n in range(7))
UNLOCKS = {"mem": "MUNLOCK", "vm": "VUNLOCK", "db": "IUNLOCK"}
MARKS = {"vm": "VDIRTY", "db": "IDIRTY"}
MOST_STATEMENTS = 60


class Writer:
    """A text, and what the verifier knows at its end: the kinds of the slots, the marked ones, and the pointers with their lengths."""

    def __init__(self, seed: int) -> None:
        self.random = random.Random(seed)
        self.lines: list[str] = []
        self.labels = 0
        self.statements = 0
        self.held: dict[str, str] = {}
        self.marked: set[str] = set()
        self.pointers: dict[str, tuple[str, int]] = {}
        self.counters = ["k0", "k1", "k2", "k3"]
        self.is_private = False

    def text(self) -> str:
        self.is_private = True
        self.routine("helper", 3)
        self.is_private = False
        self.routine("main public", self.random.choice([6, 10, 14]))
        return "\n".join(self.lines) + "\n"

    def routine(self, name: str, count: int) -> None:
        self.statements = 0
        self.lines.append(f"routine {name} budget ?")
        for _ in range(count):
            self.statement(0)
        self.emit("RET")

    def emit(self, *words: object) -> None:
        self.lines.append("        " + " ".join(map(str, words)))

    def label(self) -> str:
        self.labels += 1
        return f"x{self.labels}"

    def put(self, label: str) -> None:
        self.lines.append(f"{label}:")

    def refusable(self, *words: object) -> None:
        """An instruction that goes on behind it, also if it is refused."""
        label = self.label()
        self.emit(*words, label)
        self.put(label)

    def set_size(self) -> str:
        many = LARGE if self.random.randrange(10) == 0 else SIZES
        self.emit("LDI", SIZE, self.random.choice(many))
        return SIZE

    def set_index(self) -> str:
        self.emit("LDI", INDEX, self.random.choice([0, 0, 1, 1, 2, 3, 5, 8, 30]))
        return INDEX

    def chunk(self) -> str:
        word = self.random.choice([CHUNK, CHUNK, OTHER])
        if self.random.randrange(2):
            self.emit("LDI", word, self.random.choice([16, 16, 16, 16, 18, 18, 18, 20, 22, 17, 0]))
        return word

    def set_handle(self, word: str) -> str:
        if self.random.randrange(3) == 0:
            self.emit("LDI", word, self.random.choice([1, 1, 2, 2, 3, 4, 0, 1024]))
        return word

    def statement(self, depth: int) -> None:
        self.statements += 1
        if self.statements > MOST_STATEMENTS:
            return
        choices: list[Callable[[int], None]] = [self.words, self.output, self.file]
        if depth < 4:
            choices += [self.lock, self.lock, self.lock, self.branch, self.loop]
        if depth < 2:
            choices.append(self.fill)
        if self.held:
            choices += [self.move] * 6 + [self.array] * 4 + [self.ask, self.mark]
            if depth < 6:
                choices += [self.point] * 6
        if self.pointers:
            choices += [self.access] * 12
        if len(self.held) > 1:
            choices.append(self.compare)
        if not self.held and not self.is_private and len(self.counters) == 4:
            choices.append(self.call)
        self.random.choice(choices)(depth)

    def body(self, depth: int) -> None:
        for _ in range(self.random.randint(1, 4)):
            self.statement(depth + 1)

    def rejoin(self, pointers: dict[str, tuple[str, int]], marked: set[str]) -> None:
        """Two paths meet: what one of them does not know is lost."""
        self.pointers = {name: to for name, to in self.pointers.items() if pointers.get(name) == to}
        self.marked &= marked

    def words(self, _depth: int) -> None:
        a, b, c = (f"w{self.random.choice([3, 4, 5, 6, 6, 6, 7])}" for _ in range(3))
        n = self.random.choice([0, 1, 2, 3, 15, 255, 65_535])
        self.emit(*self.random.choice([("LDI", a, n), ("MOV", a, b), ("ADD", a, b, c), ("SUB", a, b, c), ("AND", a, b, n), ("SHR", a, b, n % 16), ("MULI", a, b, n)]))

    def output(self, _depth: int) -> None:
        self.refusable("OUT", f"w{self.random.randrange(8)}")

    def branch(self, depth: int) -> None:
        label = self.label()
        a, b = (f"w{self.random.randrange(8)}" for _ in range(2))
        self.emit(*self.random.choice([("BEQ", a, b), ("BLT", a, b), ("CHK", a, self.random.choice([0, 1, 16, 300]))]), label)
        before = dict(self.pointers), set(self.marked)
        self.body(depth)
        if self.random.randrange(2):
            self.put(label)
            self.rejoin(*before)
            return
        end = self.label()
        self.emit("JMP", end)
        self.put(label)
        after = self.pointers, self.marked
        self.pointers, self.marked = dict(before[0]), set(before[1])
        self.body(depth)
        self.put(end)
        self.rejoin(*after)

    def loop(self, depth: int) -> None:
        if not self.counters:
            return
        counter = self.counters.pop(0)
        if self.random.randrange(2):
            self.emit("SETK", counter, self.random.randint(0, 3))
        else:
            self.emit("AND", INDEX, INDEX, 3)
            self.emit("SETKW", counter, INDEX)
        head = self.label()
        self.put(head)
        self.pointers = {}
        self.body(depth + 2)
        self.emit("LOOP", counter, head)
        self.counters.insert(0, counter)

    def lock(self, depth: int) -> None:
        free = [slot for slot in ("s0", "s1", "s2", "s3") if slot not in self.held]
        if not free:
            return
        slot, kind, label = self.random.choice(free), self.random.choice(["mem", "mem", "vm", "db"]), self.label()
        before = dict(self.pointers), set(self.marked)
        self.lock_into(slot, kind, label)
        self.held[slot] = kind
        self.body(depth)
        self.emit(UNLOCKS[kind], slot)
        del self.held[slot]
        self.marked.discard(slot)
        self.put(label)
        self.rejoin(*before)
        self.pointers = {name: to for name, to in self.pointers.items() if to[0] != slot}

    def lock_into(self, slot: str, kind: str, label: str) -> None:
        if kind == "db":
            self.lock_group(slot, label)
        elif self.random.randrange(3):
            self.emit(*(("MNEW", slot, BLOCK) if kind == "mem" else ("VNEW", slot, VM_BLOCK, SIZE)), label)
            self.marked |= {slot} if kind == "vm" else set()
        else:
            self.emit(*(("MLOCK", slot, self.set_handle(BLOCK)) if kind == "mem" else ("VLOCK", slot, self.set_handle(VM_BLOCK))), label)

    def lock_group(self, slot: str, label: str) -> None:
        if self.random.randrange(3):
            self.refusable("GNEW", GROUP)
        self.set_handle(GROUP)
        if self.random.randrange(3):
            self.refusable("INEW", OTHER, GROUP, self.set_size())
            self.forget("db")
        pointer, length = f"p{self.random.randrange(4)}", self.random.choice([0, 1, 2, 4])
        self.emit("ILOCK", slot, pointer, GROUP, self.chunk() if self.random.randrange(3) == 0 else OTHER, length, label)
        self.pointers[pointer] = slot, length

    def fill(self, _depth: int) -> None:
        """Blocks that fill the region, of which some are freed, and those of the file committed."""
        free = [slot for slot in ("s0", "s1", "s2", "s3") if slot not in self.held]
        if not free:
            return
        slot = free[0]
        for _ in range(self.random.randint(2, 6)):
            kind, label = self.random.choice(["mem", "vm"]), self.label()
            self.emit(*(("MNEW", slot, BLOCK) if kind == "mem" else ("VNEW", slot, VM_BLOCK, SIZE)), label)
            self.emit("LDI", SIZE, self.random.choice(FILLING))
            self.refusable("LALLOC", slot, CHUNK, SIZE)
            self.emit(UNLOCKS[kind], slot)
            self.put(label)
            if kind == "vm" and all(other == "mem" for other in self.held.values()) and self.random.randrange(2):
                self.refusable(self.random.choice(["VUPDATE", "VUPDATE", "VSAVE", "VREVERT"]))
            if self.random.randrange(3) == 0:
                self.emit("LDI", BLOCK, self.random.randint(1, 4))
                self.refusable("MFREE", BLOCK)
        # An instruction on chunks makes pointers into its kind of blocks stale.
        self.forget("mem")
        self.forget("vm")

    def forget(self, kind: str) -> None:
        """Chunks move in some block of the kind."""
        self.pointers = {name: to for name, to in self.pointers.items() if self.held.get(to[0]) != kind}

    def changeable(self) -> str:
        """A slot whose block may be changed."""
        slot = self.random.choice(list(self.held))
        if self.held[slot] != "mem" and slot not in self.marked:
            self.emit(MARKS[self.held[slot]], slot)
            self.marked.add(slot)
        return slot

    def mark(self, _depth: int) -> None:
        self.changeable()

    def move(self, _depth: int) -> None:
        slot = self.changeable()
        op = self.random.choice(["LALLOC"] * 4 + ["LFREE", "LREALLOC", "LREALLOC", "LINS", "LINS", "LDEL", "LCONTRACT"])
        if op == "LCONTRACT":
            self.emit(op, slot)
        elif op == "LALLOC":
            self.refusable(op, slot, self.random.choice([CHUNK, OTHER]), self.set_size())
        elif op == "LFREE":
            self.refusable(op, slot, self.chunk())
        elif op == "LREALLOC":
            self.refusable(op, slot, self.chunk(), self.set_size())
        else:
            self.refusable(op, slot, self.chunk(), self.set_index(), self.set_size())
        self.forget(self.held[slot])

    def array(self, _depth: int) -> None:
        slot = self.changeable()
        op = self.random.choice(["CANEW", "CANEW", "CAADD", "CAADD", "CAADD", "CAINS", "CAINS", "CADEL", "CAZERO", "CARESIZE", "CARESIZE"])
        if op == "CANEW":
            self.refusable(op, slot, self.random.choice([CHUNK, OTHER]), self.random.choice([0, 0, 1, 2, 4, 10]))
        elif op == "CAADD":
            self.refusable(op, slot, self.chunk(), self.set_size())
        elif op == "CADEL":
            self.refusable(op, slot, self.chunk(), self.set_index())
        elif op == "CAZERO":
            self.refusable(op, slot, self.chunk())
        else:
            self.refusable(op, slot, self.chunk(), self.set_index(), self.set_size())
        self.forget(self.held[slot])

    def ask(self, _depth: int) -> None:
        slot = self.random.choice(list(self.held))
        self.refusable(self.random.choice(["LSIZE", "CACOUNT"]), slot, INDEX, self.chunk())

    def point(self, depth: int) -> None:
        slot, pointer, label = self.random.choice(list(self.held)), f"p{self.random.randrange(4)}", self.label()
        length = self.random.choice([0, 1, 1, 2, 2, 4, 8])
        before = dict(self.pointers), set(self.marked)
        if self.random.randrange(3):
            self.emit("DEREF", slot, pointer, self.chunk(), length, label)
        else:
            self.emit("CAELT", slot, pointer, self.chunk(), self.set_index(), length, label)
        self.pointers[pointer] = slot, length
        for _ in range(self.random.randint(1, 3)):
            (self.access if self.pointers and self.random.randrange(3) else self.statement)(depth + 1)
        self.put(label)
        self.rejoin(*before)

    def access(self, _depth: int) -> None:
        if not self.pointers:
            return
        pointer = self.random.choice(list(self.pointers))
        slot, length = self.pointers[pointer]
        op = self.random.choice(["LDB", "LDW", "STB", "STW", "LDXB", "LDXW", "STXB", "STXW", "LDCB", "LDCW", "STCB", "STCW", "MOVP", "COPY", "PLEN"])
        if op.startswith("ST"):
            self.mark_slot(slot)
        if op == "MOVP":
            other = f"p{self.random.randrange(4)}"
            self.emit(op, other, pointer)
            self.pointers[other] = slot, length
        elif op == "COPY":
            other = self.random.choice(list(self.pointers))
            self.mark_slot(self.pointers[other][0])
            self.emit(op, other, pointer, self.random.randint(0, min(length, self.pointers[other][1])))
        elif op == "PLEN":
            self.emit(op, INDEX, pointer)
        elif op[2] == "C":
            self.refusable(op, f"w{self.random.choice([3, 5, 6])}", pointer, self.set_index())
        else:
            self.access_at(op, pointer, length - (2 if op[-1] == "W" else 1))

    def access_at(self, op: str, pointer: str, most: int) -> None:
        """A read or a write of an offset that is not tested."""
        if most < 0:
            return
        word = f"w{self.random.choice([5, 6])}"
        if op[2] == "X":
            self.emit("AND", INDEX, INDEX, most)
            self.emit(op, word, pointer, INDEX)
        else:
            self.emit(op, word, pointer, self.random.randint(0, most))

    def mark_slot(self, slot: str) -> None:
        if self.held[slot] != "mem" and slot not in self.marked:
            self.emit(MARKS[self.held[slot]], slot)
            self.marked.add(slot)

    def compare(self, depth: int) -> None:
        slots = [slot for slot in self.held if list(self.held.values()).count(self.held[slot]) > 1]
        if not slots:
            return
        slot = self.random.choice(slots)
        other = self.random.choice([t for t in slots if self.held[t] == self.held[slot]])
        self.refusable("SNE", slot, other)

    def call(self, _depth: int) -> None:
        self.emit("CALL", "helper")
        self.pointers = {}

    def file(self, _depth: int) -> None:
        commits = ["VUPDATE", "VSAVE", "VREVERT"] if all(kind == "mem" for kind in self.held.values()) else []
        op = self.random.choice([*commits, *commits, "VFREE", "VFIND", "VUID", "VGETMAP", "VSETMAP", "MFREE", "GNEW", "GFREE", "IGETMAP", "ISETMAP", *["item"] * 8])
        match op:
            case "item":
                self.item()
            case "VUPDATE" | "VSAVE" | "VREVERT":
                self.refusable(op)
            case "VFREE" | "VSETMAP":
                self.refusable(op, self.set_handle(VM_BLOCK))
            case "VFIND":
                self.refusable(op, VM_BLOCK, self.random.choice([INDEX, "w7"]), SIZE)
            case "VUID":
                self.refusable(op, INDEX, self.set_handle(self.random.choice([VM_BLOCK, GROUP])))
            case "VGETMAP":
                self.emit(op, VM_BLOCK)
            case "MFREE":
                self.refusable(op, self.set_handle(BLOCK))
            case "GNEW" | "GFREE":
                self.refusable(op, GROUP)
            case "IGETMAP":
                self.emit(op, GROUP, OTHER)
            case "ISETMAP":
                self.refusable(op, GROUP, OTHER)

    def item(self) -> None:
        op = self.random.choice(["INEW", "INEW", "INEW", "IFREE", "IREALLOC", "IINS", "IDEL"])
        group, item = self.set_handle(GROUP), self.chunk()
        if op == "INEW":
            self.refusable(op, item, group, self.set_size())
        elif op == "IFREE":
            self.refusable(op, group, item)
        elif op == "IREALLOC":
            self.refusable(op, group, item, self.set_size())
        else:
            self.refusable(op, group, item, self.set_index(), self.set_size())
        self.forget("db")
