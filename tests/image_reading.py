"""A second reading of images: what bytes spell and where their first fault is, which rule of the verifier refuses an image first, and
how a routine of words and counters runs. Written from docs/FORMATS.md, docs/INSTRUCTIONS.md and docs/VERIFIER.md.
"""

from collections import namedtuple
from functools import lru_cache
from itertools import combinations

# The instructions in the order of their codes, from 1 on: an operand's letter is its field, n is imm and L is target.
TEXTS = """
LDI wa n / MOV wa wb / ADD wa wb wc / SUB wa wb wc / AND wa wb n / SHR wa wb n / MULI wa wb n / CHK wa n L / JMP L / BEQ wa wb L
BLT wa wb L / SETK ka n / SETKW ka wb / LOOP ka L / CALL n / RET / OUT wa L / MNEW sa wb L / MLOCK sa wb L / MUNLOCK sa / MFREE wa L
SNE sa sb L / LALLOC sa wb wc L / LFREE sa wb L / LREALLOC sa wb wc L / LINS sa wb wc wd L / LDEL sa wb wc wd L / LSIZE sa wb wc L
DEREF sa pb wc n L / LCONTRACT sa / LDB wa pb n / LDW wa pb n / STB wa pb n / STW wa pb n / LDXB wa pb wc / LDXW wa pb wc
STXB wa pb wc / STXW wa pb wc / LDCB wa pb wc L / LDCW wa pb wc L / STCB wa pb wc L / STCW wa pb wc L / MOVP pa pb / COPY pa pb n
PLEN wa pb / CANEW sa wb n L / CAADD sa wb wc L / CAINS sa wb wc wd L / CADEL sa wb wc L / CACOUNT sa wb wc L / CAELT sa pb wc wd n L
CAZERO sa wb L / CARESIZE sa wb wc wd L / VNEW sa wb wc L / VLOCK sa wb L / VDIRTY sa / VUNLOCK sa / VFREE wa L / VFIND wa wb wc L
VUID wa wb L / VGETMAP wa / VSETMAP wa L / VUPDATE L / VSAVE L / VREVERT L / GNEW wa L / GFREE wa L / INEW wa wb wc L / IFREE wa wb L
IREALLOC wa wb wc L / IINS wa wb wc wd L / IDEL wa wb wc wd L / ILOCK sa pb wc wd n L / IDIRTY sa / IUNLOCK sa / IGETMAP wa wb
ISETMAP wa wb L
"""
OPERANDS = {}
for code, text in enumerate(TEXTS.strip().replace("\n", " / ").split(" / "), 1):
    word, *operands = text.split()
    OPERANDS[code] = (word, {operand[-1]: operand[0] for operand in operands})

COUNTS = {"w": 8, "k": 4, "s": 4, "p": 4}
MOVES = set("LALLOC LFREE LREALLOC LINS LDEL LCONTRACT CANEW CAADD CAINS CADEL CAZERO CARESIZE".split())
MOVES_ITEMS = set("INEW IFREE IREALLOC IINS IDEL".split())
COMMITS = set("VUPDATE VSAVE VREVERT".split())
# On a VM file without a block these are refused with 1; and these are done, or refused for what they are given.
WANT_A_BLOCK = set("VLOCK VFREE VUID GFREE ILOCK".split()) | MOVES_ITEMS
WANT_NONE = set("VFIND VGETMAP VSETMAP GNEW IGETMAP ISETMAP".split()) | COMMITS
# What a slot holds that one of these locks a block into, and the states of one that others unlock or mark.
LOCKS = {"MNEW": 1, "MLOCK": 1, "VNEW": 3, "VLOCK": 2, "ILOCK": 4}
UNLOCKS = {"MUNLOCK": (1,), "VUNLOCK": (2, 3), "IUNLOCK": (4, 5)}
MARKS = {"VDIRTY": (2, 3, 6, 7), "IDIRTY": (4, 5)}
# The label of these is no refusal's.
BRANCHES = set("CHK JMP BEQ BLT LOOP SNE".split())
READS = set("LDB LDW LDXB LDXW LDCB LDCW".split())
WRITES = set("STB STW STXB STXW STCB STCW".split())
KINDS = [None, "memory", "VM", "VM", "DB", "DB", "VM", "VM"]
# The states of blocks that are not known to be marked, each with the state of one that is; and of blocks that the caller lends.
MARKED = {2: 3, 4: 5, 6: 7}
BORROWED = (6, 7)
PAIRS = list(combinations(range(4), 2))

Row = namedtuple("Row", "bounds slots pointers pairs")
Instr = namedtuple("Instr", "word a b c d imm target has_label")
Routine = namedtuple("Routine", "name public start count budget entry exit")
Image = namedtuple("Image", "routines instrs rows potentials")


class Fault(Exception):
    """The offset of the first byte of the first field that is cut or breaks its rule."""

    def __init__(self, at):
        super().__init__(at)
        self.at = at


def number(data, at, width, least=0, most=2**32 - 1):
    """The number in a field."""
    if at + width > len(data):
        raise Fault(at)
    value = int.from_bytes(data[at : at + width], "little")
    if not least <= value <= most:
        raise Fault(at)
    return value


def part(read, data, at, size, *more):
    """What the bytes of a part spell."""
    try:
        return read(data[at : at + size], *more)
    except Fault as fault:
        raise Fault(at + fault.at) from None


@lru_cache(maxsize=None)
def read_row(data, states):
    bounds = tuple(number(data, 2 * i, 2) for i in range(8))
    slots = tuple(number(data, 16 + i, 1, most=states - 1) for i in range(4))
    pointers = []
    for at in range(20, 36, 4):
        slot = number(data, at, 1)
        if slot > 3 and slot != 255:
            raise Fault(at)
        number(data, at + 1, 1, most=0)
        length = number(data, at + 2, 2, most=65535 if slot < 4 else 0)
        pointers.append((slot, length) if slot < 4 else None)
    bits = number(data, 36, 1, most=63)
    number(data, 37, 1, most=0)
    return Row(bounds, slots, tuple(pointers), frozenset(pair for i, pair in enumerate(PAIRS) if bits >> i & 1))


@lru_cache(maxsize=None)
def read_potential(data):
    return tuple(number(data, at, 4) for at in range(0, 20, 4))


@lru_cache(maxsize=None)
def read_instr(data, routines, instrs):
    code = number(data, 0, 1, 1, len(OPERANDS))
    word, operands = OPERANDS[code]
    registers = [number(data, i, 1, most=COUNTS[operands[f]] - 1 if f in operands else 0) for i, f in enumerate("abcd", 1)]
    number(data, 5, 1, most=0)
    most = {"CALL": routines - 1, "SHR": 15}.get(word, 65535)
    imm = number(data, 6, 2, most=most if "n" in operands else 0)
    target = number(data, 8, 2, most=instrs - 1 if "L" in operands else 0)
    return Instr(word, *registers, imm, target, "L" in operands)


@lru_cache(maxsize=None)
def read_name(data):
    letters = data.rstrip(b"\0")
    digits = b"0123456789_"
    is_letter = [65 <= byte <= 90 or 97 <= byte <= 122 for byte in letters]
    if len(data) < 16 or not letters or not is_letter[0]:
        raise Fault(0)
    if not all(letter or byte in digits for letter, byte in zip(is_letter, letters)):
        raise Fault(0)
    return letters


def read_routine(data, states, before):
    name = part(read_name, data, 0, 16)
    if name in [other.name for other in before]:
        raise Fault(0)
    start = sum(other.count for other in before)
    public = number(data, 16, 1, most=1)
    number(data, 17, 1, most=0)
    count = number(data, 18, 2, 1, 4096 - start)
    budget = number(data, 20, 4)
    entry, leave = (part(read_row, data, at, 38, states) for at in (24, 62))
    return Routine(name, public, start, count, budget, entry, leave)


def keys_of(routines, instrs):
    """The key places: where routines begin, where labels lead, and behind each JMP and RET."""
    starts = {routine.start for routine in routines}
    targets = {i.target for i in instrs if i.has_label}
    behind = {pc + 1 for pc, i in enumerate(instrs) if i.word in ("JMP", "RET")}
    return sorted(pc for pc in starts | targets | behind if pc < len(instrs))


def read_entry(data, states):
    """A row and the potential behind it."""
    return part(read_row, data, 0, 38, states), part(read_potential, data, 38, 20)


def read_points(data, at, version, states, routines, instrs):
    """The rows by pc and the potentials, and where they end."""
    n = len(instrs)
    if version == 1:
        entries = [part(read_entry, data, at + 58 * pc, 58, states) for pc in range(n)]
        return {pc: row for pc, (row, _) in enumerate(entries)}, [potential for _, potential in entries], at + 58 * n
    potentials = [part(read_potential, data, at + 20 * pc, 20) for pc in range(n)]
    at += 20 * n
    keys = keys_of(routines, instrs)
    return {pc: part(read_row, data, at + 38 * k, 38, states) for k, pc in enumerate(keys)}, potentials, at + 38 * len(keys)


def read(data, may_borrow=False):
    """The image that the bytes spell; a `Fault` where there is none. Slots may be borrowed in version 2, and else where that is asked."""
    if data[:4] != b"GRT1":
        raise Fault(0)
    version = number(data, 4, 2, 1, 2)
    states = len(KINDS) if may_borrow or version == 2 else len(KINDS) - len(BORROWED)
    count = number(data, 6, 2, 1, 32)
    routines = []
    for i in range(count):
        routines.append(part(read_routine, data, 8 + 100 * i, 100, states, routines))
    n = sum(routine.count for routine in routines)
    at = 8 + 100 * count
    instrs = [part(read_instr, data, at + 10 * i, 10, count, n) for i in range(n)]
    given, potentials, end = read_points(data, at + 10 * n, version, states, routines, instrs)
    if len(data) > end:
        raise Fault(end)
    image = Image(routines, instrs, [], potentials)
    for pc in range(n):
        image.rows.append(given[pc] if pc in given else after(image, instrs[pc - 1], image.rows[pc - 1], False))
    return image


def in_version_2(data):
    """The bytes of an image of version 1, legal but for slots that are borrowed, in version 2: the rows at its key places alone."""
    image = read(data, True)
    at = 8 + 100 * len(image.routines)
    code = at + 10 * len(image.instrs)
    points = [data[code + 58 * pc : code + 58 * pc + 58] for pc in range(len(image.instrs))]
    potentials = [point[38:] for point in points]
    rows = [points[pc][:38] for pc in keys_of(image.routines, image.instrs)]
    return b"".join([data[:4], (2).to_bytes(2, "little"), data[6:code], *potentials, *rows])


def fits(r, s):
    """Whether row r fits row s."""
    return (
        r == s
        or all(x <= y for x, y in zip(r.bounds, s.bounds))
        and all(x == y or x == MARKED.get(y) for x, y in zip(r.slots, s.slots))
        and all(y is None or x is not None and x[0] == y[0] and x[1] >= y[1] for x, y in zip(r.pointers, s.pointers))
        and s.pairs <= r.pairs
    )


def without(pairs, slot):
    return frozenset(pair for pair in pairs if slot not in pair)


def pair_of(x, y):
    return (min(x, y), max(x, y))


def stale_into(pointers, slots):
    """The pointers, those into these slots stale."""
    return tuple(None if p is not None and p[0] in slots else p for p in pointers)


def moved(row, a):
    """The row after the chunks of a slot have moved."""
    kind = KINDS[row.slots[a]]
    may_hold = [x for x in range(4) if x == a or KINDS[row.slots[x]] == kind and pair_of(x, a) not in row.pairs]
    return row._replace(pointers=stale_into(row.pointers, may_hold))


def put(values, i, value):
    return values[:i] + (value,) + values[i + 1 :]


# The bound of wa on the way on, from the bounds before.
BOUNDS = {
    "LDI": lambda i, w: i.imm,
    "MOV": lambda i, w: w[i.b],
    "ADD": lambda i, w: min(w[i.b] + w[i.c], 65535),
    "SUB": lambda i, w: 65535,
    "AND": lambda i, w: min(w[i.b], i.imm),
    "SHR": lambda i, w: w[i.b] >> i.imm,
    "MULI": lambda i, w: min(w[i.b] * i.imm, 65535),
    "CHK": lambda i, w: min(w[i.a], i.imm),
    **{word: lambda i, w: 65535 for word in ("PLEN", "VFIND", "VUID", "VGETMAP", "GNEW", "INEW")},
    **{read: lambda i, w: 255 if i.word.endswith("B") else 65535 for read in READS},
}


def bounds_after(i, w):
    """The bounds after an instruction, on the way on."""
    if i.word in ("MNEW", "VNEW", "LALLOC", "LSIZE", "CANEW", "CACOUNT"):
        return put(w, i.b, 65535)
    if i.word == "IGETMAP":
        return put(put(w, i.a, 65535), i.b, 65535)
    return put(w, i.a, BOUNDS[i.word](i, w)) if i.word in BOUNDS else w


def after(image, i, row, to_label):
    """The row after an instruction, to its label or on to the next one."""
    if i.word in MOVES:
        row = moved(row, i.a)
    if i.word in MOVES_ITEMS:
        row = row._replace(pointers=stale_into(row.pointers, [x for x in range(4) if KINDS[row.slots[x]] == "DB"]))
    if to_label:
        return row if i.word in BRANCHES else row._replace(bounds=put(row.bounds, 7, 15))
    if i.word == "CALL":
        return image.routines[i.imm].exit
    row = row._replace(bounds=bounds_after(i, row.bounds))
    if i.word in LOCKS:
        state = LOCKS[i.word]
        others = [x for x in range(4) if x != i.a and KINDS[row.slots[x]] == KINDS[state]]
        pairs = without(row.pairs, i.a)
        if i.word in ("MNEW", "VNEW"):
            pairs = row.pairs | {pair_of(x, i.a) for x in others}
        row = row._replace(slots=put(row.slots, i.a, state), pairs=pairs)
    if i.word in MARKS:
        row = row._replace(slots=put(row.slots, i.a, MARKED.get(row.slots[i.a], row.slots[i.a])))
    if i.word in UNLOCKS:
        row = Row(row.bounds, put(row.slots, i.a, 0), stale_into(row.pointers, [i.a]), without(row.pairs, i.a))
    if i.word == "SNE" and i.a != i.b:
        row = row._replace(pairs=row.pairs | {pair_of(i.a, i.b)})
    if i.word in ("DEREF", "CAELT", "ILOCK"):
        row = row._replace(pointers=put(row.pointers, i.b, (i.a, i.imm)))
    if i.word == "MOVP":
        row = row._replace(pointers=put(row.pointers, i.a, row.pointers[i.b]))
    return row


def touched(image):
    """For each routine the counters that it or a routine that it calls names."""
    table = []
    for routine in image.routines:
        counters = set()
        for i in image.instrs[routine.start : routine.start + routine.count]:
            if i.word in ("SETK", "SETKW", "LOOP"):
                counters.add(i.a)
            if i.word == "CALL" and i.imm < len(table):
                counters |= table[i.imm]
        table.append(counters)
    return table


def is_paid(image, counters, i, row, from_, to, to_label):
    """Whether an edge from one potential to another is paid for."""
    (c, *k), (c2, *k2) = from_, to
    free = set()
    if i.word in ("SETK", "SETKW"):
        c2 += (i.imm if i.word == "SETK" else row.bounds[i.b]) * k2[i.a]
        free = {i.a}
    elif i.word == "LOOP" and to_label:
        c += k[i.a]
    elif i.word == "LOOP":
        free = {i.a}
    elif i.word == "CALL":
        c2 += image.routines[i.imm].budget
        free = counters[i.imm]
        if any(k2[x] for x in free):
            return False
    return c >= c2 + 1 and all(k[x] >= k2[x] for x in range(4) if x not in free)


def is_past(i, row):
    """Whether a read or a write may reach past the length of its pointer."""
    if i.word == "COPY":
        return any(i.imm > row.pointers[p][1] for p in (i.a, i.b))
    if i.word not in READS | WRITES or i.word[2] == "C":
        return False
    first = row.bounds[i.c] if i.word[2] == "X" else i.imm
    return first + (1 if i.word.endswith("B") else 2) > row.pointers[i.b][1]


def is_wrong_slot(i, slots):
    if i.word in UNLOCKS or i.word in MARKS:
        return slots[i.a] not in {**UNLOCKS, **MARKS}[i.word]
    if i.word == "SNE":
        return slots[i.a] == 0 or KINDS[slots[i.a]] != KINDS[slots[i.b]]
    return (i.word in MOVES or i.word in ("LSIZE", "DEREF", "CACOUNT", "CAELT")) and slots[i.a] == 0


def is_unmarked(i, row):
    """Whether a slot is changed whose block is not known to be marked."""
    if i.word in MOVES:
        return row.slots[i.a] in MARKED
    written = i.b if i.word in WRITES else i.a if i.word == "COPY" else None
    return written is not None and row.slots[row.pointers[written][0]] in MARKED


def may_enter(row):
    """Whether each caller from outside can meet a row: slots are empty or borrowed, pointers stale, and no held slots known to differ."""
    is_lent = all(slot in (0, 6) for slot in row.slots)
    return is_lent and not any(row.pointers) and not any(row.slots[a] and row.slots[b] for a, b in row.pairs)


def may_leave(entry, row):
    """Whether a public routine may return with a row: it holds what was borrowed, marked or not, and nothing else."""
    return not any(row.pointers) and all(y in BORROWED if x == 6 else y == 0 for x, y in zip(entry.slots, row.slots))


def rule_at(image, counters, index, pc):
    """The lowest rule that refuses at a pc of a routine, or None."""
    routine, i, row, potential = image.routines[index], image.instrs[pc], image.rows[pc], image.potentials[pc]
    is_first = pc == routine.start
    edges = [(pc + 1, False)] if i.word not in ("RET", "JMP") else []
    edges += [(i.target, True)] if i.has_label else []
    if not all(routine.start <= to < routine.start + routine.count for to, _ in edges):
        return 1
    if any(p is not None and row.slots[p[0]] == 0 for p in row.pointers):
        return 2
    if is_first and not fits(routine.entry, row):
        return 3
    if is_first and routine.public and not (may_enter(routine.entry) and may_leave(routine.entry, routine.exit)):
        return 3
    used = [i.a, i.b] if i.word == "COPY" else [i.b] if i.word in READS | WRITES | {"MOVP", "PLEN"} else []
    if any(row.pointers[p] is None for p in used):
        return 4
    if is_past(i, row):
        return 5
    if is_unmarked(i, row):
        return 6
    if i.word in LOCKS and row.slots[i.a] != 0:
        return 7
    if is_wrong_slot(i, row.slots):
        return 8
    if i.word in COMMITS and any(slot > 1 for slot in row.slots):
        return 9
    if i.word == "CALL" and (i.imm >= index or not fits(row, image.routines[i.imm].entry)):
        return 10
    if i.word == "RET" and not fits(row, routine.exit):
        return 11
    if not all(fits(after(image, i, row, to_label), image.rows[to]) for to, to_label in edges):
        return 12
    paid = [is_paid(image, counters, i, row, potential, image.potentials[to], to_label) for to, to_label in edges]
    if not all(paid) or i.word == "RET" and potential[0] < 1:
        return 13
    if is_first and (potential[0] > routine.budget or any(potential[1:])):
        return 14
    return None


def check(image):
    """The first pc where a rule refuses, and the lowest rule there, or None where the image is accepted."""
    counters = touched(image)
    for index, routine in enumerate(image.routines):
        for pc in range(routine.start, routine.start + routine.count):
            rule = rule_at(image, counters, index, pc)
            if rule is not None:
                return pc, rule
    return None


def on_empty_file(i, w):
    """The refusal of an instruction on a VM file without a block, or 0, where it puts its answer into the words."""
    refusals = {"VFIND": 15 * (w[i.c] == 65280), "VSETMAP": int(w[i.a] != 0), "ISETMAP": 1 if w[i.a] else 14 * (w[i.b] != 0)}
    refusal = refusals.get(i.word, 0)
    if refusal == 0 and i.word in ("VFIND", "VGETMAP", "IGETMAP", "GNEW"):
        w[i.a] = int(i.word == "GNEW")
    if i.word == "IGETMAP":
        w[i.b] = 0
    return refusal


def run(image, index, words):
    """The steps, the words and the output of a routine's run where there is no block, and a VM file without one. Words, counters and
    control alone are known here; MFREE and MLOCK, which are refused with 1; and what such a file answers, up to a GNEW, which makes a block."""
    w, k, output, calls, steps, is_empty = list(words), [0] * 4, [], [], 0, True
    pc = image.routines[index].start
    while pc is not None:
        i = image.instrs[pc]
        steps += 1
        pc += 1
        if i.word in ("LDI", "MOV", "ADD", "SUB", "AND", "SHR", "MULI"):
            x, y, n = w[i.b], w[i.c], i.imm
            results = {"LDI": n, "MOV": x, "ADD": x + y, "SUB": x - y, "AND": x & n, "SHR": x >> n % 16, "MULI": x * n}
            w[i.a] = results[i.word] % 65536
        elif i.word in ("SETK", "SETKW"):
            k[i.a] = i.imm if i.word == "SETK" else w[i.b]
        elif i.word == "LOOP":
            if k[i.a] > 0:
                k[i.a] -= 1
                pc = i.target
        elif i.word in ("CHK", "BEQ", "BLT", "JMP"):
            if {"CHK": w[i.a] > i.imm, "BEQ": w[i.a] == w[i.b], "BLT": w[i.a] < w[i.b], "JMP": True}[i.word]:
                pc = i.target
        elif i.word == "CALL":
            calls.append(pc)
            pc = image.routines[i.imm].start
        elif i.word == "RET":
            pc = calls.pop() if calls else None
        elif i.word == "OUT" and len(output) < 1024:
            output.append(w[i.a])
        elif i.word in ("OUT", "MFREE", "MLOCK") or i.word in WANT_A_BLOCK and is_empty:
            w[7] = 10 if i.word == "OUT" else 1
            pc = i.target
        elif i.word in WANT_NONE and is_empty:
            refusal = on_empty_file(i, w)
            is_empty = i.word != "GNEW"
            if refusal:
                w[7] = refusal
                pc = i.target
        else:
            raise NotImplementedError(i.word)
    return steps, w, output
