"""Random sources of the structured language. Most of them compile; the compiler refuses those that run out of words, pointers or slots."""

import random
from dataclasses import dataclass, field, replace

from reading import read

KINDS = {"mlock": "mem", "mnew": "mem", "vlock": "vm", "vnew": "vm", "ilock": "group"}
FRAME = """struct Pair { left: word, right: word, tag: byte, more: byte[3] }
struct Both { head: byte, pairs: Pair[2], name: byte[3] }
const K = {};
"""
# The bytes of each structure.
SIZES = {"": 0, "Pair": 8, "Both": 20}


@dataclass(frozen=True)
class Known:
    """What statements may use at a place: words, those of them that can't be set, blocks with their kinds, pointers with their block, their
    bytes and the structure that they lead to; whether a loop, and a path of refusals, is around; whether `why` is known; what the names that
    a `for` between constants counts are below; and parameters that are constants in each call."""

    words: tuple[str, ...] = ()
    fixed: tuple[str, ...] = ()
    blocks: dict[str, str] = field(default_factory=dict)
    pointers: dict[str, tuple[str, int, str]] = field(default_factory=dict)
    loops: int = 0
    results: int = 0
    fails: bool = True
    why: bool = False
    below: dict[str, int] = field(default_factory=dict)
    constants: tuple[str, ...] = ()

    def with_word(self, *names: str) -> "Known":
        return replace(self, words=(*self.words, *names))

    def without_pointers(self, kind: str) -> "Known":
        """The same after a call that may move chunks of blocks of a kind."""
        left = {p: at for p, at in self.pointers.items() if self.blocks.get(at[0]) != kind}
        return replace(self, pointers=left)


@dataclass
class Routine:
    """A routine that can be called: its parameters, each `word`, `constant`, a kind of block or `pointer`, how many results it has, and whether
    it is refused."""

    name: str
    parameters: list[str]
    results: int
    fails: bool


# How a public routine locks a block of a kind.
LOCKED = {"mem": "mlock(1)? as {0} {{", "vm": "vlock(1)? as {0} {{", "group": "ilock(1, 16, 8)? as {0}, q{0} {{"}


def called(text: str) -> str:
    """The source with a public routine for each other one, which calls that."""
    callers = []
    for head in read(text):
        if head.kind != "routine" or head.public:
            continue
        lines, names = [], []
        for parameter in head.parameters:
            constant = parameter.name.startswith("k")
            names.append("2" if constant else "a" if parameter.kind == "word" else parameter.name)
            if parameter.kind == "block":
                lines.append(LOCKED[parameter.owner].format(parameter.name))
            elif parameter.kind == "pointer":
                lines.append(f"let {parameter.name} = deref({parameter.block}, 16, Pair)?;")
        call = f"{head.name}({', '.join(names)}){'?' if head.fails else ''}"
        words = ", ".join(f"r{k}" for k in range(len(head.results)))
        lines.append(f"let {words} = {call};\nout({words})?;" if words else f"{call};")
        ends = "}" * sum(parameter.kind == "block" for parameter in head.parameters)
        callers.append(f"pub fn {head.name}_called(a) {{\n" + "\n".join(lines) + f"\n{ends}\n}}\n")
    return text + "\n".join(callers)


class Writer:
    """A source that is written at random."""

    def __init__(self, seed: int) -> None:
        self.random = random.Random(seed)
        self.names = 0
        self.routines: list[Routine] = []
        self.publics: list[tuple[str, bool]] = []

    def pick(self, items):
        return self.random.choice(list(items))

    def chance(self, share: float) -> bool:
        return self.random.random() < share

    def number(self, low: int, high: int) -> int:
        return self.random.randint(low, high)

    def fresh(self, letter: str) -> str:
        self.names += 1
        return f"{letter}{self.names}"

    def program(self) -> str:
        parts = [FRAME.replace("{}", str(self.number(1, 8)))]
        parts += [self.private() for _ in range(self.number(0, 2))]
        parts += [self.public(n) for n in range(self.number(1, 2))]
        return "\n".join(parts)

    def private(self) -> str:
        name, known, written, kinds = self.fresh("f"), Known(), [], []
        for _ in range(self.number(0, 2)):
            word = self.fresh("a")
            known = known.with_word(word)
            written.append(word)
            kinds.append("word")
        if self.chance(0.3):
            constant = self.fresh("k")
            known = replace(known, constants=(constant,))
            written.append(constant)
            kinds.append("constant")
        if self.chance(0.5):
            block, kind = self.fresh("b"), self.pick(["mem", "mem", "vm", "group"])
            known = replace(known, blocks={block: kind})
            written.append(f"{block}: {kind}")
            kinds.append(kind)
            if self.chance(0.4):
                pointer = self.fresh("p")
                known = replace(known, pointers={pointer: (block, 8, "Pair")})
                written.append(f"{pointer}: Pair in {block}")
                kinds.append("pointer")
        results = self.pick([0, 0, 0, 1, 1, 2, 2, 3])
        known = replace(known, results=results, fails=results > 0 or self.chance(0.4))
        body, after = self.statements(known, self.number(1, 3), 2)
        if results:
            body += f"\n{self.returned(after, 1)}"
        self.routines.append(Routine(name, kinds, results, known.fails))
        gives = " -> " + ", ".join(f"r{k}" for k in range(results)) if results else ""
        return f"fn {name}({', '.join(written)}){gives}{' ?' if known.fails else ''} {{\n{body}\n}}\n"

    def returned(self, known: Known, depth: int) -> str:
        return f"return {', '.join(self.value(known, depth) for _ in range(known.results))};" if known.results else "return;"

    def public(self, n: int) -> str:
        lent = self.chance(0.2)
        known = Known(words=("a", "b", "n"), fixed=("n",), blocks={"lent": "vm"} if lent else {})
        body = self.statements(known, self.number(3, 8), 1)[0]
        handler = ""
        if self.chance(0.4):
            handler = f" else {{\n{self.statements(replace(known, why=True), 2, 3)[0]}\n}}"
        self.publics.append((f"main{n}", lent))
        return f"pub fn main{n}(a, b, n <= 6{', lent: vm' if lent else ''}) {{\n{body}\n}}{handler}\n"

    # Values and conditions.

    def word(self, known: Known) -> str:
        return self.pick(known.words) if known.words else "vgetmap()"

    def index(self, known: Known) -> str:
        return self.pick(["0", "1", "2", "16", self.word(known)])

    def element(self, known: Known, count: int) -> str:
        """An index of an array that is tested: rarely one that the compiler refuses."""
        if self.chance(0.03):
            return self.pick(["16", str(count), *known.below])
        words = [word for word in known.words if known.below.get(word, 65_536) in (65_536, *range(count + 1))]
        return self.pick([*map(str, range(count)), *words, *words, f"({self.word(known)} & {self.pick([1, 3])})"])

    def within(self, known: Known, count: int) -> str:
        """An index of an array that has a bound within it."""
        counted = [word for word in known.words if known.below.get(word, 65_536) <= count]
        bounded = [f"({self.word(known)} {self.pick(['& 1', '% 2', '>> 15'])})"]
        bounded += [f"({word} + 1)" for word in counted if known.below[word] < count]
        return self.pick([*map(str, range(count)), *bounded, *counted, *counted, *counted])

    def value(self, known: Known, depth: int) -> str:
        forms = ["number", "word", "word", "word"]
        if depth:
            forms += ["+", "+", "-", "&", "*", ">>", "/", "%", "<<", "call"]
            forms += ["access"] * 3 if known.pointers else []
            forms += ["ask"] if known.blocks else []
        form = self.pick(forms)
        if form == "number":
            return self.pick(["0", "1", "2", "3", "8", "16", "18", "100", "65_535", "0x1f", "0b11", "'a'", "'\\n'", "'\\''", "K"])
        if form in ("+", "-"):
            sides = [self.changing(known, depth - 1), self.value(known, depth - 1)]
            self.random.shuffle(sides)
            return f"({sides[0]} {form} {sides[1]})"
        constants = {"&": [1, 3, 255], "*": [2, 3, 10], ">>": [1, 2, 8], "<<": [1, 3], "/": [2, 8, 256], "%": [2, 4, 16]}
        if form in constants:
            return f"({self.changing(known, depth - 1)} {form} {self.pick(known.constants or constants[form])})"
        if form == "access":
            return self.access(known)
        if form == "ask":
            block = self.pick(known.blocks)
            return f"{self.pick(['lsize', 'lsize', 'cacount'])}({block}, {self.pick(['16', '16', '18', self.word(known)])})?"
        if form == "call":
            return self.call(known, 1) or self.word(known)
        return self.word(known)

    def changing(self, known: Known, depth: int) -> str:
        """A value that is no constant."""
        value = self.value(known, depth)
        return value if value[0] not in "0123456789'K" else self.word(known)

    def access(self, known: Known) -> str:
        name = self.pick(known.pointers)
        least, led = known.pointers[name][1:]
        counted = [i for i in known.below if i in known.words and known.below[i] < least]
        if led == "Both" and self.chance(0.8):
            return self.nested(name, known)
        if counted and self.chance(0.7):
            return f"{name}.{self.pick('wb')}[{self.pick(counted)}]"
        if led == "Pair" and self.chance(0.7):
            return name + self.pick([".left", ".right", ".tag", f".more[{self.within(known, 3)}]", f".more[{self.element(known, 3)}]?"])
        letter = self.pick("wb")
        if least >= 2 and self.chance(0.4):
            return f"{name}.{letter}[{self.number(0, least - 2)}]"
        return f"{name}.{letter}[{self.pick(['0', '3', '6', f'({self.word(known)} & 7)', self.word(known)])}]?"

    def nested(self, name: str, known: Known) -> str:
        """An access through a pointer to a structure that has structures in it."""
        parts = [".left", ".right", ".tag", ".w[2]", f".more[{self.within(known, 3)}]"]
        if self.chance(0.3):
            return name + self.pick([".head", f".name[{self.within(known, 3)}]", f".name[{self.element(known, 3)}]?"])
        if self.chance(0.5):
            return f"{name}.pairs[{self.within(known, 2)}]{self.pick([*parts, f'.more[{self.element(known, 3)}]?'])}"
        tested = [f".more[{self.element(known, 3)}]", f".b[{self.word(known)}]"]
        return f"{name}.pairs[{self.element(known, 2)}]{self.pick([*parts, *tested])}?"

    def call(self, known: Known, results: int) -> str | None:
        fitting = [r for r in self.routines if r.results == results]
        self.random.shuffle(fitting)
        for routine in fitting:
            arguments = self.arguments(routine, known)
            if arguments is not None:
                return f"{routine.name}({', '.join(map(str, arguments))}){'?' if routine.fails else ''}"
        return None

    def arguments(self, routine: Routine, known: Known) -> list[int | str] | None:
        arguments: list[int | str] = []
        block = ""
        for kind in routine.parameters:
            if kind == "word":
                arguments.append(self.value(known, 1))
            elif kind == "constant":
                arguments.append(self.pick([1, 2, 4, 8, *known.constants]))
            elif kind == "pointer":
                fitting = [p for p, at in known.pointers.items() if at[0] == block and at[2] == "Pair"]
                if not fitting:
                    return None
                arguments.append(self.pick(fitting))
            else:
                fitting = [b for b, its in known.blocks.items() if its == kind]
                if not fitting:
                    return None
                block = self.pick(fitting)
                arguments.append(block)
        return arguments

    def condition(self, known: Known, depth: int = 3) -> str:
        form = self.random.random()
        if depth and form < 0.15:
            return f"{self.condition(known, depth - 1)} {self.pick(['&&', '||'])} {self.condition(known, depth - 1)}"
        if depth and form < 0.25:
            return f"{self.pick(['', '!', '!'])}({self.condition(known, depth - 1)})"
        alike = [(a, b) for a in known.blocks for b in known.blocks if a != b and known.blocks[a] == known.blocks[b]]
        if alike and form < 0.5:
            return f"{self.pick(['same', 'differ'])}({', '.join(self.pick(alike))})"
        return f"{self.changing(known, 1)} {self.pick(['==', '!=', '<', '<=', '>', '>='])} {self.value(known, 1)}"

    # Statements. Each gives its text, and what is known after it.

    def statements(self, known: Known, count: int, depth: int) -> tuple[str, Known]:
        lines = []
        if known.why:
            lines.append("out(why)?;")
            known = replace(known, why=False)
        for _ in range(count):
            text, known = self.statement(known, depth)
            lines.append(text)
        return "\n".join(lines), known

    def statement(self, known: Known, depth: int) -> tuple[str, Known]:
        forms = ["out"] * 3 + ["let", "let", "set", "set", "called", "several", "file", "item"]
        if depth < 4:
            forms += ["branch", "branch", "attempt", "scope", "count", "repeat", "lock", "lock", "lock"]
        if known.blocks:
            forms += ["chunk", "chunk", "array", "fetch", "fetch", "fetch"]
        if known.pointers:
            forms += ["store"] * 4 + ["copy"]
        if known.fails:
            forms += ["assertion"]
        return getattr(self, self.pick(forms))(known, depth)

    def ended(self, call: str, known: Known, depth: int) -> str:
        """A call that may be refused, with `?` or a handler."""
        if self.chance(0.7):
            return f"{call}?;"
        if known.loops and self.chance(0.5):
            return f"{call} else {self.pick(['break', 'continue'])};"
        return f"{call} else {{\n{self.statements(replace(known, why=True, pointers={}), 1, depth + 2)[0]}\n}}"

    def out(self, known: Known, depth: int) -> tuple[str, Known]:
        return f"out({self.value(known, 2)})?;", known

    def let(self, known: Known, depth: int) -> tuple[str, Known]:
        if len(known.words) > 3:
            return self.set(known, depth)
        name = self.fresh("x")
        return f"let {name} = {self.value(known, 2)};", known.with_word(name)

    def set(self, known: Known, depth: int) -> tuple[str, Known]:
        able = [w for w in known.words if w not in known.fixed]
        return (f"{self.pick(able)} = {self.value(known, 2)};" if able else "out(7)?;"), known

    def branch(self, known: Known, depth: int) -> tuple[str, Known]:
        condition, inner = self.condition(known), known
        if known.words and self.chance(0.4):
            word, below = self.word(known), self.number(1, 3)
            condition = self.pick([f"{word} < {below}", f"{word} <= {below - 1}", f"!({below} <= {word})"])
            inner = replace(known, fixed=(*known.fixed, word), below=known.below | {word: min(below, known.below.get(word, below))})
        body = self.statements(inner, self.number(1, 2), depth + 1)[0]
        if self.chance(0.4):
            body += "\n" + self.leave(known)
        other = f" else {{\n{self.statements(known, 1, depth + 1)[0]}\n}}" if self.chance(0.4) else ""
        return f"if {condition} {{\n{body}\n}}{other}", self.after(known)

    def assertion(self, known: Known, depth: int) -> tuple[str, Known]:
        return f"assert {self.condition(known)};", known

    def after(self, known: Known) -> Known:
        """What is known after statements that may have moved chunks."""
        return replace(known, pointers={}) if self.chance(0.8) else known

    def leave(self, known: Known) -> str:
        leaves = ["break;", "break;", "continue;"] if known.loops else []
        leaves.append(self.returned(known, 0))
        if known.fails:
            leaves.append(f"fail {self.number(1, 30)};")
        return self.pick(leaves)

    def attempt(self, known: Known, depth: int) -> tuple[str, Known]:
        inner = replace(known, fails=True)
        body = self.statements(inner, self.number(1, 3), depth + 1)[0]
        other = self.statements(replace(known, why=True, pointers={}), 1, depth + 1)[0]
        return f"try {{\n{body}\nif {self.word(known)} == 77 {{ fail 9; }}\n}} else {{\n{other}\n}}", self.after(known)

    def scope(self, known: Known, depth: int) -> tuple[str, Known]:
        return f"{{\n{self.statements(known, 2, depth + 1)[0]}\n}}", self.after(known)

    def iterations(self, known: Known, depth: int, words: tuple[str, ...], below: int = 65_536) -> str:
        """The body of a loop, and its `else`."""
        inner = replace(known, words=(*known.words[-3:], *words), fixed=(*known.fixed, *words), loops=known.loops + 1)
        inner = replace(inner, below=known.below | dict.fromkeys(words, below))
        body = self.statements(replace(inner, pointers={}) if self.chance(0.6) else inner, self.number(1, 3), depth + 1)[0]
        other = f" else {{\n{self.statements(replace(known, pointers={}), 1, depth + 1)[0]}\n}}" if self.chance(0.3) else ""
        return f"{{\n{body}\n}}{other}"

    def count(self, known: Known, depth: int) -> tuple[str, Known]:
        name, word = self.fresh("i"), self.word(known)
        high, above = self.number(1, 4), self.number(3, 8)
        spans = {f"0..{high}": high, f"2..{above} step 2": above, f"({word} & 3)..({word} & 7)": 65_536, "1..3": 3}
        spans |= dict.fromkeys(["0..n", "1..n", "K..n", f"n..({word} & 7)"] if "n" in known.words else [], 65_536)
        span = self.pick(spans)
        return f"for {name} in {span} {self.iterations(known, depth, (name,), spans[span])}", self.after(known)

    def repeat(self, known: Known, depth: int) -> tuple[str, Known]:
        head = f"while {self.condition(known, 1)}" if self.chance(0.7) else "loop"
        return f"{head} max {self.number(1, 4)} {self.iterations(known, depth, ())}", self.after(known)

    def lock(self, known: Known, depth: int) -> tuple[str, Known]:
        form, block = self.pick(["mlock", "mnew", "mnew", "vlock", "vnew", "ilock"]), self.fresh("b")
        kind, names, inner = KINDS[form], block, known
        handle = self.pick(["1", "2", "1", self.word(known)])
        if form in ("mnew", "vnew"):
            name = self.fresh("h")
            inner = inner.with_word(name)
            call = f"{form}({name}{', ' + self.pick(['5', '6', '65280']) if form == 'vnew' else ''})"
        elif form == "ilock":
            pointer, least = self.fresh("p"), self.pick([0, 2, 8])
            inner = replace(inner, pointers=inner.pointers | {pointer: (block, least, "")})
            names += f", {pointer}"
            call = f"ilock({handle}, {self.pick(['16', '16', '18', handle])}, {least})"
        else:
            call = f"{form}({handle})"
        inner = replace(inner, blocks=inner.blocks | {block: kind})
        first = ""
        if form in ("mnew", "vnew") and self.chance(0.7):
            chunk = self.fresh("c")
            first = f"let {chunk} = lalloc({block}, {self.pick([8, 9, 20, 20])})?;\n"
            inner = inner.with_word(chunk)
        body = first + self.statements(inner, self.number(2, 5), depth + 1)[0]
        if self.chance(0.7):
            return f"{call}? as {names} {{\n{body}\n}}", self.after(known)
        other = self.statements(replace(known, why=True, pointers={}), 1, depth + 1)[0]
        return f"{call} as {names} {{\n{body}\n}} else {{\n{other}\n}}", self.after(known)

    def called(self, known: Known, depth: int) -> tuple[str, Known]:
        call = self.call(known, 0)
        return (f"{call};", self.after(known)) if call else self.several(known, depth)

    def several(self, known: Known, depth: int) -> tuple[str, Known]:
        """Names or sets the words that a call returns."""
        count = self.pick([2, 2, 3])
        call = self.call(known, count)
        if call is None:
            call, count = "igetmap()", 2
        able = [w for w in known.words if w not in known.fixed]
        if len(able) >= count and self.chance(0.6):
            text = f"{', '.join(self.random.sample(able, count))} = {call}"
            handled = call.endswith("?") and self.chance(0.4)
            return self.ended(text[:-1], known, depth) if handled else f"{text};", self.after(known)
        if len(known.words) > 3:
            return self.out(known, depth)
        names = [self.fresh("x") for _ in range(count)]
        return f"let {', '.join(names)} = {call};", self.after(known.with_word(*names))

    def chunk_of(self, known: Known) -> str:
        return self.pick(["16", "16", "16", "18", self.word(known)])

    def fetch(self, known: Known, depth: int) -> tuple[str, Known]:
        if len(known.pointers) > 2:
            return self.out(known, depth)
        block, name, led = self.pick(known.blocks), self.fresh("p"), self.pick(["", "Pair", "Both", "Both"])
        least = SIZES[led] or self.pick([0, 1, 2, 8])
        size = led or str(least)
        call = f"deref({block}, {self.chunk_of(known)}, {size})"
        if self.chance(0.25):
            call = f"caelt({block}, {self.chunk_of(known)}, {self.pick(['0', '1', self.word(known)])}, {size})"
        return f"let {name} = {call}?;", replace(known, pointers=known.pointers | {name: (block, least, led)})

    def chunk(self, known: Known, depth: int) -> tuple[str, Known]:
        block = self.pick(known.blocks)
        at, moved = self.chunk_of(known), known.without_pointers(known.blocks[block])
        if self.chance(0.3):
            able = [w for w in known.words if w not in known.fixed] or ["a"]
            return f"{self.pick(able)} = lalloc({block}, {self.pick(['8', '9', '2', self.word(known)])})?;", moved
        calls = [f"lins({block}, {at}, {self.index(known)}, {self.index(known)})", f"lfree({block}, {at})"]
        calls += [f"ldel({block}, {at}, {self.index(known)}, {self.index(known)})", f"lrealloc({block}, {at}, {self.index(known)})"]
        text = self.ended(self.pick(calls), moved, depth)
        return text + (f"\nlcontract({block});" if self.chance(0.1) else ""), moved

    def array(self, known: Known, depth: int) -> tuple[str, Known]:
        block = self.pick(known.blocks)
        at, moved = self.chunk_of(known), known.without_pointers(known.blocks[block])
        if self.chance(0.3) and len(known.words) < 4:
            name = self.fresh("c")
            return f"let {name} = canew({block}, {self.pick([0, 2, 8, 8])})?;", moved.with_word(name)
        calls = [f"caadd({block}, {at}, {self.index(known)})", f"cains({block}, {at}, {self.index(known)}, {self.index(known)})"]
        calls += [f"cadel({block}, {at}, {self.index(known)})", f"cazero({block}, {at})"]
        calls += [f"caresize({block}, {at}, {self.index(known)}, {self.index(known)})"]
        return self.ended(self.pick(calls), moved, depth), moved

    def store(self, known: Known, depth: int) -> tuple[str, Known]:
        named = [p for p, at in known.pointers.items() if at[2] in ("Pair", "Both")]
        if named and self.chance(0.3):
            return self.written(self.pick(named), known), known
        return f"{self.access(known)} = {self.value(known, 2)};", known

    def written(self, name: str, known: Known) -> str:
        """A string that is written."""
        field = ".more"
        if known.pointers[name][2] == "Both":
            field = self.pick([".name", ".pairs[1].more", f".pairs[{self.within(known, 2)}].more", f".pairs[{self.word(known)}].more?"])
        return name + field + " = " + self.pick(['"a"', '"no"', '"yes"', r'"\"\n"', r'"\\it"', '"\'//"']) + ";"

    def copy(self, known: Known, depth: int) -> tuple[str, Known]:
        to, source = self.pick(known.pointers), self.pick(known.pointers)
        most = min(known.pointers[to][1], known.pointers[source][1])
        return f"copy({to}, {source}, {self.number(0, most)});", known

    def file(self, known: Known, depth: int) -> tuple[str, Known]:
        word = self.word(known)
        if self.chance(0.1):
            return f"out(vuid({word})?)?;", known
        if known.blocks:
            return self.pick([f"vsetmap({word})?;", "out(vgetmap())?;", "out(vfind(0, 5)?)?;", f"mfree({word})?;"]), known
        if self.chance(0.3) and len(known.words) < 4:
            name = self.fresh("g")
            return f"let {name} = gnew()?;", known.with_word(name)
        calls = ["vsave()", "vupdate()", "vrevert()", f"isetmap({word}, 16)", f"vfree({word})", f"gfree({word})"]
        return self.ended(self.pick(calls), known, depth), self.after(known)

    def item(self, known: Known, depth: int) -> tuple[str, Known]:
        group, moved = self.pick(["1", "2", "3", self.word(known)]), known.without_pointers("group")
        if self.chance(0.4) and len(known.words) < 4:
            name = self.fresh("t")
            return f"let {name} = inew({group}, {self.pick(['8', '3'])})?;", moved.with_word(name)
        calls = [f"iins({group}, 16, {self.index(known)}, {self.index(known)})", f"ifree({group}, 16)"]
        calls += [f"idel({group}, 16, {self.index(known)}, {self.index(known)})", f"irealloc({group}, 16, {self.index(known)})"]
        return self.ended(self.pick(calls), moved, depth), moved
