"""Runs a source of the structured language as its statements say, on blocks that are lists of bytes. It has no registers and no addresses."""

from dataclasses import dataclass
from typing import Any

from blocks import GROUPS, Block, Memory, Refused, refuse_if
from reading import Tree, read

# Calls on a locked block and on the memory; those that may move the chunks of their block, or of all groups.
ON_BLOCKS = "lalloc lfree lrealloc lins ldel lsize lcontract canew caadd cains cadel cacount cazero caresize".split()
MOVING = set(ON_BLOCKS) - {"lsize", "cacount"}
ITEMS = {"inew": "lalloc", "ifree": "lfree", "irealloc": "lrealloc", "iins": "lins", "idel": "ldel"}
LOCKS = {"mlock": "mem", "mnew": "mem", "vlock": "vm", "vnew": "vm", "ilock": "group"}
MOST_WORDS = 1_024


class Leave(Exception):
    """A `break`, `continue` or `return`, with its values."""

    def __init__(self, kind: str, values: list[int] | None = None) -> None:
        self.kind, self.values = kind, values or []


class Fail(Exception):
    """A refusal or `fail` on its path. `passes`: it has its own `?`, so the statement's handler does not take it."""

    def __init__(self, passes: bool) -> None:
        self.passes = passes


class Wrong(Exception):
    """What no compiled source may do: use a stale pointer, go past its bytes, read a word that is not set."""


@dataclass
class Locked:
    """A name of a locked block."""

    block: Block


@dataclass
class Pointer:
    """A name of bytes of a chunk, valid until the block's chunks may move."""

    block: Block
    chunk: int
    start: int
    size: int
    fields: "Fields"
    moves: int


Scope = dict[str, Any]
# The fields of a structure: the offset, the bytes of an element, the fields of a structure in it, and how many elements an array has.
Fields = dict[str, tuple[int, int, Any, int | None]]


@dataclass
class Place:
    """What an access reaches: bytes at an offset of a pointer, and their fields. `past`: its last index is past its array."""

    pointer: Pointer
    at: int
    width: int
    fields: Fields
    past: bool


OPERATORS = {
    "+": lambda a, b: a + b,
    "-": lambda a, b: a - b,
    "*": lambda a, b: a * b,
    "/": lambda a, b: a // b,
    "%": lambda a, b: a % b,
    "&": lambda a, b: a & b,
    "<<": lambda a, b: a << b,
    ">>": lambda a, b: a >> b,
}
COMPARISONS = {
    "==": lambda a, b: a == b,
    "!=": lambda a, b: a != b,
    "<": lambda a, b: a < b,
    ">": lambda a, b: a > b,
    "<=": lambda a, b: a <= b,
    ">=": lambda a, b: a >= b,
}


class Program:
    """A source, its memory, and the words that the present call has output."""

    def __init__(self, text: str) -> None:
        self.memory = Memory()
        self.constants: dict[str, int] = {}
        self.sizes: dict[str, int] = {}
        self.fields: dict[str, Fields] = {}
        self.routines: dict[str, Tree] = {}
        self.output: list[int] = []
        self.why: int | None = None
        self.tests = False
        for item in read(text):
            if item.kind == "const":
                self.constants[item.name] = self.word(item.value, [])
            elif item.kind == "struct":
                self.declare(item)
            else:
                self.routines[item.name] = item

    def declare(self, item: Tree) -> None:
        at, fields = 0, {}
        for name, kind, written in item.fields:
            width = self.sizes[kind] if kind in self.sizes else 2 if kind == "word" else 1
            count = None if written is None else self.word(written, [])
            fields[name] = (at, width, self.fields.get(kind), count)
            at += width * (1 if count is None else count)
        self.sizes[item.name], self.fields[item.name] = at, fields

    def call(self, name: str, words: list[int], handles: list[int]) -> list[str]:
        """The lines that a call of a public routine prints."""
        routine, scope, locked = self.routines[name], {}, []
        self.output, self.why = [], None
        left, handles = list(words), list(handles)
        try:
            for parameter in routine.parameters:
                if parameter.kind == "word":
                    scope[parameter.name] = left.pop(0) if left else 0
                else:
                    block = self.memory.file_block(handles.pop(0))
                    block.locks += 1
                    locked.append(block)
                    scope[parameter.name] = Locked(block)
            self.routine(routine, scope)
        except Refused as refused:
            return [f"refused {refused.number}"]
        except Fail:
            pass
        finally:
            for block in locked:
                block.locks -= 1
        return [str(word) for word in self.output]

    def routine(self, routine: Tree, scope: Scope) -> list[int]:
        """Runs a routine, which returns words. A refusal goes to its handler, then to the caller if the routine may be refused; otherwise it
        ends it."""
        tests, self.tests = self.tests, False
        try:
            try:
                self.run(routine.body, [scope])
            except Fail:
                if routine.handler is None:
                    raise
                self.run(routine.handler, [scope])
        except Leave as leave:
            return self.returned(routine, leave.values)
        except Fail:
            if routine.fails or routine.public:
                raise
        finally:
            self.tests = tests
        return self.returned(routine, [])

    def returned(self, routine: Tree, values: list[int]) -> list[int]:
        if len(values) != len(routine.results):
            raise Wrong(f"{routine.name} returns {len(values)} words")
        return values

    def run(self, statements: list[Tree], scopes: list[Scope]) -> None:
        inner = [*scopes, {}]
        for statement in statements:
            getattr(self, f"do_{statement.kind}")(statement, inner)

    def refuse(self, refused: Refused, passes: bool) -> None:
        self.why = refused.number
        raise Fail(passes) from None

    # Statements. Those of `ended` have a handler.

    def ended(self, statement: Tree, scopes: list[Scope]) -> None:
        """Carries out a statement. Its handler takes the refusals without a `?` of their own."""
        tests, self.tests = self.tests, statement.handler is not None
        try:
            getattr(self, f"end_{statement.kind}")(statement, scopes)
        except Fail as fail:
            if fail.passes or statement.handler is None:
                raise
            self.tests = False
            self.run(statement.handler, scopes)
        finally:
            self.tests = tests

    do_let = do_set = do_several = do_write = do_do = do_out = ended

    def end_let(self, statement: Tree, scopes: list[Scope]) -> None:
        scopes[-1].update(dict.fromkeys(statement.names))
        if statement.value is not None:
            values = self.values(statement.value, scopes)
            scopes[-1].update(zip(statement.names, values, strict=True))

    def end_several(self, statement: Tree, scopes: list[Scope]) -> None:
        values = self.values(statement.value, scopes)
        for name, value in zip(statement.names, values, strict=True):
            self.scope_of(name, scopes)[name] = value

    def scope_of(self, name: str, scopes: list[Scope]) -> Scope:
        return next(scope for scope in reversed(scopes) if name in scope)

    def end_set(self, statement: Tree, scopes: list[Scope]) -> None:
        place = statement.place
        if place.kind == "name":
            (value,) = self.values(statement.value, scopes)
            self.scope_of(place.name, scopes)[place.name] = value
        else:
            reached = self.place(place, scopes, place.asks)
            value = self.word(statement.value, scopes)
            self.access(reached, place.asks, (value % 256**reached.width).to_bytes(reached.width, "little"))

    def end_write(self, statement: Tree, scopes: list[Scope]) -> None:
        """Writes a string: each byte is within what the pointer has, or none is written."""
        asks = statement.place.asks
        reached = self.place(statement.place, scopes, asks)
        reached.width = len(statement.text)
        self.access(reached, asks, statement.text)

    def end_do(self, statement: Tree, scopes: list[Scope]) -> None:
        self.values(statement.call, scopes)

    def end_out(self, statement: Tree, scopes: list[Scope]) -> None:
        for value in statement.values:
            word = self.word(value, scopes)
            if len(self.output) == MOST_WORDS:
                self.refuse(Refused(10), statement.asks)
            self.output.append(word)

    def do_dirty(self, statement: Tree, scopes: list[Scope]) -> None:
        pass

    def do_scope(self, statement: Tree, scopes: list[Scope]) -> None:
        self.run(statement.body, scopes)

    def do_break(self, statement: Tree, scopes: list[Scope]) -> None:
        raise Leave("break")

    def do_continue(self, statement: Tree, scopes: list[Scope]) -> None:
        raise Leave("continue")

    def do_return(self, statement: Tree, scopes: list[Scope]) -> None:
        raise Leave("return", [self.word(value, scopes) for value in statement.values])

    def do_fail(self, statement: Tree, scopes: list[Scope]) -> None:
        if statement.value is not None:
            self.why = self.word(statement.value, scopes)
        raise Fail(True)

    def do_try(self, statement: Tree, scopes: list[Scope]) -> None:
        try:
            self.run(statement.body, scopes)
        except Fail:
            self.run(statement.other, scopes)

    def do_if(self, statement: Tree, scopes: list[Scope]) -> None:
        if self.holds(statement.condition, scopes):
            self.run(statement.body, scopes)
        elif statement.other is not None:
            self.run(statement.other, scopes)

    def breaks(self, body: list[Tree], scopes: list[Scope]) -> bool:
        """Runs an iteration. Whether `break` ends the loop."""
        try:
            self.run(body, scopes)
        except Leave as leave:
            if leave.kind == "return":
                raise
            return leave.kind == "break"
        return False

    def do_while(self, statement: Tree, scopes: list[Scope]) -> None:
        for _ in range(self.word(statement.most, scopes)):
            if statement.condition is not None and not self.holds(statement.condition, scopes):
                return
            if self.breaks(statement.body, scopes):
                return
        self.run(statement.other or [], scopes)

    def do_for(self, statement: Tree, scopes: list[Scope]) -> None:
        low, high = self.word(statement.low, scopes), self.word(statement.high, scopes)
        for number in range(low, high, 1 if statement.step is None else self.word(statement.step, scopes)):
            if self.breaks(statement.body, [*scopes, {statement.name: number}]):
                return
        self.run(statement.other or [], scopes)

    def do_lock(self, statement: Tree, scopes: list[Scope]) -> None:
        call, names = statement.call, statement.names
        try:
            block, pointer = self.locked(call, scopes)
        except Fail as fail:
            if fail.passes or statement.handler is None:
                raise
            self.run(statement.handler, scopes)
            return
        block.locks += 1
        try:
            self.run(statement.body, [*scopes, dict(zip(names, [Locked(block), pointer]))])
        finally:
            block.locks -= 1

    def locked(self, call: Tree, scopes: list[Scope]) -> tuple[Block, Pointer | None]:
        """The block that a lock locks, and the pointer to its item."""
        memory, pointer = self.memory, None
        new = call.name in ("mnew", "vnew")
        words = [self.word(a, scopes) for a in call.arguments[1 if new else 0 : 2]]
        try:
            if new:
                handle = memory.mnew() if call.name == "mnew" else memory.vnew(words[0])
                block = (memory.memory if call.name == "mnew" else memory.file)[handle]
                name = call.arguments[0].name
                next((s for s in reversed(scopes) if name in s), scopes[-1])[name] = handle
            elif call.name == "mlock":
                block = memory.block(words[0])
            elif call.name == "vlock":
                block = memory.file_block(words[0])
            else:
                block = memory.group(words[0])
                least, fields = self.size(call.arguments[2])
                data = block.chunk(words[1])
                refuse_if(3, len(data) < least)
                pointer = Pointer(block, words[1], 0, len(data), fields, block.moves)
        except Refused as refused:
            self.refuse(refused, call.asks)
        return block, pointer

    # Names, pointers and calls.

    def named(self, tree: Tree, scopes: list[Scope]) -> Any:
        if tree.name == "why":
            return self.why
        for scope in reversed(scopes):
            if tree.name in scope:
                return scope[tree.name]
        return self.constants[tree.name]

    def size(self, tree: Tree) -> tuple[int, Fields]:
        """The bytes of a structure or a number, and the fields."""
        if tree.kind == "name" and tree.name in self.sizes:
            return self.sizes[tree.name], self.fields[tree.name]
        return self.word(tree, []), {}

    def pointer(self, tree: Tree, scopes: list[Scope]) -> Pointer:
        found = self.fetched(tree, scopes) if tree.kind == "call" else self.named(tree, scopes)
        if not isinstance(found, Pointer) or self.is_stale(found):
            raise Wrong("a stale pointer")
        return found

    def is_stale(self, pointer: Pointer) -> bool:
        return pointer.moves != pointer.block.moves or not pointer.block.locks

    def fetched(self, call: Tree, scopes: list[Scope]) -> Pointer:
        """The pointer of `deref` or `caelt`."""
        block = self.named(call.arguments[0], scopes).block
        words = [self.word(a, scopes) for a in call.arguments[1:-1]]
        least, fields = self.size(call.arguments[-1])
        try:
            start, size = 0, len(block.chunk(words[0]))
            if call.name == "caelt":
                elements = block.array(words[0])[1]
                refuse_if(9, words[1] >= len(elements))
                start, size = block.element_start(*words), len(elements[words[1]])
            refuse_if(3, size < least)
        except Refused as refused:
            self.refuse(refused, call.asks)
        return Pointer(block, words[0], start, size, fields, block.moves)

    def place(self, tree: Tree, scopes: list[Scope], asks: bool) -> Place:
        """What an access reaches. The indexes before its last one are within their arrays, or it is refused."""
        if tree.base.kind == "field":
            around = self.place(tree.base, scopes, asks)
            self.refuse_past(around.past, asks)
            pointer, start, fields = around.pointer, around.at, around.fields
        else:
            pointer = self.pointer(tree.base, scopes)
            start, fields = 0, pointer.fields
        index = 0 if tree.index is None else self.word(tree.index, scopes)
        if tree.name in fields:
            at, width, inner, count = fields[tree.name]
            counted = index * width
        else:
            at, width, inner, count = 0, 2 if tree.name == "w" else 1, None, None
            counted = index
        past = count is not None and index >= count
        if past and self.is_constant(tree.index, scopes):
            raise Wrong("a constant index past its array")
        return Place(pointer, (start + at + counted) % 65_536, width, inner or {}, past)

    def is_constant(self, tree: Tree, scopes: list[Scope]) -> bool:
        """Whether a value is made of numbers, constants and structures."""
        if tree.kind == "operation":
            return self.is_constant(tree.left, scopes) and self.is_constant(tree.right, scopes)
        if tree.kind == "field":
            return self.is_constant(tree.base, scopes)
        if tree.kind == "name":
            return tree.name in self.constants | self.sizes and not any(tree.name in scope for scope in scopes)
        return tree.kind == "number"

    def reach(self, tree: Tree, scopes: list[Scope]) -> int:
        """Reads an access."""
        return int.from_bytes(self.access(self.place(tree, scopes, tree.asks), tree.asks, None), "little")

    def refuse_past(self, past: bool, asks: bool) -> None:
        """Refuses an access that is past its array or its pointer's bytes."""
        if not past:
            return
        if not (asks or self.tests):
            raise Wrong("an access past its array, or past the bytes of its pointer")
        self.refuse(Refused(14), asks)

    def access(self, place: Place, asks: bool, written: bytes | None) -> bytes:
        """The bytes of an access, which are then the ones that are written."""
        pointer, width = place.pointer, place.width
        if self.is_stale(pointer):
            raise Wrong("a pointer that is stale after the value")
        self.refuse_past(place.past or place.at + width > pointer.size, asks)
        data, at = pointer.block.chunks[pointer.chunk], pointer.start + place.at
        if written is not None:
            pointer.block.chunks[pointer.chunk] = data[:at] + written + data[at + width :]
        return data[at : at + width]

    def values(self, tree: Tree, scopes: list[Scope]) -> list[Any]:
        """The values of what a `let` names or a statement calls: a pointer, or words."""
        if tree.kind == "name" and isinstance(self.named(tree, scopes), Pointer):
            return [self.pointer(tree, scopes)]
        if tree.kind != "call":
            return [self.word(tree, scopes)]
        if tree.name in ("deref", "caelt"):
            return [self.fetched(tree, scopes)]
        if tree.name in self.routines:
            return self.inner(tree, scopes)
        try:
            result = self.kernel(tree, scopes)
        except Refused as refused:
            self.refuse(refused, tree.asks)
        return list(result) if isinstance(result, tuple) else [] if result is None else [result]

    def inner(self, tree: Tree, scopes: list[Scope]) -> list[int]:
        """The results of a routine of the source."""
        routine, scope = self.routines[tree.name], {}
        for argument, parameter in zip(tree.arguments, routine.parameters):
            if parameter.kind == "word":
                scope[parameter.name] = self.word(argument, scopes)
            elif parameter.kind == "block":
                scope[parameter.name] = self.named(argument, scopes)
            else:
                found = self.pointer(argument, scopes)
                fields = self.size(parameter.size)[1]
                scope[parameter.name] = Pointer(found.block, found.chunk, found.start, found.size, fields, found.moves)
        try:
            return self.routine(routine, scope)
        except Fail:
            raise Fail(tree.asks) from None

    def kernel(self, tree: Tree, scopes: list[Scope]) -> Any:
        """What an instruction answers; a call that may move chunks makes pointers stale, also if it is refused."""
        name, arguments = tree.name, tree.arguments
        if name == "plen":
            return self.pointer(arguments[0], scopes).size
        if name == "copy":
            return self.copy(arguments, scopes)
        if name in ON_BLOCKS:
            block = self.named(arguments[0], scopes).block
            words = [self.word(a, scopes) for a in arguments[1:]]
            if name in MOVING:
                block.moves += 1
            return getattr(block, name)(*words)
        words = [self.word(a, scopes) for a in arguments]
        if name in ITEMS:
            for block in self.memory.file.values():
                block.moves += block.user == GROUPS
            return getattr(self.memory.group(words[0]), ITEMS[name])(*words[1:])
        return getattr(self.memory, name)(*words)

    def copy(self, arguments: list[Tree], scopes: list[Scope]) -> None:
        to, source = self.pointer(arguments[0], scopes), self.pointer(arguments[1], scopes)
        count = self.word(arguments[2], scopes)
        if count > min(to.size, source.size):
            raise Wrong("a copy past the bytes of a pointer")
        taken = source.block.chunks[source.chunk][source.start : source.start + count]
        data = to.block.chunks[to.chunk]
        to.block.chunks[to.chunk] = data[: to.start] + taken + data[to.start + count :]

    # Words and conditions.

    def word(self, tree: Tree, scopes: list[Scope]) -> int:
        if tree.kind == "number":
            return tree.value
        if tree.kind == "field":
            base = tree.base
            if base.kind == "name" and base.name in self.sizes and not any(base.name in s for s in scopes):
                return self.sizes[base.name] if tree.name == "size" else self.fields[base.name][tree.name][0]
            return self.reach(tree, scopes)
        if tree.kind == "operation":
            return OPERATORS[tree.sign](self.word(tree.left, scopes), self.word(tree.right, scopes)) % 65_536
        found = [self.named(tree, scopes)] if tree.kind == "name" else self.values(tree, scopes)
        if len(found) != 1 or not isinstance(found[0], int):
            raise Wrong(f"{tree.name} is no word that is set")
        return found[0]

    def holds(self, tree: Tree, scopes: list[Scope]) -> bool:
        if tree.kind == "not":
            return not self.holds(tree.test, scopes)
        if tree.kind == "call":
            one, other = (self.named(a, scopes).block for a in tree.arguments)
            return (one is other) == (tree.name == "same")
        if tree.sign == "&&":
            return self.holds(tree.left, scopes) and self.holds(tree.right, scopes)
        if tree.sign == "||":
            return self.holds(tree.left, scopes) or self.holds(tree.right, scopes)
        return COMPARISONS[tree.sign](self.word(tree.left, scopes), self.word(tree.right, scopes))
