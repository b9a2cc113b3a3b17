"""Reads a source of the structured language: its tokens, and a tree by recursive descent."""

import re
from dataclasses import dataclass, field
from typing import Any

TOKEN = re.compile(
    r"(?P<blank>\s+|//[^\n]*)|(?P<number>0x[0-9a-fA-F_]+|0b[01_]+|[0-9][0-9_]*)|(?P<letter>'(?:\\[nt\\'\"]|[^'\n])')"
    r"|(?P<text>\"(?:\\[nt\\'\"]|[^\\\"\n])+\")"
    r"|(?P<word>[A-Za-z_][A-Za-z0-9_]*)|(?P<sign>\.\.|->|<=|>=|==|!=|&&|\|\||<<|>>|[-+*/%&<>=!?.,;:(){}\[\]])"
)
# The operators by how strongly they bind, the weakest first.
LEVELS = (("||",), ("&&",), ("==", "!=", "<", ">", "<=", ">="), ("&",), ("<<", ">>"), ("+", "-"), ("*", "/", "%"))
LEAVES = ("break", "continue", "fail", "return")
# What a letter after a backslash stands for.
ESCAPES = {"n": 10, "t": 9, "\\": 92, "'": 39, '"': 34}
# What `why` is after a false assertion.
ASSERTED = 16


@dataclass
class Tree:
    """A part of a source: what it is, and its parts by name."""

    kind: str
    parts: dict[str, Any] = field(default_factory=dict)

    def __getattr__(self, name: str) -> Any:
        try:
            return self.__dict__["parts"][name]
        except KeyError:
            raise AttributeError(name) from None


def tokens_of(text: str) -> list[tuple[str, Any]]:
    """The tokens: a kind, and a number, the bytes of a string or what is written."""
    found: list[tuple[str, Any]] = []
    at = 0
    while at < len(text):
        match = TOKEN.match(text, at)
        if not match:
            raise ValueError(f"no token at {text[at:at + 10]!r}")
        at, written = match.end(), match.group()
        if match.lastgroup == "number":
            found.append(("number", int(written.replace("_", ""), 0)))
        elif match.lastgroup == "letter":
            found.append(("number", ESCAPES[written[2]] if len(written) == 4 else ord(written[1])))
        elif match.lastgroup == "text":
            parts = re.findall(r"\\.|.", written[1:-1])
            found.append(("text", bytes(ESCAPES[part[1]] if len(part) == 2 else ord(part) for part in parts)))
        elif match.lastgroup != "blank":
            found.append((match.lastgroup or "", written))
    return [*found, ("end", "")]


class Reader:
    """The tokens, and how many of them are read."""

    def __init__(self, text: str) -> None:
        self.tokens = tokens_of(text)
        self.at = 0

    @property
    def next(self) -> Any:
        return self.tokens[self.at][1]

    def has(self, *written: str) -> bool:
        kind, value = self.tokens[self.at]
        return kind != "number" and value in written

    def take(self, *written: str) -> bool:
        """Reads one of these, if it is next."""
        if not self.has(*written):
            return False
        self.at += 1
        return True

    def expect(self, written: str) -> None:
        if not self.take(written):
            raise ValueError(f"expected {written}, found {self.next}")

    def name(self) -> str:
        kind, value = self.tokens[self.at]
        if kind != "word":
            raise ValueError(f"expected a name, found {value}")
        self.at += 1
        return value

    def listed(self, read: Any, end: str) -> list[Any]:
        """Items with commas between them, up to an end."""
        items = []
        while not self.take(end):
            items.append(read())
            if not self.take(","):
                self.expect(end)
                break
        return items

    # Declarations.

    def program(self) -> list[Tree]:
        items = []
        while self.tokens[self.at][0] != "end":
            if self.take("const"):
                name = self.name()
                self.expect("=")
                items.append(Tree("const", {"name": name, "value": self.value()}))
                self.expect(";")
            elif self.take("struct"):
                items.append(self.structure())
            else:
                items.append(self.routine())
        return items

    def structure(self) -> Tree:
        name, fields = self.name(), []
        self.expect("{")
        while not self.take("}"):
            part = self.name()
            self.expect(":")
            kind, count = self.name(), None
            if self.take("["):
                count = self.value()
                self.expect("]")
            fields.append((part, kind, count))
            self.take(",", ";")
        return Tree("struct", {"name": name, "fields": fields})

    def routine(self) -> Tree:
        public = self.take("pub")
        self.take("inline")
        self.expect("fn")
        name = self.name()
        self.expect("(")
        parameters = self.listed(self.parameter, ")")
        results = []
        while self.take("," if results else "->"):
            results.append(self.name())
        parts = {"name": name, "public": public, "parameters": parameters, "results": results}
        parts |= {"fails": self.take("?"), "body": self.block(), "handler": self.block() if self.take("else") else None}
        return Tree("routine", parts)

    def parameter(self) -> Tree:
        name = self.name()
        if not self.take(":"):
            return Tree("word", {"name": name, "bound": self.operation(3) if self.take("<=") else None})
        size = self.operation(3)
        if self.take("in"):
            return Tree("pointer", {"name": name, "size": size, "block": self.name()})
        return Tree("block", {"name": name, "owner": size.name})

    # Statements.

    def block(self) -> list[Tree]:
        self.expect("{")
        statements = []
        while not self.take("}"):
            statements.append(self.statement())
        return statements

    def statement(self) -> Tree:
        if self.has("{"):
            return Tree("scope", {"body": self.block()})
        if self.take("if"):
            return self.branch()
        if self.has("while", "loop"):
            condition = self.value() if self.take("while") else self.take("loop") and None
            self.expect("max")
            return Tree("while", {"condition": condition, "most": self.value(), **self.loop_parts()})
        if self.take("for"):
            name = self.name()
            self.expect("in")
            low = self.value()
            self.expect("..")
            parts = {"name": name, "low": low, "high": self.value(), "step": self.value() if self.take("step") else None}
            return Tree("for", parts | self.loop_parts())
        if self.take("try"):
            body = self.block()
            self.expect("else")
            return Tree("try", {"body": body, "other": self.block()})
        if self.has(*LEAVES):
            leave = self.leave()
            self.expect(";")
            return leave
        if self.take("assert"):
            condition = self.value()
            self.expect(";")
            fail = Tree("fail", {"value": Tree("number", {"value": ASSERTED})})
            return Tree("if", {"condition": condition, "body": [], "other": [fail]})
        if self.take("dirty"):
            name = self.name()
            self.expect(";")
            return Tree("dirty", {"name": name})
        return self.ended(self.simple())

    def simple(self) -> Tree:
        """A statement that a handler may follow."""
        if self.take("let"):
            names = self.names(self.name())
            return Tree("let", {"names": names, "value": self.value() if self.take("=") else None})
        if self.take("out"):
            self.expect("(")
            return Tree("out", {"values": self.listed(self.value, ")"), "asks": self.take("?")})
        value = self.value()
        if self.has(",") and value.kind == "name":
            names = self.names(value.name)
            self.expect("=")
            return Tree("several", {"names": names, "value": self.value()})
        if self.take("as"):
            names = [self.name()]
            if self.take(","):
                names.append(self.name())
            return Tree("lock", {"call": value, "names": names, "body": self.block()})
        if self.take("="):
            kind, written = self.tokens[self.at]
            if kind == "text":
                self.at += 1
                return Tree("write", {"place": value, "text": written})
            return Tree("set", {"place": value, "value": self.value()})
        return Tree("do", {"call": value})

    def names(self, first: str) -> list[str]:
        """Names of words, of which the first is read."""
        names = [first]
        while self.take(","):
            names.append(self.name())
        if len(set(names)) < len(names):
            raise ValueError(f"one of {names} is there twice")
        return names

    def ended(self, statement: Tree) -> Tree:
        """The statement with its handler, if it has one, and its semicolon."""
        handler = None
        if self.take("else"):
            handler = self.block() if self.has("{") else [self.leave()]
        statement.parts["handler"] = handler
        ends = self.tokens[self.at - 1][1] == "}" and (handler is not None or statement.kind == "lock")
        if not self.take(";") and not ends:
            raise ValueError(f"expected ;, found {self.next}")
        return statement

    def loop_parts(self) -> dict[str, Any]:
        return {"body": self.block(), "other": self.block() if self.take("else") else None}

    def branch(self) -> Tree:
        condition, body, other = self.value(), self.block(), None
        if self.take("else"):
            other = [self.branch()] if self.take("if") else self.block()
        return Tree("if", {"condition": condition, "body": body, "other": other})

    def leave(self) -> Tree:
        kind = self.name()
        if kind not in LEAVES:
            raise ValueError(f"expected a leave, found {kind}")
        value = None if self.has(";") or kind in ("break", "continue") else self.value()
        if kind != "return":
            return Tree(kind, {"value": value})
        values = [] if value is None else [value]
        while values and self.take(","):
            values.append(self.value())
        return Tree(kind, {"values": values})

    # Values and conditions, which have one grammar here.

    def value(self) -> Tree:
        return self.operation(0)

    def operation(self, level: int) -> Tree:
        if level == len(LEVELS):
            return self.access()
        left = self.operation(level + 1)
        while self.has(*LEVELS[level]):
            sign = self.next
            self.at += 1
            left = Tree("operation", {"sign": sign, "left": left, "right": self.operation(level + 1)})
        return left

    def access(self) -> Tree:
        if self.take("!"):
            return Tree("not", {"test": self.operation(2)})
        tree = self.primary()
        while True:
            if self.take("."):
                name, index = self.name(), None
                if self.take("["):
                    index = self.value()
                    self.expect("]")
                tree = Tree("field", {"base": tree, "name": name, "index": index, "asks": False})
            elif self.has("?"):
                self.at += 1
                tree.parts["asks"] = True
            else:
                return tree

    def primary(self) -> Tree:
        kind, value = self.tokens[self.at]
        if kind == "number":
            self.at += 1
            return Tree("number", {"value": value})
        if self.take("("):
            inner = self.value()
            self.expect(")")
            return inner
        name = self.name()
        if self.take("("):
            return Tree("call", {"name": name, "arguments": self.listed(self.value, ")"), "asks": False})
        return Tree("name", {"name": name})


def read(text: str) -> list[Tree]:
    """The declarations of a source. `ValueError` if it is none."""
    return Reader(text).program()


def calls_in(part: Any) -> set[str]:
    """The names that a part of a source calls."""
    if isinstance(part, Tree):
        own = {part.name} if part.kind == "call" else set()
        return own.union(*map(calls_in, part.parts.values()))
    return set().union(*map(calls_in, part)) if isinstance(part, list | tuple) else set()


def uncalled(text: str) -> list[tuple[int, str]]:
    """The routines that no public routine calls, each with its line."""
    routines = {it.name: it for it in read(text) if it.kind == "routine"}
    reached = {name for name, routine in routines.items() if routine.public}
    left = list(reached)
    while left:
        found = (calls_in(routines[left.pop()]) & set(routines)) - reached
        reached |= found
        left += found
    lines = {name: text.count("\n", 0, re.search(rf"\bfn {name}\(", text).start()) + 1 for name in routines}
    return sorted((lines[name], name) for name in set(routines) - reached)
