"""Runs the fenced blocks of Markdown pages, and reports where a command prints something other than the page says, or a file has no such lines.

    python3 fences.py PROGRAM TOP PAGE.. [--write]

The blocks of a page are taken in order, in a new folder that has only links to the program, as `geos`, and to the repository's `examples` and `library`:

- a block whose first line is ```asm add.asm, or another language and a file's name, is written to this file. But if a file of the
  repository has this name, as in ```antt crates/one/specs/Rules.antt, the block quotes it: this file has the block's words, with `..` for any;
- in a block of the language console, a line after `$ ` is a command of the shell, and goes on in lines after `> `. The other lines are what
  it prints on both streams. A line `..` stands for any lines;
- any other block is not run.

Prints a difference for each command that prints something else, and a line for each quote that is none. With --write the pages get what is
printed now.
"""

import difflib
import os
import re
import subprocess
import sys
import tempfile
from dataclasses import dataclass, field
from pathlib import Path

# What the shell prints after each command.
MARK = "\0"


@dataclass
class Block:
    """A fenced block: the words of its first line, and its lines from this number on."""

    words: list[str]
    number: int
    lines: list[str] = field(default_factory=list)

    @property
    def runs(self) -> bool:
        return self.words[:1] == ["console"]

    @property
    def file(self) -> str:
        """The file that the block is written to, if it is one."""
        return self.words[1] if len(self.words) > 1 else ""


@dataclass
class Command:
    """A command of a page, the number of the line where its output begins, and what it prints by the page."""

    line: int
    text: str
    output: list[str]


def blocks_of(lines: list[str]) -> list[Block]:
    blocks: list[Block] = []
    inside = False
    for number, line in enumerate(lines):
        if line.startswith("```"):
            inside = not inside
            if inside:
                blocks.append(Block(line[3:].split(), number + 1))
        elif inside:
            blocks[-1].lines.append(line)
    return blocks


def commands_of(block: Block) -> list[Command]:
    commands: list[Command] = []
    for number, line in enumerate(block.lines, block.number + 1):
        if line.startswith("$ "):
            commands.append(Command(number, line[2:], []))
        elif not commands:
            raise SystemExit(f"line {number}: output without a command before it")
        elif line.startswith("> ") and not commands[-1].output:
            commands[-1].text += "\n" + line[2:]
            commands[-1].line = number
        else:
            commands[-1].output.append(line)
    return commands


def is_quoted(block: Block, top: Path) -> bool:
    """Whether a file of the repository has the words of a block, with `..` for any."""
    parts = [re.escape(" ".join(part.split())) for part in "\n".join(block.lines).split("..")]
    return re.search(".*".join(parts), " ".join((top / block.file).read_text().split())) is not None


def script_of(blocks: list[Block], files: Path) -> str:
    """What the shell runs for a page: the commands, and before them the copies of files as they come."""
    parts = ["exec </dev/null 2>&1", "marked() { last=$?; printf '\\0'; return $last; }"]
    for number, block in enumerate(blocks):
        if block.runs:
            parts += [f"{command.text}\nmarked" for command in commands_of(block)]
        elif block.file:
            (files / str(number)).write_text("".join(line + "\n" for line in block.lines))
            parts.append(f"cp '{files}/{number}' '{block.file}'")
    return "\n".join(parts) + "\n"


def printed(program: Path, top: Path, blocks: list[Block]) -> list[list[str]]:
    """What each command of a page prints, in lines."""
    with tempfile.TemporaryDirectory() as name:
        folder = Path(name)
        for part in ("page", "files", "bin"):
            (folder / part).mkdir()
        for place in ("page/geos", "bin/geos"):
            (folder / place).symlink_to(program)
        for part in ("examples", "library"):
            (folder / "page" / part).symlink_to(top / part)
        (folder / "script").write_text(script_of(blocks, folder / "files"))
        path = f"{folder}/bin:{os.environ['PATH']}"
        ran = subprocess.run(
            ["bash", folder / "script"], cwd=folder / "page", env={**os.environ, "PATH": path, "LC_ALL": "C"}, stdout=subprocess.PIPE
        )
    parts = ran.stdout.decode(errors="replace").split(MARK)
    return [part.removesuffix("\n").split("\n") if part else [] for part in parts[:-1]]


def agrees(wanted: list[str], lines: list[str]) -> bool:
    """Whether lines are the wanted ones, in which `..` stands for any."""
    parts = ["(?:.*\n)*" if line == ".." else re.escape(line + "\n") for line in wanted]
    return re.fullmatch("".join(parts), "".join(line + "\n" for line in lines)) is not None


def check_page(program: Path, top: Path, page: Path, write: bool) -> None:
    lines = page.read_text().split("\n")
    blocks = blocks_of(lines)
    quotes = [block for block in blocks if block.file and (top / block.file).is_file()]
    for block in quotes:
        if not is_quoted(block, top):
            print(f"{page.relative_to(top)}:{block.number}: {block.file} has no such lines")
    blocks = [block for block in blocks if block not in quotes]
    commands = [command for block in blocks if block.runs for command in commands_of(block)]
    runs = printed(program, top, blocks)
    if len(runs) < len(commands):
        print(f"{page.relative_to(top)}: the shell ended after {len(runs)} of {len(commands)} commands")
    differ = [(command, run) for command, run in zip(commands, runs) if not agrees(command.output, run)]
    if write:
        for command, run in reversed(differ):
            lines[command.line : command.line + len(command.output)] = run
        page.write_text("\n".join(lines))
        return
    for command, run in differ:
        print(f"{page.relative_to(top)}:{command.line}: $ {command.text}")
        print("\n".join([*difflib.unified_diff(command.output, run, lineterm="")][2:]))


def main() -> None:
    program, top, *pages = [word for word in sys.argv[1:] if word != "--write"]
    for page in pages:
        check_page(Path(program).resolve(), Path(top).resolve(), Path(top).resolve() / page, "--write" in sys.argv)


main()
