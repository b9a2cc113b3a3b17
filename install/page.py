"""Prints sections of Markdown pages as a man page.

usage: page NAME SECTION TITLE VERSION DATE SEE_ALSO PAGE.md HEADING.. [PAGE.md HEADING..]..

NAME(SECTION) is described by TITLE and has the sections of each file PAGE.md under the headings after it, each with all below it. Knows what
the pages of docs/ use: headings, paragraphs, lists, tables, indented and fenced code, and in a line `code`, **bold**, *emphasis* and
[links](..).
"""

from __future__ import annotations

import re
import sys
from collections.abc import Iterator
from itertools import groupby, takewhile
from pathlib import Path

INLINE = re.compile(r"`([^`]+)`|\*\*([^*]+)\*\*|\*([^*]+)\*|\[([^]]+)\]\([^)]*\)")
ESCAPES = str.maketrans({"\\": r"\(rs", "-": r"\-", "'": r"\(aq", "`": r"\(ga", "^": r"\(ha", "~": r"\(ti"})


def plain(text: str) -> str:
    """Text that roff prints as it is."""
    return text.translate(ESCAPES)


def spoken(text: str) -> str:
    """A line of text with its marks as fonts."""
    out, end = [], 0
    for mark in INLINE.finditer(text):
        code, bold, emphasis, link = mark.groups()
        out.append(plain(text[end : mark.start()]))
        out.append(spoken(link) if link else rf"\fI{plain(emphasis)}\fR" if emphasis else rf"\fB{plain(code or bold)}\fR")
        end = mark.end()
    return "".join(out) + plain(text[end:])


def request_free(line: str) -> str:
    """A line that roff does not take for a request."""
    return rf"\&{line}" if line.startswith((".", "'")) else line


def sections(lines: list[str], headings: list[str]) -> Iterator[str]:
    """The lines below these headings, with the headings."""
    level = 0
    for line in lines:
        mark = re.match(r"(#+) (.*)", line)
        if mark and level and len(mark[1]) <= level:
            level = 0
        if mark and mark[2] in headings:
            level = len(mark[1])
        if level:
            yield f"{'#' if len(mark[1]) == level else '##'} {mark[2]}" if mark else line


ITEM = re.compile(r"( *)(-|[0-9]+\.) (.*)")


def indented(lines: list[str]) -> Iterator[str]:
    """The lines with fenced code as indented code."""
    fenced = False
    for line in lines:
        if line.startswith("```"):
            fenced = not fenced
        else:
            yield f"    {line}" if fenced else line


def kinds(lines: list[str]) -> Iterator[tuple[str, str]]:
    """Each line with its kind. An indented line is code after a blank one, and otherwise goes on with an item."""
    before = "blank"
    for line in lines:
        if ITEM.match(line) and not (before == "code" and line.startswith("    ")):
            before = "item"
        elif not line.strip():
            before = "blank"
        elif line.startswith("  "):
            before = "code" if before in ("blank", "code") else "more"
        else:
            before = {"#": "heading", "|": "table"}.get(line[0], "text")
        yield before, line


def item(line: str) -> Iterator[str]:
    """The first line of an entry of a list. Entries of a list in a list have a dash."""
    indent, mark, text = ITEM.match(line).groups()
    if mark == "-":
        mark = r"\(em" if indent else r"\(bu"
    yield f".IP {mark} 4"
    yield request_free(spoken(text))


def table(lines: list[str]) -> Iterator[str]:
    """A table's rows, each as its first cell and what the others say."""
    rows = [[cell.strip() for cell in re.split(r"(?<!\\)\|", line)[1:-1]] for line in lines]
    for first, *others in rows[2:] if len(rows) > 2 else rows:
        yield ".TP"
        yield request_free(spoken(first) or r"\&")
        yield request_free(spoken("; ".join(filter(None, others))) or r"\&")


def roff(lines: list[str]) -> Iterator[str]:
    for name, group in groupby(kinds(lines), lambda each: each[0]):
        block = [line for _, line in group]
        if name == "heading":
            for line in block:
                marks, _, text = line.partition(" ")
                yield f'.{"SH" if marks == "#" else "SS"} "{plain(text)}"'
        elif name == "table":
            yield from table(block)
        elif name == "code":
            yield from (".PP", ".EX", *(request_free(plain(line[4:])) for line in block), ".EE")
        elif name == "item":
            for line in block:
                yield from item(line)
        elif name == "more":
            yield from (request_free(spoken(line.strip())) for line in block)
        elif name == "text":
            yield from (".PP", *(request_free(line) for line in spoken("\n".join(block)).split("\n")))


def main() -> None:
    name, section, title, version, date, see_also, *words = sys.argv[1:]
    print(f'.TH {plain(name.upper())} {section} {date} "geos {version}" "Takhvoi"')
    print(f".SH NAME\n{plain(name)} \\- {plain(title)}")
    for at, page in enumerate(words):
        if page.endswith(".md"):
            headings = list(takewhile(lambda word: not word.endswith(".md"), words[at + 1 :]))
            lines = list(sections(list(indented(Path(page).read_text().splitlines())), headings))
            if not lines:
                sys.exit(f"page: {page} has none of these headings")
            print("\n".join(roff(lines)))
    print(f'.SH "SEE ALSO"\n{see_also}')


main()
