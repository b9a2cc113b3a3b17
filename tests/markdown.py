"""Reads Markdown pages: their paragraphs without code, their sentences, headings and links. prose.py and links.py use it."""

import os
import re
from pathlib import Path
from typing import Iterator, NamedTuple

# What a code span counts as: one word.
CODE = "\u00a4"


class Line(NamedTuple):
    """A line of a page, with its number from 1."""

    number: int
    text: str


def pages(top: Path) -> list[Path]:
    """All Markdown files below a folder, in the order of their paths, without built files and hidden folders."""
    found = []
    for folder, inner, names in os.walk(top):
        inner[:] = [name for name in inner if name != "out" and not name.startswith(".")]
        found += [Path(folder) / name for name in names if name.endswith(".md")]
    return sorted(found)


def prose_lines(text: str) -> list[Line]:
    """The lines of a page, those of code blocks blank."""
    lines = []
    fenced = False
    after_blank = True
    for number, line in enumerate(text.split("\n"), 1):
        fence = line.startswith("```")
        indented = line.startswith("    ") and after_blank
        lines.append(Line(number, "" if fenced or fence or indented else line))
        fenced ^= fence
        after_blank = not line.strip() or indented
    return lines


def paragraphs(text: str) -> Iterator[list[Line]]:
    """Paragraphs, list items, headings and cells of tables, as lines."""
    part: list[Line] = []
    for line in [*prose_lines(text), Line(0, "")]:
        begins = re.match(r"\s*([-*]|\d+\.) |#|\||!\[", line.text)
        if part and (begins or not line.text.strip()):
            yield part
            part = []
        if line.text.startswith("|"):
            yield from ([Line(line.number, cell)] for cell in line.text.strip("|").split("|"))
        elif line.text.startswith("#"):
            yield [line]
        elif line.text.strip():
            part.append(line)


def plain(text: str) -> str:
    """A text without marks of Markdown: code spans as one word, links and figures by their words."""
    text = re.sub(r"`[^`]*`", CODE, text)
    text = re.sub(r"!?\[([^]]*)\]\([^)]*\)", r"\1", text)
    return re.sub(r"^\s*(#+|[-*]|\d+\.) ", "", text).replace("*", "")


def sentences(text: str) -> Iterator[tuple[int, str]]:
    """The sentences of a page, each with the number of the line where it begins."""
    for part in paragraphs(text):
        words: list[tuple[int, str]] = []
        # A span of code or a link may run over the end of a line: lines are joined by a mark first.
        whole = plain("\n".join(line.text for line in part))
        for number, line in enumerate(whole.split("\n"), part[0].number):
            words += [(number, word) for word in line.split()]
        begin = 0
        for at, (_, word) in enumerate(words):
            last = at + 1 == len(words)
            follows = "" if last else words[at + 1][1]
            if last or (re.search(r"[.!?][)\"']*$", word) and re.match(rf"[A-Z{CODE}\"'(\[]", follows)):
                yield words[begin][0], " ".join(word for _, word in words[begin : at + 1])
                begin = at + 1


def headings(text: str) -> list[str]:
    """The anchors of a page's headings, as they are made from their words."""
    anchors = []
    for line in prose_lines(text):
        if match := re.match(r"#+ (.*)", line.text):
            words = re.sub(r"\[([^]]*)\]\([^)]*\)", r"\1", match[1])
            anchors.append(re.sub(r"[^\w\- ]", "", words.lower()).replace(" ", "-"))
    return anchors


def links(text: str) -> Iterator[tuple[int, str]]:
    """The links of a page to files and anchors of the repository, each with the number of its line."""
    for part in paragraphs(text):
        whole = re.sub(r"`[^`]*`", lambda span: re.sub(r"[^\n]", CODE, span[0]), "\n".join(line.text for line in part))
        for match in re.finditer(r"\]\(([^)\s]+)\)", whole):
            if not re.match(r"[a-z]+:", match[1]):
                yield part[0].number + whole.count("\n", 0, match.start()), match[1]


def spans(text: str) -> Iterator[tuple[int, str]]:
    """The code spans of a page, each with the number of its line."""
    for part in paragraphs(text):
        whole = "\n".join(line.text for line in part)
        for match in re.finditer(r"`([^`]*)`", whole):
            yield part[0].number + whole.count("\n", 0, match.start()), match[1].replace("\n", " ")
