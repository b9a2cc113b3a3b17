"""Reports links of the Markdown files that lead nowhere, and names of files that do not exist.

    python3 links.py TOP

A link is relative, and may have an anchor: the file exists, and a heading of it has the anchor. A name is a code span:

- a path that begins with a folder of the repository, a crate or a folder of crates, as `specs/Rules` without its suffix;
- a file's name with a suffix of ours;
- a definition, as `specs/Rules.Accepted` or `Rules.Accepted`: a file of that module exists, and has the word;
- an item of a crate, as `geos_verify::check`: a source of the crate has the word;
- a method, as `VmFile::commit`: the sources of one crate have both words;
- a clause, function or definition, in the README of a crate each single word: a source of this crate, or of one that the page names, has
  it. On other pages only a word that looks like an item, as `take_all` or `IsTaken`: some crate is or has it, or the library.

Prints a line for each that is missing, with the file and the line.
"""

import functools
import os
import re
import sys
from pathlib import Path

import markdown

PATH = re.compile(r"[\w.*-]+(?:/[\w.*-]+)+/?")
NAME = re.compile(r"[\w-]+\.(?:rt|antt|py|md)")
DEFINITION = re.compile(r"((?:(?:\w+/)?(?:specs|proofs)/)?[A-Z]\w*)\.(\w+)")
ITEM = re.compile(r"(\w+)::(?:\w+::)*(\w+)")
METHOD = re.compile(r"([A-Z]\w*)::(\w+)")
WORD = re.compile(r"[A-Za-z]\w+")
# What looks like an item on a page that is no crate's.
LIKE_AN_ITEM = re.compile(r"[A-Za-z]+_\w+|[A-Z][a-z0-9]+[A-Z]\w*")
OF_CRATES = ("src", "specs", "proofs", "must-fail")
# Folders with items that no crate has: the library for C and other languages, the second readings, and the scripts.
OTHERS = ("library", "bindings", "tests", "tools")
SUFFIXES = ("", ".antt", ".rt", ".edit")


@functools.cache
def words_in(file: Path) -> set[str]:
    """The words of a file."""
    return set(re.findall(r"\w+", file.read_text()))


def has_word(file: Path, word: str) -> bool:
    return word in words_in(file)


class Files:
    """The files and folders of a repository, without built files."""

    def __init__(self, top: Path) -> None:
        self.top = top
        self.paths: list[Path] = []
        for folder, inner, names in os.walk(top):
            inner[:] = [name for name in inner if name != "out" and not name.startswith(".")]
            self.paths += [Path(folder) / name for name in names]
        self.names = {path.name for path in self.paths}
        self.crates = sorted(path for path in top.glob("crates/*") if path.is_dir())
        self.firsts = {path.name for path in [*top.iterdir(), *self.crates] if path.is_dir() and not path.name.startswith(".")}

    def found(self, path: str, page: Path) -> list[Path]:
        """The files that a path may mean: from the top, from a page's folder, from the folder of crates, or in a crate."""
        bases = [self.top, page.parent, self.top / "crates"]
        if path.split("/")[0] in OF_CRATES and page.parent not in self.crates:
            bases += self.crates
        ends = [path.rstrip("/") + suffix for suffix in SUFFIXES]
        if "*" in path or "NAME" in path:
            return [file for base in bases for end in ends for file in base.glob(end.replace("NAME", "*"))]
        return [base / end for base in bases for end in ends if (base / end).exists()]

    @functools.cached_property
    def modules(self) -> dict[str, list[Path]]:
        """The files of each module of definitions and lemmas."""
        modules: dict[str, list[Path]] = {}
        for path in self.paths:
            if path.suffix == ".antt" and path.parent.name in ("specs", "proofs"):
                modules.setdefault(path.stem, []).append(path)
        return modules

    def defines(self, module: str, word: str, page: Path) -> bool:
        """Whether a module has a word, or a module of the page's crate has both, as a record and a field of it."""
        files = self.found(module, page) if "/" in module else self.modules[module]
        if any(has_word(file, word) for file in files if file.is_file()):
            return True
        return any(has_word(file, module) and has_word(file, word) for file in page.parent.glob("specs/*.antt"))

    @functools.cache
    def words_of(self, crate: str) -> set[str]:
        """The words of a crate's sources."""
        return set().union(*map(words_in, (self.top / "crates" / crate / "src").glob("*.rt")))

    @functools.cached_property
    def paths_of(self) -> dict[str, list[Path]]:
        """The sources, definitions and lemmas of each crate."""
        paths: dict[str, list[Path]] = {crate.name: [] for crate in self.crates}
        for path in self.paths:
            parts = path.relative_to(self.top).parts
            if parts[0] == "crates" and len(parts) > 3 and path.suffix in (".rt", ".antt"):
                paths[parts[1]].append(path)
        return paths

    @functools.cache
    def names_of(self, crate: str) -> set[str]:
        """The words of a crate's sources, definitions and lemmas, and its name."""
        return set().union({crate}, *(words_in(path) for path in self.paths_of[crate]))

    @functools.cached_property
    def all_names(self) -> set[str]:
        """The names of all crates, and the words of the other folders with items."""
        others = [path for path in self.paths if path.relative_to(self.top).parts[0] in OTHERS and path.suffix != ".md"]
        texts = [path for path in others if path.suffix in (".h", ".hpp", ".c", ".cpp", ".py", ".rs", ".sh")]
        return set().union(*(self.names_of(crate.name) for crate in self.crates), *map(words_in, texts))

    @functools.cache
    def names_on(self, page: Path) -> set[str]:
        """What a single word of a crate's README may name: what this crate has, and the crates that the page names."""
        named = words_in(page) & {crate.name for crate in self.crates}
        return set().union(*(self.names_of(crate) for crate in {page.parent.name, *named}))

    def is_unknown(self, word: str, page: Path) -> bool:
        """Whether a single word names nothing."""
        if page.parent in self.crates:
            return word not in self.names_on(page)
        return LIKE_AN_ITEM.fullmatch(word) is not None and word not in self.all_names

    def is_missing(self, span: str, page: Path) -> bool:
        """Whether a code span names what there is not."""
        if match := DEFINITION.fullmatch(span):
            return ("/" in span or match[1] in self.modules) and not self.defines(match[1], match[2], page)
        if PATH.fullmatch(span):
            first = span.split("/")[0]
            return (first in self.firsts or first in OF_CRATES) and not self.found(span, page)
        if match := METHOD.match(span):
            return not any({match[1], match[2]} <= self.words_of(crate.name) for crate in self.crates)
        if match := ITEM.match(span):
            return self.top / "crates" / match[1] in self.crates and match[2] not in self.words_of(match[1])
        if WORD.fullmatch(span):
            return self.is_unknown(span, page)
        return NAME.fullmatch(span) is not None and span not in self.names


def fault_of_link(link: str, page: Path) -> str:
    """What is wrong with a link of a page: nothing, or a sentence."""
    path, _, anchor = link.partition("#")
    target = page.parent / path if path else page
    if not target.exists():
        return f"{link}: no file of this name"
    if anchor and anchor not in markdown.headings(target.read_text()):
        return f"{link}: no heading for this anchor"
    return ""


def main() -> None:
    top = Path(sys.argv[1])
    files = Files(top)
    for page in markdown.pages(top):
        text = page.read_text()
        at = page.relative_to(top)
        for number, link in markdown.links(text):
            if fault := fault_of_link(link, page):
                print(f"{at}:{number}: {fault}")
        for number, span in markdown.spans(text):
            if files.is_missing(span, page):
                print(f"{at}:{number}: {span}: nothing has this name")


main()
