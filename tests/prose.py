"""Reports what breaks the style of CONTRIBUTING.md: private words and long sentences in the Markdown files, in what the program prints as its
help, and in its messages; private words in the comments of all crates; and pages over their budget.

    python3 prose.py TOP DATA [--all] [HELP..]

where DATA is prose.toml, or another file of its form, and each HELP is a file with what a command prints as its help. The messages are those
that the cases expect. Prints a line for each finding, with the file, the line and the cure. For a page under `ceilings` it counts instead,
and reports what is above the count there; with `--all` it reports each place of these pages too.
"""

import re
import sys
import tomllib
from pathlib import Path

import markdown


def words_of(text: str) -> int:
    """How many words a page has, code and tables included."""
    return len(text.split())


def private_words(text: str, cures: dict[str, str]) -> list[str]:
    """A line for each word of the list in the text of a page."""
    found = []
    for number, sentence in markdown.sentences(text):
        for pattern, cure in cures.items():
            found += [f"{number}: '{match[0].strip()}': {cure}" for match in re.finditer(pattern, sentence)]
    return found


def long_sentences(text: str, most: int) -> list[str]:
    """A line for each sentence of a page that has more words."""
    counts = [(number, len(sentence.split())) for number, sentence in markdown.sentences(text)]
    return [f"{number}: a sentence of {count} words: split it, {most} are allowed" for number, count in counts if count > most]


def as_page(help_text: str) -> str:
    """What a command prints as its help, as a page: without the usage, and each indented line as an item of a list."""
    return re.sub(r"(?m)^ +(?=\S)", "- ", re.sub(r"(?ms)^Usage:.*?\n\n", "\n", help_text))


def check_text(name: str, text: str, data: dict) -> list[str]:
    """What breaks the style in a text of the program."""
    return [f"{name}:{line}" for line in private_words(text, data["words"]) + long_sentences(text, data["longest"])]


# What comes before a message in what the program prints.
MESSAGE = re.compile(r"(?:; refused by V\d+|error|warning|note): (.*)")


def messages(top: Path) -> dict[str, str]:
    """The messages that the cases expect, each with a file that has it; names of routines are left out."""
    found: dict[str, str] = {}
    for file in sorted(top.glob("tests/cases/*/std*")):
        for message in MESSAGE.findall(file.read_text(errors="replace")):
            found.setdefault(re.sub(r"\b(by|of) \w+", r"\1 NAME", message), str(file.relative_to(top)))
    return found


# A line that is a comment of a source or of a definition.
COMMENT = re.compile(r"\s*(?:--|//[/!]?)(?: (.*)|$)")


def comments(text: str) -> list[tuple[int, str]]:
    """The comments of a source, each with the number of its first line: lines that follow one another are one comment."""
    found: list[tuple[int, list[str]]] = []
    last = 0
    for number, line in enumerate(text.split("\n"), 1):
        if comment := COMMENT.match(line):
            if number != last + 1 or not found:
                found.append((number, []))
            found[-1][1].append(comment[1] or "")
            last = number
    return [(number, "\n".join(lines)) for number, lines in found]


def check_comments(name: str, text: str, words: dict[str, str]) -> list[str]:
    """The private words in the comments of a source. What a tool has made is not read."""
    if "Made by tools/" in text[:200]:
        return []
    lines = []
    for first, comment in comments(text):
        for found in private_words(comment, words):
            number, _, rest = found.partition(": ")
            lines.append(f"{name}:{first + int(number) - 1}: {rest}")
    return lines


def sources(top: Path) -> list[Path]:
    """The sources, definitions and lemmas of all crates."""
    return sorted(file for part in ("src", "specs", "proofs") for file in top.glob(f"crates/*/{part}/**/*") if file.suffix in (".rt", ".antt"))


def budget_of(page: str, data: dict) -> int:
    """How many words a page may have."""
    return data["budgets"].get(page, data["budget"])


def check_page(page: str, text: str, data: dict, every: bool) -> list[str]:
    """What breaks the style in one page."""
    words = words_of(text)
    private = private_words(text, data["words"])
    long = long_sentences(text, data["longest"])
    ceiling = data["ceilings"].get(page, {})
    lines = []
    most = ceiling.get("words", budget_of(page, data))
    if words > most:
        lines.append(f"{page}: {words} words: cut it, {most} are allowed")
    for name, found in (("private", private), ("long", long)):
        if every or name not in ceiling:
            lines += [f"{page}:{line}" for line in found]
        elif len(found) > ceiling[name]:
            lines.append(f"{page}: {len(found)} {name}: mend the new ones, {ceiling[name]} are allowed; --all shows each")
    return lines


def main() -> None:
    top = Path(sys.argv[1])
    data = tomllib.loads(Path(sys.argv[2]).read_text())
    texts = {str(page.relative_to(top)): page.read_text() for page in markdown.pages(top)}
    for page, text in texts.items():
        print("".join(line + "\n" for line in check_page(page, text, data, "--all" in sys.argv)), end="")
    for page in data["ceilings"].keys() - texts.keys():
        print(f"{page}: it is gone: take it out of the ceilings")
    total = sum(map(words_of, texts.values()))
    if total > data["total"]:
        print(f"all pages: {total} words: cut some, {data['total']} are allowed")
    for name in (word for word in sys.argv[3:] if word != "--all"):
        print("".join(line + "\n" for line in check_text(Path(name).name, as_page(Path(name).read_text()), data)), end="")
    for file in sources(top):
        lines = check_comments(str(file.relative_to(top)), file.read_text(), data["words"])
        print("".join(line + "\n" for line in lines), end="")
    for message, file in messages(top).items():
        print("".join(f"{file}: {line}\n" for line in private_words(message, data["words"])), end="")


main()
