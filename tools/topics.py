"""Writes the tables of the crate geos_topics, which `geos help TOPIC` prints, from the documents.

    python3 tools/topics.py [FILE]

FILE is crates/geos_topics/src/tables.rt if it is not given. Instructions and refusals are those of docs/INSTRUCTIONS.md, rules those of
docs/VERIFIER.md with the sentences of the case explain-each-rule and the cures of docs/ERRORS.md, and the faults of a text those of
docs/FORMATS.md. The example of an instruction is its first use in the texts of examples/.
"""

import re
import sys
from pathlib import Path

TOP = Path(__file__).resolve().parent.parent
# Where a line of a table's entry ends at most.
WIDTH = 92


def plain(words: str) -> str:
    """Markdown as a terminal shows it: links are their texts, and nothing is emphasized."""
    words = re.sub(r"\[([^]]*)\]\([^)]*\)", r"\1", words)
    words = re.sub(r"; \*moves( items)?\*", r". It *moves\1*: pointers to them become stale", words)
    words = words.replace("*moves*", "moves the chunks of the block").replace("*moves items*", "moves the items of the group")
    return re.sub(r"\s+", " ", re.sub(r"\*(\S[^*]*)\*", r"\1", words)).strip()


def table(page: str, head: str) -> list[list[str]]:
    """The cells of the table of a page whose first line begins with `head`, row by row."""
    lines = (TOP / "docs" / page).read_text().splitlines()
    first = next(n for n, line in enumerate(lines) if line.startswith(head))
    rows = []
    for line in lines[first + 2 :]:
        if not line.startswith("|"):
            break
        rows.append([plain(cell) for cell in line.strip("|").split("|")])
    return rows


def listed(page: str, before: str) -> dict[str, tuple[str, str]]:
    """The list of a page after some words: its items `- KEY `NAME`: WORDS` or `- KEY: WORDS`, by key. A name may be empty."""
    text = (TOP / "docs" / page).read_text().split(before, 1)[1].split("\n- ", 1)[1].split("\n\n", 1)[0]
    found = {}
    for item in text.split("\n- "):
        head, _, words = item.partition(": ")
        keys, _, name = head.partition(" `")
        for key in keys.split(", "):
            found[key] = (name.strip("`"), plain(words).removesuffix(" (below)").removesuffix(" below"))
    return found


def sentences() -> dict[str, str]:
    """What `geos explain` says of a refusal by each rule, from what the case explain-each-rule prints."""
    text = (TOP / "tests" / "cases" / "explain-each-rule" / "stdout").read_text()
    return dict(re.findall(r"^; refused by (V\d+): (.*)$", text, re.M))


def uses() -> dict[str, str]:
    """For each instruction its first use in the texts of examples/, and the file."""
    found: dict[str, str] = {}
    for file in sorted((TOP / "examples").glob("*.asm")):
        for line in file.read_text().splitlines():
            words = re.sub(r"^(\w+:\s*)+", "", line.partition(";")[0].strip()).split()
            if words and words[0].isupper() and file.name != "refused.asm":
                found.setdefault(words[0], f"{' '.join(words)}    (in examples/{file.name})")
    return found


def folded(words: str) -> str:
    """A text in lines of at most WIDTH letters, each with its end."""
    lines = [""]
    for word in words.split(" "):
        if lines[-1] and len(lines[-1]) + 1 + len(word) > WIDTH:
            lines.append("")
        lines[-1] += (" " if lines[-1] else "") + word
    return "".join(line + "\n" for line in lines)


def constant(name: str, about: str, entries: list[str]) -> str:
    """A text of Rust that has the entries, with an empty line between two."""
    words = "\n".join(entries).rstrip("\n").replace("\\", "\\\\").replace('"', '\\"')
    return f'/// {about}\npub(crate) const {name}: &str = "\\\n{words}";\n'


def main() -> None:
    """Writes the file."""
    file = Path(sys.argv[1]) if len(sys.argv) > 1 else TOP / "crates" / "geos_topics" / "src" / "tables.rt"
    refusals = listed("INSTRUCTIONS.md", "The numbers, with their names")
    examples = uses()
    instructions = {}
    for _, text, effect, numbers in table("INSTRUCTIONS.md", "| Code |"):
        refused = [f"{n} ({refusals[n][1]})" for n in dict.fromkeys(numbers.split(", ")) if n]
        words = f"{text}\n" + folded(f"{effect}.")
        if refused:
            words += folded(f"It is refused, with the number in w7, and control goes to L: {'; '.join(refused)}.")
        if text.split()[0] in examples:
            words += f"Example: {examples[text.split()[0]]}\n"
        instructions[text.split()[0]] = words
    cures = listed("ERRORS.md", "More cures")
    said = sentences()
    told = [
        f"{rule} {name}\n"
        + folded(f"It refuses: {words}.")
        + folded(f"Example: {said[rule]}")
        + (folded(f"Cure: {cures[rule][1]}.") if rule in cures else "")
        for rule, (name, words) in listed("VERIFIER.md", "`geos_verify::Rule`").items()
    ]
    faults = [f"why {n} {name}\n" + folded(f"{words}.") for n, (name, words) in listed("FORMATS.md", "named as in").items()]
    refused = [f"refused {n} {name}\n" + folded(f"{words}.") for n, (name, words) in refusals.items()]
    parts = [
        "//! What is said of instructions, rules, refusals and faults. Made by tools/topics.py from the documents.\n",
        constant("INSTRUCTIONS", "What is said of each instruction. An entry begins with the instruction's name; an empty line is between two.",
                 list(instructions.values())),
        constant("OTHERS", "What is said of each rule of the verifier, each refusal, and each fault of a text.",
                 [*told, *refused, *faults]),
    ]
    file.write_text("\n".join(parts))


if __name__ == "__main__":
    main()
