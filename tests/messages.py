"""Reports messages of docs/ERRORS.md that no case of the program has in what it prints.

    python3 messages.py TOP

A message is a code span before the first colon of an item under the heading Messages. N, K and I are numbers there, NAME, PATH and WHY any
words, and `..` any end.
"""

import re
import sys
from pathlib import Path

PLACES = {"N": r"\S+", "K": r"\d+", "I": r"\d", "NAME": r"\w+", "PATH": r"\S+", "WHY": ".*", "..": ".*"}


def messages(text: str) -> list[str]:
    """The messages of the page."""
    section = text.split("\n## Messages\n")[1].split("\n## ")[0]
    items = re.findall(r"^- (`.*?)(?::|$)", re.sub(r"`[^`]*`", lambda span: span[0].replace(":", "\0"), section), re.M)
    return [span.replace("\0", ":") for item in items for span in re.findall(r"`([^`]*)`", item)]


def pattern(message: str) -> str:
    """What a line with the message is, as a regular expression."""
    parts = re.split(r"(\.\.|\b(?:NAME|PATH|WHY|N|K)\b|(?<=\bw)I\b|(?<=\bV)K\b)", message)
    return "".join(PLACES.get(part, re.escape(part)) for part in parts)


def main() -> None:
    top = Path(sys.argv[1])
    printed = "\n".join(file.read_text(errors="replace") for file in sorted(top.glob("tests/cases/*/std*")) if file.suffix != ".sh")
    for message in messages((top / "docs/ERRORS.md").read_text()):
        if not re.search(pattern(message), printed):
            print(f"no case prints: {message}")


main()
