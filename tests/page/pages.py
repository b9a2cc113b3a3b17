"""What pages hold, as the cases on `--html` read it."""

import json
import re
import subprocess
from dataclasses import dataclass
from pathlib import Path

BEFORE = b'<script type="application/json" id="run">\n'
AFTER = b"</script>"


@dataclass
class Page:
    """A page, and the run in it. Strings of the run have a character for each byte."""

    bytes: bytes
    run: dict

    @property
    def around(self) -> int:
        """How many bytes are no data."""
        return len(self.bytes) - len(self.bytes.split(BEFORE, 1)[1].split(AFTER, 1)[0])


def read(path: Path) -> Page:
    whole = path.read_bytes()
    return Page(whole, json.loads(whole.split(BEFORE, 1)[1].split(AFTER, 1)[0]))


def make(program: str, path: Path, *words: str) -> Page:
    """The page that the program writes to the path for these words of `trace`."""
    done = subprocess.run([program, "trace", *words, "--html", str(path)], capture_output=True, check=False)
    if done.returncode or done.stdout or done.stderr:
        raise SystemExit(f"trace {words}: {done.returncode} {done.stdout!r} {done.stderr!r}")
    return read(path)


LOADS = re.compile(r"<script[^>]*\ssrc|<link|<img|@import|url\(|fetch\(")
PARTS = re.compile(r'<pre id="text">\n(.*)</pre>\n<pre id="data" hidden>\n(.*)</pre>\n', re.S)


@dataclass
class TextPage:
    """A page of a text or a file: its text, and its objects, of which the first one says what it shows."""

    whole: str
    text: str
    head: dict
    objects: list[str]

    @property
    def shows(self) -> str:
        return self.head["shows"]

    @property
    def file(self) -> str:
        return self.head["file"]

    @property
    def around(self) -> int:
        """How many bytes are no data."""
        return len(PARTS.sub("", self.whole))

    @property
    def is_alone(self) -> bool:
        """Whether the page loads nothing, and no data end an element."""
        return not LOADS.search(self.whole) and self.whole.count("</script") == 1 and self.whole.count("</pre") == 2


def unescaped(text: str) -> str:
    return text.replace("&#13;", "\r").replace("&lt;", "<").replace("&amp;", "&")


def read_text_page(path: Path) -> TextPage:
    whole = path.read_bytes().decode(errors="replace")
    text, data = PARTS.search(whole).groups()
    head, *objects = unescaped(data).rstrip("\n").split("\n")
    return TextPage(whole, unescaped(text), json.loads(head), objects)


def without_refusals(text: str) -> list[str]:
    """The lines without the comments that `explain` adds."""
    return [line for line in text.split("\n") if line and not line.startswith("; ")]
