"""Writes the laboratory: one HTML file with the library as a WebAssembly module, an editor, and the examples.

    python3 tools/laboratory.py MODULE PAGE

`library/wasm.sh` makes MODULE. PAGE loads nothing, so it can be sent by mail.
"""

import base64
import gzip
import json
import re
import sys
from pathlib import Path

from page import EXPLAINED, PLACES, PLAYING, TOP, Page, text_of

LABORATORY = Page("laboratory", ("library.js", "scripts.js", "steps.js", "laboratory.js"))
# Stands for the scripts that the laboratory and a page of a text have, so that the laboratory has them once.
PLAYED = "/* playing */\n"
# What separates the text of a page from its data.
BETWEEN = '</pre>\n<pre id="data" hidden>\n'


def reasons() -> dict[int, str]:
    """What each status of takhvoi.h says."""
    header = (TOP / "library/takhvoi.h").read_text()
    numbers = dict(re.findall(r"\b(TAKHVOI_[A-Z_]+) = (\d+)", header))
    said = re.findall(r'case (TAKHVOI_[A-Z_]+): return "([^"]*)"', header)
    return {int(numbers[name]): text for name, text in said}


def script_of(text: Path) -> str:
    """The script of an example: a file, the part of its session after the image, or a call of its first public routine."""
    script, session = text.with_suffix(".script"), text.with_suffix(".session")
    if script.exists():
        return script.read_text()
    if session.exists():
        return session.read_text().split("end\n", 1)[1]
    return "call " + re.search(r"^(?:routine|pub fn) (\w+)(?= public|\()", text.read_text(), re.M)[1] + "\n"


def examples() -> list[dict[str, str]]:
    texts = sorted((TOP / "examples").glob("*.asm")) + sorted((TOP / "examples").glob("*.tkv"))
    return [{"name": text.name, "text": text.read_text(), "script": script_of(text)} for text in texts]


def page(module: bytes) -> str:
    before, after = EXPLAINED.ends(*PLACES)
    playing = text_of(PLAYING)
    given = {
        "module": base64.b64encode(gzip.compress(module, mtime=0)).decode(),
        "reasons": reasons(),
        "page": {"before": before, "between": BETWEEN, "after": after.replace(playing, PLAYED)},
        "examples": examples(),
    }
    return LABORATORY.whole.replace(PLAYED, playing).replace("<!-- given -->\n", json.dumps(given).replace("<", "\\u003c") + "\n")


def main(module: str, into: str) -> None:
    Path(into).write_text(page(Path(module).read_bytes()))


if __name__ == "__main__":
    main(*sys.argv[1:])
