"""Compares the pages of runs with what `geos trace` prints of them."""

import re
import subprocess
import sys
from pathlib import Path

TOP, PROGRAM, FOLDER = Path(sys.argv[1]), sys.argv[2], Path(sys.argv[3])
sys.path.insert(0, str(TOP / "tests" / "page"))
import pages

# The most bytes of a page beside its data.
MOST = 300_000
# Where words and counters begin in a state.
FIRST = {"w": 1, "k": 9}
PLACE = re.compile(r"\b([wk])(\d)=(\d+)")


def printed(*words: str) -> str:
    return subprocess.run([PROGRAM, "trace", *words], capture_output=True, check=True).stdout.decode("latin-1")


def is_alone(page: pages.Page) -> bool:
    """Whether the page loads nothing, and nothing of the data ends a script."""
    text = page.bytes.decode("ascii")
    loads = re.search(r"<script[^>]*\ssrc|<link|<img|@import|url\(|fetch\(", text)
    return not loads and text.count("</script") == 2 and page.around < MOST


def steps_agree(page: pages.Page, lines: list[str]) -> bool:
    """Whether each step is at the pc of its line, and leaves what the line says."""
    states = page.run["states"]
    pcs: dict[str, set[int]] = {}
    for n, line in enumerate(lines):
        pcs.setdefault(line.split()[0], set()).add(states[n][0])
        for kind, register, value in PLACE.findall(line.partition("  ; ")[2]) if n + 1 < len(states) else []:
            if states[n + 1][FIRST[kind] + int(register)] != int(value):
                return False
    return len(states) == len(lines) and all(len(found) == 1 for found in pcs.values())


def compare(name: str, *words: str) -> None:
    page = pages.make(PROGRAM, FOLDER / "page.html", *words)
    text = printed(*words)
    agrees = page.run["traced"] == text and steps_agree(page, text.split("\n")[:-2])
    print(f"{name}: {'the steps agree' if agrees else 'differs'}, {'alone' if is_alone(page) else 'not alone'}")


def chunks(page: pages.Page) -> list:
    """The chunks that were noted last of a block with chunks."""
    return [block[5] for block in page.run["blocks"] if block[5]][-1]


compare("add", str(TOP / "examples/add.asm"), "add")
compare("heap", str(TOP / "examples/heap.asm"), "main")
compare("loop", str(TOP / "examples/loop.asm"), "doubles")

text = FOLDER / "with\x1b[31m\nnames.asm"
text.write_bytes(b'; </script><script>alert("1")</script>\\ \xff\nroutine main public budget 1\n        RET\n')
compare("a comment that ends a script", str(text), "main")
page = pages.read(FOLDER / "page.html")
print(page.run["file"].encode("latin-1") == bytes(text), ascii(page.run["explained"].split("\n")[0]))

# A word in a chunk: 77 is 4d 00. The chunk has the first handle.
page = pages.make(PROGRAM, FOLDER / "page.html", str(TOP / "examples/heap.asm"), "main")
chunk, at, length, digits = chunks(page)[0]
print(chunk, len(digits) == 2 * length, "4d00" in digits)

# Steps that are left out: the state before step 10 is the tenth one of the whole run.
whole = pages.make(PROGRAM, FOLDER / "page.html", str(TOP / "examples/loop.asm"), "doubles").run
for steps in "3", "10..12":
    page = pages.make(PROGRAM, FOLDER / "page.html", str(TOP / "examples/loop.asm"), "doubles", "--steps", steps)
    skipped, states = page.run["skipped"], page.run["states"]
    print(len(states), skipped, page.run["steps"])
    if states != whole["states"][skipped : skipped + len(states)] or page.run["traced"].split("\n")[: len(states)] != whole["traced"].split("\n")[skipped : skipped + len(states)]:
        print("the steps differ from those of the whole run")
