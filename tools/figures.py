"""Draws the figures of docs/ as SVG files, from data of the repository.

    python3 tools/figures.py [FOLDER]

FOLDER is docs/figures if it is not given. The layers are those of crates.txt, what makes a pointer stale is from docs/INSTRUCTIONS.md, the
steps of a commit are from docs/FILES.md, and the potential is from the loop of examples/README.md. Colours follow the reader's light or
dark scheme.
"""

import re
import sys
from pathlib import Path
from xml.sax.saxutils import escape

TOP = Path(__file__).resolve().parent.parent
WIDTH = 860
# The crates that the figure of the layers names, of layers with more than five.
NAMED = (
    "geos_image geos_verify geos_semantics geos_machine granted_runs geos_source geos_infer geos_asm geos_listing geos_explain "
    "tkv_meaning tkv_places tkv_checks tkv_code tkv_theorem geos_shell geos_files geos_runs geos_cli language_server geos "
    "trials worked_examples"
).split()
# Estimated width of a letter, in pixels.
LETTER = 8.2

STYLE = """
  text { font: 13px sans-serif; fill: #1f2328 } .small { font-size: 12px; fill: #59636e } .head { font-weight: bold }
  .box { fill: #ddf4ff; stroke: #0969da } .band { fill: #f6f8fa; stroke: #d1d9e0 } .lost { fill: #ffebe9; stroke: #cf222e }
  .done { fill: #dafbe1; stroke: #1a7f37 } .line { stroke: #59636e; fill: none } .point { fill: #59636e }
  @media (prefers-color-scheme: dark) {
    text { fill: #f0f6fc } .small { fill: #9198a1 }
    .box { fill: #121d2f; stroke: #4493f8 } .band { fill: #151b23; stroke: #3d444d } .lost { fill: #25171c; stroke: #f85149 }
    .done { fill: #12261e; stroke: #3fb950 } .line { stroke: #9198a1 } .point { fill: #9198a1 }
  }
"""


class Drawing:
    """An SVG drawing under construction."""

    def __init__(self, title: str) -> None:
        self.title = title
        self.parts: list[str] = []

    def text(self, x: float, y: float, words: str, kind: str = "") -> None:
        """Words that begin at x, on a line at y."""
        self.parts.append(f'<text x="{x:g}" y="{y:g}" class="{kind}">{escape(words)}</text>')

    def box(self, x: float, y: float, size: tuple[float, float], kind: str = "box", words: str = "") -> None:
        """A box of this width and height, with words in its first line."""
        self.parts.append(f'<rect x="{x:g}" y="{y:g}" width="{size[0]:g}" height="{size[1]:g}" rx="4" class="{kind}"/>')
        if words:
            self.text(x + 8, y + 18, words)

    def arrow(self, begin: tuple[float, float], end: tuple[float, float], words: str = "") -> None:
        """An arrow, with words above its middle."""
        (x, y), (a, b) = begin, end
        self.parts.append(f'<path d="M{x:g} {y:g} L{a:g} {b:g}" class="line" marker-end="url(#end)"/>')
        if words:
            self.text((x + a - len(words) * LETTER) / 2, (y + b) / 2 - 6, words, "small")

    def svg(self, height: float) -> str:
        """The drawing as a file."""
        head = f'<svg xmlns="http://www.w3.org/2000/svg" viewBox="0 0 {WIDTH} {height:g}" role="img" aria-label="{escape(self.title)}">'
        mark = '<marker id="end" markerWidth="8" markerHeight="8" refX="7" refY="4" orient="auto"><path d="M0 0 L8 4 L0 8 z" class="point"/></marker>'
        return "\n".join([head, f"<title>{escape(self.title)}</title>", f"<style>{STYLE}</style>", f"<defs>{mark}</defs>", *self.parts, "</svg>\n"])


def read(path: str) -> str:
    return (TOP / path).read_text()


def layers_of(crates: str) -> list[tuple[str, list[str]]]:
    """The headings of crates.txt, each with its crates, the lowest first."""
    layers: list[tuple[str, list[str]]] = []
    for line in crates.splitlines():
        if line.startswith("# "):
            layers.append((line[2:], []))
        elif line:
            layers[-1][1].append(re.split(r"[ :]", line)[0])
    return layers


def layers() -> str:
    drawing = Drawing("The layers, the lowest at the bottom, each with some of its crates")
    y = 10.0
    for heading, crates in reversed(layers_of(read("crates.txt"))):
        shown = [crate for crate in crates if crate in NAMED] if len(crates) > 5 else crates
        more = len(crates) - len(shown)
        drawing.box(10, y, (WIDTH - 20, 46), "band")
        drawing.text(20, y + 19, heading, "head")
        drawing.text(20, y + 37, ", ".join(shown) + (f", and {more} more" if more else ""), "small")
        y += 52
    return drawing.svg(y + 4)


def moving(instructions: str, mark: str) -> list[str]:
    """The instructions whose effect has a mark, in the order of their table."""
    rows = re.findall(r"^\| \[[0-9a-f]{2}\]\S* \| \[([A-Z]+)\][^|]*\|([^|]*)\|", instructions, re.M)
    return [word for word, effect in rows if mark in effect]


def lines_of(words: list[str], most: int) -> list[str]:
    """Words in lines of at most so many letters."""
    lines = [""]
    for word in words:
        if lines[-1] and len(lines[-1]) + 1 + len(word) > most:
            lines.append("")
        lines[-1] = f"{lines[-1]} {word}".strip()
    return lines


def pointers() -> str:
    drawing = Drawing("From a handle to a chunk, and what makes a pointer stale")
    instructions = read("docs/INSTRUCTIONS.md")
    columns = (("word", "w0 = 3", "a block handle"), ("slot", "s0", "block 3, locked"), ("pointer", "p0", "into s0, 8 bytes"))
    for at, (kind, name, says) in enumerate(columns):
        x = 20 + at * 195
        drawing.text(x, 28, kind, "head")
        drawing.box(x, 40, (125, 48), "box", name)
        drawing.text(x + 8, 78, says, "small")
    drawing.arrow((145, 64), (213, 64), "MLOCK")
    drawing.arrow((340, 64), (408, 64), "DEREF")
    drawing.text(640, 28, "block 3 in the region", "head")
    drawing.box(640, 40, (200, 130), "band", "table of chunk handles")
    for at, words in enumerate(("chunk 16, 8 bytes", "chunk 18", "free")):
        drawing.box(652, 66 + at * 34, (176, 28), "band" if words == "free" else "box", words)
    drawing.arrow((535, 64), (650, 80))
    drawing.text(20, 128, "A handle stays valid.", "small")
    drawing.text(215, 128, "A locked block moves only when", "small")
    drawing.text(215, 144, "it grows; its chunks may move.", "small")
    causes = (
        ("the chunks of the block move", moving(instructions, "*moves*")),
        ("items move (s0: a group)", moving(instructions, "*moves items*")),
        ("the slot is unlocked", [word for word in moving(instructions, "empties sa")]),
    )
    drawing.text(20, 204, "p0 becomes stale when", "head")
    y = 216.0
    for cause, words in causes:
        lines = lines_of(words, 76)
        drawing.box(20, y, (820, 10 + 18 * len(lines)), "lost", cause)
        for at, line in enumerate(lines):
            drawing.text(240, y + 18 + 18 * at, line, "small")
        y += 18 + 18 * len(lines)
    drawing.text(20, y + 14, "Then DEREF fetches the pointer again, by the chunk handle, which is still valid.")
    return drawing.svg(y + 28)


def table_after(text: str, head: str) -> list[list[str]]:
    """The rows of the table whose head begins with these words."""
    rows = text[text.index(f"| {head}") :].split("\n\n")[0].splitlines()[2:]
    return [[cell.strip().replace("`", "") for cell in row.strip("|").split("|")] for row in rows]


def commit() -> str:
    drawing = Drawing("A commit, step by step, and what opening the file finds after a stop")
    heads = ("during this call", "area in use", "other area", "selector names", "after a stop, open finds")
    lefts = (20, 190, 340, 500, 660)
    for x, head in zip(lefts, heads):
        drawing.text(x, 24, head, "head")
    y = 36.0
    for cells in table_after(read("docs/FILES.md"), "During"):
        for call in cells[0].split(", "):
            drawing.text(lefts[0], y + 20, call)
            for x, width, words in zip(lefts[1:], (140, 150, 150, 180), ["old pair", *cells[1:]]):
                kind = "lost" if "part" in words or " or " in words else "done" if "new" in words else "box"
                drawing.box(x, y, (width, 28), kind, words)
            y += 38
    return drawing.svg(y + 4)


def potential() -> str:
    drawing = Drawing("The potential falls by at least one at each step of the loop example")
    listing = read("examples/README.md").split("## loop")[1].split("`doubles` prints")[0]
    steps = re.findall(r"^\d+\s+([A-Z]+) ?[^;\n]*; (?:[^,\n]*, )?(\d+)(?: \+ (\d+) k0)? steps?$", listing, re.M)
    counter = int(re.findall(r"SETK k0 (\d+)", listing)[0])
    body = [(word, int(base), int(per)) for word, base, per in steps if per]
    path = [(word, int(base)) for word, base, per in steps if not per]
    iterations = []
    for k in range(counter, -1, -1):
        iterations += [(f"{word} k0={k}" if word == "LOOP" else word, base + per * k) for word, base, per in body]
    # The loop is before the last instruction.
    path[-1:-1] = iterations
    height = max(value for _, value in path) * 12 + 40
    for at, (word, value) in enumerate(path):
        x = 16 + at * 56
        drawing.box(x, height - value * 12, (44, value * 12), "done" if word.startswith("LOOP") else "box")
        drawing.text(x + 14, height - value * 12 - 5, str(value), "small")
        for line, part in enumerate(word.split()):
            drawing.text(x, height + 16 + 14 * line, part, "small")
    return drawing.svg(height + 40)


def pipeline() -> str:
    drawing = Drawing("From source to run")
    boxes = (
        ("text or source", ["assembly, or the", "structured language"]),
        ("image", ["bytecode with rows", "and potentials"]),
        ("checked image", ["no rule refuses it", "at any instruction"]),
        ("machine and kernel", ["blocks that move,", "VM file on a device"]),
    )
    for at, (name, lines) in enumerate(boxes):
        x = 20 + at * 215
        drawing.box(x, 20, (155, 70), "done" if at == 2 else "box", name)
        for line, words in enumerate(lines):
            drawing.text(x + 8, 56 + 17 * line, words, "small")
        if at:
            drawing.arrow((x - 60, 55), (x - 3, 55), ("asm", "verify", "call")[at - 1])
    drawing.box(450, 126, (155, 48), "lost", "rejected")
    drawing.text(458, 164, "pc and rule, V1 to V14", "small")
    drawing.arrow((305, 92), (447, 140))
    drawing.text(20, 150, "The proof: each run of the machine is a run of the model,", "small")
    drawing.text(20, 167, "which has handles and bytes, and no addresses.", "small")
    return drawing.svg(190)


def host() -> str:
    drawing = Drawing("A commit through the library: the kernel notes steps, and the host performs them on the file")
    boxes = (
        ("program", ["calls", "takhvoi_file_save"]),
        ("kernel", ["blocks in memory,", "notes steps in order"]),
        ("host", ["performs the steps,", "one after another"]),
        ("VM file", ["opens as before the", "commit or as after it"]),
    )
    for at, (name, lines) in enumerate(boxes):
        x = 20 + at * 223
        drawing.box(x, 20, (150, 70), "done" if name == "VM file" else "box", name)
        for line, words in enumerate(lines):
            drawing.text(x + 8, 56 + 17 * line, words, "small")
        if at:
            drawing.arrow((x - 71, 44), (x - 3, 44), ("save", "steps", "pwrite")[at - 1])
    drawing.arrow((463, 72), (396, 72))
    drawing.text(398, 90, "performed", "small")
    drawing.text(20, 132, "Until all steps are performed, commits, runs and changes return TAKHVOI_PENDING.", "small")
    drawing.text(20, 150, "What the kernel notes is proved. The host is trusted: it is a C file of the library, or your own.", "small")
    return drawing.svg(164)


def main() -> None:
    folder = Path(sys.argv[1]) if len(sys.argv) > 1 else TOP / "docs" / "figures"
    folder.mkdir(parents=True, exist_ok=True)
    for draw in (layers, pointers, commit, potential, pipeline, host):
        (folder / f"{draw.__name__}.svg").write_text(draw())


main()
