"""Writes the pages of `geos trace`, `explain` and `map`, without their data, as strings of the crates geos_trace and geos_pages.

    python3 tools/page.py [FOLDER]

FOLDER is crates/ if it is not given. A page is a file .html of page/, with styles and scripts of page/ in the order below.
"""

import re
import sys
from dataclasses import dataclass
from pathlib import Path

TOP = Path(__file__).resolve().parent.parent
HEAD = "//! {}. Made by tools/page.py from page/.\n"
# The script at which the part after a run is cut in two.
PANELS = "region.js"
# A line in the place of a style sheet.
STYLE = re.compile(r"/\* (\w+\.css) \*/\n")


def text_of(scripts: tuple[str, ...]) -> str:
    """Scripts as one."""
    return "\n".join((TOP / "page" / name).read_text() for name in scripts)


@dataclass
class Page:
    """A page: its file, its styles and its scripts."""

    name: str
    scripts: tuple[str, ...]

    @property
    def whole(self) -> str:
        """The page, with lines in the place of its data."""
        folder = TOP / "page"
        script = text_of(self.scripts)
        if "</script" in script:
            raise SystemExit("page: a script has `</script`, which would end it")
        whole = (folder / f"{self.name}.html").read_text()
        whole = STYLE.sub(lambda line: (folder / line[1]).read_text(), whole)
        return whole.replace("/* script */\n", script)

    def ends(self, *places: str) -> tuple[str, str]:
        """What precedes the first place, and what follows the last one."""
        return self.whole.split(places[0])[0], self.whole.split(places[-1])[1]


RUN = Page("run", ("shared.js", "listing.js", "bytes.js", "run.js", "region.js", "panels.js", "player.js"))
MODEL = ("heap.js", "arrays.js", "places.js", "kernel.js", "model.js", "machine.js")
# What pages of texts have, and the laboratory too.
PLAYING = ("shared.js", "listing.js", "bytes.js", "findings.js", *MODEL, "scene.js", "telling.js", "play.js")
EXPLAINED = Page("explain", (*PLAYING, "graph.js", "refused.js", "explain.js"))
MAP = Page("map", ("shared.js", "bytes.js", "map.js"))
PLACES = ("<!-- text -->\n", "<!-- data -->\n")


def literal(text: str) -> str:
    """A text as a string of the language."""
    if not text.isascii():
        raise SystemExit("page: it has characters that are not of ASCII")
    return '"' + text.replace("\\", "\\\\").replace('"', '\\"') + '"'


def write(file: Path, about: str, *constants: tuple[str, str, str]) -> None:
    """Writes a file with texts as constants: for each what it is, its name, and the text."""
    file.parent.mkdir(parents=True, exist_ok=True)
    parts = [f"\n/// {said}\npub(crate) const {name}: &str = {literal(text)};\n" for said, name, text in constants]
    file.write_text(HEAD.format(about) + "".join(parts))


def main(words: list[str]) -> None:
    folder = Path(words[0]) if words else TOP / "crates"
    trace, pages = folder / "geos_trace/src", folder / "geos_pages/src"
    before, after = RUN.ends("<!-- run -->\n")
    run = after[: after.index((TOP / "page" / PANELS).read_text())]
    write(trace / "page_begin.rt", "The page around a run", ("What precedes the run.", "BEFORE_RUN", before))
    write(trace / "page_run.rt", "The page around a run", ("What follows the run, up to the script of the panels.", "AFTER_RUN", run))
    write(trace / "page_panels.rt", "The page around a run", ("The rest of the page.", "PANELS", after[len(run) :]))
    before, after = EXPLAINED.ends(*PLACES)
    write(pages / "explained_page.rt", "The page around a text and its data", ("What precedes the text.", "BEFORE_EXPLAINED", before))
    write(pages / "explained_script.rt", "The page around a text and its data", ("What follows the data.", "AFTER_EXPLAINED", after))
    before, after = MAP.ends(*PLACES)
    write(pages / "map_page.rt", "The page around a VM file", ("What precedes the drawing.", "BEFORE_MAP", before), ("What follows the data.", "AFTER_MAP", after))


if __name__ == "__main__":
    main(sys.argv[1:])
