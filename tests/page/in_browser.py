"""Opens pages in a browser without a window, and goes through them.

    python3 in_browser.py walk PAGE [WIDTH]                        what walk.js finds in the page of a run
    python3 in_browser.py explained PAGE [WIDTH]                   what explained.js finds
    python3 in_browser.py played PAGE [WIDTH]                      what played.js finds
    python3 in_browser.py compare PAGE [WIDTH]                     what compare.js finds in a page of compare_model.py
    python3 in_browser.py mapped PAGE [WIDTH]                      what mapped.js finds
    python3 in_browser.py laboratory PAGE [WIDTH]                  what laboratory.js finds
    python3 in_browser.py picture PAGE FILE WIDTH HEIGHT [PLACE]   a screenshot, at a place as step=5

The pictures of examples/README.md are the page of a trace of moves.asm at step=10, and that of an explanation of records.asm at L42. Both
are 1120 pixels wide, and 640 and 620 high.
"""

import base64
import sys
import tempfile
from pathlib import Path

import png
from browser import Silent, browser

HERE = Path(__file__).resolve().parent
WATCH = """<script>window.faults = []; window.onerror = (said) => { window.faults.push(said); };
console.error = (...said) => { window.faults.push(said.join(" ")); };
window.answer = new Promise((done) => {
  window.tell = (said) => {
    const unnamed = [...document.querySelectorAll("a, button, input, svg")].filter((n) => !n.getAttribute("aria-label") && !n.textContent.trim());
    const wide = document.documentElement.scrollWidth > window.innerWidth ? "wider than the window" : "fits";
    done(`${said}, ${wide}, ${unnamed.length ? "no label" : "labels"}, faults: ${window.faults.join("; ") || "none"}`);
  };
});</script>"""
# The script of a page replaces its text and its data, so both are read before it runs.
DATA = """<script>window.text = document.getElementById("text").textContent;
window.objects = document.getElementById("data").textContent.trim().split("\\n").map((line) => JSON.parse(line));
window.shown_as = (text) => shown(text);</script>
"""
READ_BEFORE = ("explained", "mapped")


def walk(script: str, page: Path, width: str = "1200") -> None:
    """Goes through a page by a script, and prints what there is to say."""
    text = page.read_bytes().decode(errors="replace").replace("<head>\n", "<head>\n" + WATCH, 1)
    if script in READ_BEFORE:
        text = text.replace("</main>\n", "</main>\n" + DATA, 1)
    if (expected := page.with_suffix(".json")).exists():
        text = text.replace("</main>\n", f"</main>\n<script>window.expected = {expected.read_text().replace('<', chr(92) + 'u003c')};</script>\n", 1)
    text = text.replace("</body>", f"<script>\n{{{(HERE / script).with_suffix('.js').read_text()}}}\n</script>\n</body>")
    with tempfile.TemporaryDirectory() as folder:
        copy = Path(folder) / "page.html"
        copy.write_bytes(text.encode())
        try:
            with browser() as opened:
                print(opened.value(opened.open(copy, int(width), 900), "window.answer"))
        except Silent:
            print("the page said nothing")


def picture(page: Path, file: str, width: str, height: str, place: str = "") -> None:
    """A screenshot of a page at a place."""
    with browser() as opened:
        session = opened.open(page.resolve(), int(width), int(height), f"#{place}" if place else "")
        taken = opened.call("Page.captureScreenshot", session, format="png")
    Path(file).write_bytes(base64.b64decode(taken["data"]))
    png.shrink(Path(file))


if sys.argv[1] == "picture":
    picture(Path(sys.argv[2]), *sys.argv[3:])
else:
    walk(sys.argv[1], Path(sys.argv[2]), *sys.argv[3:])
