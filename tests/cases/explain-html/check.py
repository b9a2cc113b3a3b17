"""Compares pages of texts with what `geos explain` prints of them."""

import subprocess
import sys
from pathlib import Path

TOP, PROGRAM = Path(sys.argv[1]), sys.argv[2]
sys.path.insert(0, str(TOP / "tests" / "page"))
import pages

# The most bytes of a page beside its data.
MOST = 130_000


def explain(*words: str) -> subprocess.CompletedProcess:
    return subprocess.run([PROGRAM, "explain", *words], capture_output=True, check=False)


def compare(path: str, name: str) -> None:
    """Whether the page has the lines and the objects, and ends as `explain` does."""
    lines, page = explain(path), explain(path, "--html", "page.html")
    found = pages.read_text_page(Path("page.html"))
    printed = explain(path, "--json").stdout.decode().rstrip("\n").split("\n")
    objects = [line for line in printed if not line.startswith(('{"kind":"fault"', '{"kind":"end"'))]
    wrong = []
    if page.stdout or (page.returncode, page.stderr) != (lines.returncode, lines.stderr):
        wrong.append("the end")
    if found.shows != "faulty" and pages.without_refusals(found.text) != pages.without_refusals(lines.stdout.decode(errors="replace")):
        wrong.append("the lines")
    if found.shows == "faulty" and found.text.encode(errors="replace") != Path(path).read_bytes().decode(errors="replace").encode(errors="replace"):
        wrong.append("the text")
    if found.objects != objects or found.file != path:
        wrong.append("the objects")
    if not found.is_alone or found.around > MOST:
        wrong.append("the page")
    print(f"{name}: {found.shows}, {len(objects)} objects, {'differs in ' + ', '.join(wrong) if wrong else 'as explain'}")


for name in "records.asm", "refused.asm", "counter.tkv":
    compare(str(TOP / "examples" / name), name)
subprocess.run([PROGRAM, "asm", str(TOP / "examples/loop.asm"), "loop.image"], check=True)
compare("loop.image", "an image")
Path("draft.asm").write_bytes(b"routine main public budget ?\n        RET\n")
compare("draft.asm", "a draft")
Path("marks.asm").write_bytes(b'# 90 "other.m4"\nroutine main public budget 9\n        MUNLOCK s0\n        RET\n')
explain("marks.asm", "--html", "page.html")
print("marks:", [line.split('"line":')[1].split(",")[0] for line in pages.read_text_page(Path("page.html")).objects])
Path("fault.asm").write_bytes(b"routine main public budget 1\n        LDI w0 70000\n        foo </pre></script>\n        RET\n")
compare("fault.asm", "faults")
Path("no rows.asm").write_bytes(b"routine main public budget 9\na:      JMP a\n")
compare("no rows.asm", "no rows")
Path("fault.tkv").write_bytes(b"routine main() {\n  let a = ;\n}\n")
compare("fault.tkv", "a faulty source")
Path("odd\x1b<b>&.asm").write_bytes(b"; </pre></script><b>&amp; \x01\x1b \xff\r\nroutine main public budget 1\r\n        RET ; a\rb\n")
compare("odd\x1b<b>&.asm", "odd bytes")
Path("empty.asm").write_bytes(b"")
compare("empty.asm", "an empty text")
