"""Compares pages of VM files with what `geos map` and `geos dump` print of them."""

import subprocess
import sys
from pathlib import Path

TOP, PROGRAM = Path(sys.argv[1]), sys.argv[2]
sys.path.insert(0, str(TOP / "tests" / "page"))
import pages

# The most bytes of a page beside its data.
MOST = 40_000


def geos(*words: str) -> str:
    return subprocess.run([PROGRAM, *words], capture_output=True, check=True).stdout.decode()


for path in sys.argv[3:]:
    printed = geos("map", path, "--html", "page.html")
    page = pages.read_text_page(Path("page.html"))
    objects = [line for line in geos("dump", path, "--chunks", "--json").rstrip("\n").split("\n") if not line.startswith('{"kind":"end"')]
    agrees = page.objects == objects and page.text == geos("map", path, "--width", "60") and page.file == path and not printed
    is_alone = page.is_alone and page.around < MOST
    print(f"{path}: {len(objects)} objects, {'as dump' if agrees else 'differs'}, {'alone' if is_alone else 'not alone'}")
