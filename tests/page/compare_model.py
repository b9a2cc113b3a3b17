"""Makes random routines, runs each with GEOS, and again in the model of a page of `geos explain`. Both agree at each step: in words, counters,
slots, pointers, blocks with all their bytes, and output. The model runs in a browser without a window.

    python3 compare_model.py GEOS [COUNT [SEED]]
"""

import collections
import html
import json
import random
import re
import subprocess
import sys
import tempfile
from pathlib import Path

import pages
from random_routines import Writer

HERE = Path(__file__).resolve().parent
# How many routines a page has.
BATCH = 100
REGIONS = ["65536", "65536", "1048576"]
MOST_STEPS = 2_000
FOUND = re.compile(r"(\d+) routines, (\d+) steps, (.*), (?:fits|wider than the window), (?:labels|no label), faults: (.*)")
INSTRUCTION = re.compile(r"\b[A-Z]{2,}[A-Z0-9]*\b")


def case_of(geos: str, path: Path, seed: int) -> dict | None:
    """A random routine that GEOS accepts, and its run; `None` if it is refused, or has more steps than are compared."""
    chosen = random.Random(seed)
    text = Writer(seed).text()
    path.write_text(text)
    words, region = [chosen.choice([0, 1, 2, 16, 18, 65_535]) for _ in range(chosen.randint(0, 8))], chosen.choice(REGIONS)
    command = [geos, "trace", str(path), "main", *map(str, words), "--region", region, "--html", "-"]
    done = subprocess.run(command, capture_output=True, check=False)
    if done.returncode:
        return None
    run = json.loads(done.stdout.split(pages.BEFORE, 1)[1].split(pages.AFTER, 1)[0])
    if run["steps"] > MOST_STEPS or run["states_cut"] or run["blocks_cut"]:
        return None
    kept = {name: run[name] for name in ("states", "blocks", "output", "steps")}
    return {"seed": seed, "text": text, "words": words, "region": int(region), "run": kept}


def page_of(geos: str, path: Path, cases: list[dict]) -> None:
    """A page of `geos explain`, with cases beside its script."""
    path.with_suffix(".asm").write_text("routine main public budget 1\n        RET\n")
    subprocess.run([geos, "explain", path.with_suffix(".asm"), "--html", path], check=True)
    data = json.dumps(cases).replace("<", "\\u003c")
    page = path.read_text().replace("</footer>\n", f'</footer>\n<script type="application/json" id="cases">{data}</script>\n', 1)
    path.write_text(page)


def compared(geos: str, folder: Path, cases: list[dict]) -> str:
    page = folder / "model.html"
    page_of(geos, page, cases)
    done = subprocess.run([sys.executable, "-B", HERE / "in_browser.py", "compare", page], capture_output=True, text=True, check=False)
    return html.unescape(done.stdout.strip())


def main(geos: str, count: int = 2_000, seed: int = 1) -> int:
    cases, used, refused = [], collections.Counter(), 0
    with tempfile.TemporaryDirectory() as name:
        folder = Path(name)
        while len(cases) < count:
            case = case_of(geos, folder / "main.asm", seed)
            seed += 1
            if case is None:
                refused += 1
                continue
            cases.append(case)
            used.update(set(INSTRUCTION.findall(case["text"])))
        total = 0
        for first in range(0, count, BATCH):
            said = compared(geos, folder, cases[first : first + BATCH])
            found = FOUND.fullmatch(said)
            if not found or found[3] != "all agree" or found[4] != "none":
                print(said)
                return 1
            total += int(found[2])
    print(f"{count} routines agree, {len(used)} instructions")
    print(f"{total} steps, {refused} texts left out", file=sys.stderr)
    return 0


if __name__ == "__main__":
    sys.exit(main(sys.argv[1], *map(int, sys.argv[2:])))
