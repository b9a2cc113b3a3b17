"""What geos prints of the laboratory's examples, and of texts with mistakes, as JSON: `laboratory.py TOP GEOS`. Of each example also the
steps of its script's first call, and what the page of `geos trace --html` has of them: states, blocks, and what is known at each line."""

import json
import re
import subprocess
import sys
import tempfile
from pathlib import Path

TOP, GEOS = Path(sys.argv[1]), sys.argv[2]
sys.path.insert(0, str(TOP / "tools"))

import laboratory  # noqa: E402
import pages  # noqa: E402

VERDICTS = {"accepted": r"\A(?!.*^; refused)\d+\t", "refused": r"^; refused by", "not assembled": ""}


def geos(*words: str, given: str = "") -> str:
    return subprocess.run([GEOS, *words], input=given, capture_output=True, text=True, check=False).stdout


def explained(text: str) -> str:
    with tempfile.NamedTemporaryFile("w", suffix=".asm") as file:
        file.write(text)
        file.flush()
        done = subprocess.run([GEOS, "explain", file.name], capture_output=True, text=True, check=False)
    return done.stdout or done.stderr


def verdict(said: str) -> str:
    return next(name for name, form in VERDICTS.items() if re.search(form, said, re.M | re.S))


def mistakes() -> list[dict[str, str]]:
    """The texts of the case mistakes, each after a line `== NAME`. The library does not read the output of cpp."""
    whole = "".join((TOP / "tests/cases/mistakes" / name).read_text() for name in ("first", "second"))
    texts = re.findall(r"^== (\S+)\n(.*?)(?=^== |\Z)", whole, re.M | re.S)
    return [{"name": name, "text": text, "explained": explained(text)} for name, text in texts if not text.startswith("# 1 ")]


def as_assembly(path: str) -> str:
    """The text whose lines the laboratory steps through: that of an example, or the listing of what it is compiled to."""
    if not path.endswith(".tkv"):
        return path
    image, listing = (str(Path(Path(path).name).with_suffix(suffix)) for suffix in (".image", ".asm"))
    geos("asm", path, image)
    Path(listing).write_text(geos("list", image))
    return listing


def traced(path: str, script: str) -> dict | None:
    """The steps of the first call of a script, which begins as `geos trace` does: with a new VM file and no memory block."""
    call = re.search(r"^[ \t]*call[ \t]+([^;=\n]*?)[ \t]*(?:->.*)?(?:=>.*)?(?:;.*)?$", script, re.M)
    if not call:
        return None
    lines = geos("trace", path, *call[1].split(), "--json").splitlines()
    steps = [step for step in map(json.loads, lines) if step["kind"] == "step"]
    run = pages.make(GEOS, Path("run.html"), path, *call[1].split()).run
    said = {name: run[name] for name in ("states", "blocks", "explained")}
    return {"steps": [{name: step[name] for name in ("line", "words", "counters", "did")} for step in steps], **said}


def examples() -> list[dict]:
    found = []
    for example in laboratory.examples():
        path = as_assembly(str(TOP / "examples" / example["name"]))
        said = explained(Path(path).read_text())
        is_accepted = verdict(said) == "accepted"
        printed = geos("call", path, given=example["script"]) if is_accepted else ""
        steps = traced(path, example["script"]) if is_accepted else None
        found.append({"name": example["name"], "verdict": verdict(said), "printed": printed, "traced": steps})
    return found


print(json.dumps({"texts": mistakes(), "examples": examples()}))
