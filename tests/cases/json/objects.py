"""Runs commands with --json, and compares each object that they print with a table of members and with the page on them.

    python3 objects.py PROGRAM PAGE

Standard input has a command on each line, its words as a shell has them; `< FILE` gives it an input. Prints each command, its status, and
each object in short.
"""

import json
import re
import shlex
import subprocess
import sys

TEXT, NUMBER, MAYBE_TEXT, MAYBE_NUMBER, ROWS = "text", "number", "text?", "number?", "rows"
FINDING = {
    "file": TEXT, "line": MAYBE_NUMBER, "column": MAYBE_NUMBER, "rule": MAYBE_TEXT, "routine": MAYBE_TEXT, "pc": MAYBE_NUMBER,
    "register": MAYBE_TEXT, "message": TEXT, "cause_line": MAYBE_NUMBER, "cure": MAYBE_TEXT,
}
PLACE = {"file": MAYBE_TEXT, "line": MAYBE_NUMBER, "routine": TEXT, "pc": NUMBER, "text": TEXT}
BLOCK = {"directory": TEXT, "handle": NUMBER, "uid": NUMBER, "size": NUMBER}
CHUNK = {"directory": TEXT, "handle": NUMBER, "size": NUMBER, "bytes": MAYBE_TEXT}
MEMBERS = {
    "error": FINDING,
    "warning": FINDING,
    "more": {"file": TEXT, "count": NUMBER},
    "effects": {"file": TEXT, "routine": TEXT, "effects": TEXT},
    "output": {"value": NUMBER},
    "refused": {"number": NUMBER},
    "steps": {"taken": NUMBER, "budget": NUMBER},
    "lost": {"file": TEXT, "blocks": NUMBER},
    "step": {"step": NUMBER, **PLACE, "did": TEXT, "words": 8, "counters": 4},
    "count": {"count": NUMBER, **PLACE},
    "map": {"directory": TEXT, "block": MAYBE_NUMBER, "group": MAYBE_NUMBER, "item": MAYBE_NUMBER},
    "block": BLOCK,
    "group": BLOCK,
    "chunk": {**CHUNK, "block": NUMBER},
    "item": {**CHUNK, "group": NUMBER},
    "array": {"rows": ROWS},
    "page": {"file": TEXT, "shows": TEXT},
    "fault": {"message": TEXT},
    "end": {"status": NUMBER},
}


def is_number(value: object) -> bool:
    return isinstance(value, int) and not isinstance(value, bool) and value >= 0


def fits(value: object, wanted: object) -> bool:
    if isinstance(wanted, int):
        return isinstance(value, list) and len(value) == wanted and all(map(is_number, value))
    if wanted == ROWS:
        return all(isinstance(field, str) or is_number(field) for row in value for field in row)
    if value is None:
        return str(wanted).endswith("?")
    return is_number(value) if str(wanted).startswith("number") else isinstance(value, str)


def once(pairs: list) -> dict:
    """An object, none of whose members comes twice."""
    if len(dict(pairs)) != len(pairs):
        raise ValueError("a member comes twice")
    return dict(pairs)


def check(line: bytes) -> dict:
    """The object on a line, or an error if it does not have the members of its kind."""
    made = json.loads(line.decode("utf-8"), object_pairs_hook=once)
    wanted = MEMBERS[made["kind"]]
    if made.keys() - {"kind"} != wanted.keys():
        raise ValueError(f"members {made.keys() ^ wanted.keys()}")
    for member, kind in wanted.items():
        if not fits(made[member], kind):
            raise ValueError(f"{member} is {made[member]!r}")
    return made


def shown(made: dict) -> str:
    values = [f"{member}={json.dumps(value)}" for member, value in made.items() if member != "kind" and value is not None]
    return " ".join([made["kind"], *values])


def run(program: str, line: str) -> None:
    words, _, given = line.partition(" < ")
    stdin = open(given.strip(), "rb") if given else subprocess.DEVNULL
    arguments = [word.encode("latin-1").decode("unicode_escape") for word in shlex.split(words)]
    done = subprocess.run([program, *arguments], stdin=stdin, capture_output=True)
    print(f"$ geos {line}\nstatus {done.returncode}")
    if "--json" not in words:
        return
    lines = done.stdout.splitlines(keepends=True)
    objects = [check(line) for line in lines]
    if not lines or not all(line.endswith(b"\n") for line in lines) or objects[-1] != {"kind": "end", "status": done.returncode}:
        print("the end is missing")
    for made in objects[:-1]:
        print(shown(made))
    faults = [made["message"] for made in objects if made["kind"] == "fault"]
    if done.stderr.decode().splitlines() != faults:
        print("standard error has", done.stderr)


def main() -> None:
    program, page = sys.argv[1:]
    for line in sys.stdin:
        run(program, line.rstrip("\n"))
    documented = open(page, encoding="utf-8").read()
    rows = re.findall(r"^\| (`[a-z`, ]+) \| (.*) \| .* \|$", documented.partition("|---")[2], re.MULTILINE)
    kinds = {kind: members for names, members in rows for kind in re.findall(r"`(\w+)`", names)}
    for kind, members in MEMBERS.items():
        if not members.keys() <= set(re.findall(r"`(\w+)`", kinds.get(kind, ""))):
            print(f"the page lacks members of {kind}")
    print("the page has", len(kinds), "kinds, and the table", len(MEMBERS))


main()
