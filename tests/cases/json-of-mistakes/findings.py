"""Prints the findings on texts: where each is, its cause's line, and its cure.

    python3 findings.py PROGRAM

Standard input has the name of a text on each line, without `.asm`. Reports a cure or a line that the message does not have.
"""

import json
import re
import subprocess
import sys


def findings(program: str, name: str) -> list[dict]:
    done = subprocess.run([program, "check", f"{name}.asm", "--json"], stdin=subprocess.DEVNULL, capture_output=True)
    return [made for made in map(json.loads, done.stdout.splitlines()) if made["kind"] in ("error", "warning")]


def show(name: str, found: dict) -> None:
    message, line, cure = found["message"], found["cause_line"], found["cure"]
    where = [found["rule"] or found["kind"], f"line {found['line']}", found["register"] or ""]
    print(f"{name}: {' '.join(where).strip()}; cause {line}; cure {cure}")
    if line is not None and str(line) not in re.findall(r" line (\d+)", message):
        print(f"    line {line} is not named: {message}")
    if cure is not None and not all(part in message for part in cure.removeprefix("as ").split("; ")):
        print(f"    the cure is no part of: {message}")


def main() -> None:
    count = cured = 0
    for name in sys.stdin.read().split():
        for found in findings(sys.argv[1], name):
            show(name, found)
            count += 1
            cured += found["cure"] is not None
    print(f"{count} findings, {cured} with a cure")


main()
