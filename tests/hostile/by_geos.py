"""Calls the routines of strangers of a folder, each under the grants of its row of the table and then under all, on a new file:
`by_geos.py GEOS FOLDER FILE`. The host's routines are in the same image, behind those of the stranger. tests/hostile/judge.sh says what this
prints."""

import re
import subprocess
import sys
from pathlib import Path

# How a refusal names each effect, and its bit.
BITS = {
    "outputs": 1,
    "uses memory": 2,
    "locks by handle": 4,
    "reads the file": 8,
    "changes the file": 16,
    "changes the map": 32,
    "commits": 64,
    "reads s0": 256,
    "changes s0": 4096,
}


def listed(lines):
    return ",".join(lines) or "-"


class Host:
    def __init__(self, geos, folder, path):
        self.geos, self.folder, self.path = geos, Path(folder), Path(path)
        self.text = self.path.with_suffix(".asm")

    def lines(self, name):
        return (self.folder / f"{name}.asm").read_text().splitlines()

    def script(self, *lines, granted=()):
        """Calls of one run, and a commit only where the script has it."""
        script = "".join(f"{line}\n" for line in lines)
        return subprocess.run([self.geos, "call", self.text, "--file", self.path, *granted], input=script, capture_output=True, text=True)

    def output(self, *lines):
        done = self.script(*lines)
        return done.stdout.split() if done.returncode == 0 else [done.stderr]

    def refused(self, name, grants, lent):
        """The effect, the routine and the instruction for which it is refused, and whether the file is as before."""
        before = self.path.read_bytes()
        done = self.script("call prepare", f"call {name} {lent}", granted=("--grant", grants))
        found = re.fullmatch(r"refused: (\w+) (.*) \((\w+) at line (\d+)\)\n", done.stderr)
        if not found or done.stdout or self.path.read_bytes() != before:
            return f"{done.stdout}{done.stderr}"
        lines = self.text.read_text().splitlines()
        routines = [line.split()[1] for line in lines if line.startswith("routine ")]
        # An instruction is indented, and so are the lines `in` and `out`.
        places = [n for n, line in enumerate(lines, 1) if line.startswith(" ") and line.split()[0] not in ("in", "out")]
        return f"{BITS.get(found[2], found[2])} {routines.index(found[1])} {places.index(int(found[4]))}"

    def judge(self, name, grants, lent):
        self.text.write_text("\n".join([*self.lines(name), *self.lines("host"), ""]))
        self.path.unlink(missing_ok=True)
        subprocess.run([self.geos, "new", self.path], check=True)
        self.output("call setup", "save")
        lent = "" if lent == "-" else " ".join(f"@{handle}" for handle in lent.split(","))
        refused = self.refused(name, grants, lent)
        kept = self.output("call prepare", "call look")
        said = self.output("call prepare", f"call {name} {lent}", "call look")
        opened = self.output("call look")
        print(name, refused, listed(kept), listed(said[: -len(kept)]), listed(said[-len(kept) :]), listed(opened))


def main():
    host = Host(*sys.argv[1:])
    for line in (host.folder / "table").read_text().splitlines():
        if not line.startswith("#"):
            name, grants, _, lent = line.split()[:4]
            host.judge(name, grants, lent)


if __name__ == "__main__":
    main()
