"""Loads the routines of strangers of a folder, each under the grants of its row of the table and then under all, and runs it on a new file:
`hostile FOLDER FILE`. tests/hostile/judge.sh says what it prints."""

import contextlib
import sys
from pathlib import Path

from takhvoi import Effect, Error, Kernel, assemble


def listed(words):
    return ",".join(map(str, words)) or "-"


class Host:
    def __init__(self, folder, path):
        self.folder, self.path = Path(folder), Path(path)

    def image_of(self, name):
        return assemble((self.folder / f"{name}.asm").read_text())

    def own(self, kernel, name):
        """Runs one of the host's own routines: what it puts out."""
        with kernel.load(self.image_of("host")) as image:
            return listed(image.run(name).output)

    def attack(self, kernel, name, lent):
        """Runs the stranger's routine with everything granted: what it puts out."""
        with kernel.load(self.image_of(name), Effect.ALL) as image, contextlib.ExitStack() as locks:
            blocks = [locks.enter_context(kernel.lock_file_block(int(handle))) for handle in lent]
            return listed(image.run(name, lent=blocks).output)

    def refused(self, kernel, name, grants):
        """Why it is not loaded."""
        try:
            kernel.load(self.image_of(name), Effect(int(grants)))
        except Error as error:
            return f"{error.effect} {error.routine} {error.place}"
        return "it is loaded"

    def judge(self, name, grants, lent):
        self.path.unlink(missing_ok=True)
        with Kernel.create(self.path) as kernel:
            self.own(kernel, "setup")
            kernel.save()
            self.own(kernel, "prepare")
            with kernel.lock(1):
                said = [name, self.refused(kernel, name, grants), self.own(kernel, "look")]
                said += [self.attack(kernel, name, lent), self.own(kernel, "look")]
        with Kernel.open(self.path) as kernel:
            print(*said, self.own(kernel, "look"))


def main():
    host = Host(*sys.argv[1:])
    for line in (host.folder / "table").read_text().splitlines():
        if not line.startswith("#"):
            name, _, grants, lent = line.split()[:4]
            host.judge(name, grants, [] if lent == "-" else lent.split(","))


if __name__ == "__main__":
    main()
