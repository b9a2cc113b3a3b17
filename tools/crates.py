"""The crates of this repository, as crates.txt lists them, and the checksums of what each is built from."""

from __future__ import annotations

import hashlib
from dataclasses import dataclass
from pathlib import Path

TOP = Path(__file__).resolve().parent.parent
# What a proof of a crate reads, below the crate's folder.
PARTS = ("src", "specs", "proofs")


@dataclass(frozen=True)
class Crate:
    """A line of crates.txt: a crate and the libraries that it uses, of this repository and of the kit."""

    name: str
    is_static_library: bool
    uses: tuple[str, ...]
    line: str

    @property
    def folder(self) -> Path:
        return TOP / "crates" / self.name

    @property
    def is_program(self) -> bool:
        return (self.folder / "src" / "main.rt").is_file()

    @property
    def built(self) -> Path:
        """The program or the static library that a build leaves."""
        name = f"lib{self.name}.a" if self.is_static_library else self.name
        return self.folder / "out" / name

    @property
    def outputs(self) -> list[Path]:
        """All files that a build leaves. Beside a library lies the one that Rattle's own compiler makes."""
        if self.is_static_library:
            return [self.built.with_name(self.built.name + ".by-rattle"), self.built]
        return [self.built]


def read() -> dict[str, Crate]:
    """The crates of crates.txt by name."""
    crates = {}
    for line in (TOP / "crates.txt").read_text().splitlines():
        head, found, uses = line.partition("#")[0].partition(":")
        if found:
            name, *kind = head.split()
            crates[name] = Crate(name, kind == ["staticlib"], tuple(uses.split()), line)
    return crates


def below(crates: dict[str, Crate], name: str) -> list[Crate]:
    """The crates that a crate stands on, each after those that it uses, and the crate itself last."""
    found: dict[str, Crate] = {}

    def visit(crate: Crate) -> None:
        for used in crate.uses:
            if used in crates and used not in found:
                visit(crates[used])
        found[crate.name] = crate

    visit(crates[name])
    return list(found.values())


def sums(crates: dict[str, Crate], name: str) -> str:
    """One line for each file that the crate is built from, and for each line of crates.txt that says how."""
    lines = []
    for crate in below(crates, name):
        lines.append(crate.line)
        for part in PARTS:
            for file in sorted((crate.folder / part).rglob("*")):
                if file.is_file():
                    lines.append(f"{checksum(file)} {file.relative_to(TOP)}")
    return "\n".join(lines) + "\n"


def checksum(file: Path) -> str:
    """The SHA-256 of a file's bytes, in hexadecimal."""
    return hashlib.sha256(file.read_bytes()).hexdigest()
