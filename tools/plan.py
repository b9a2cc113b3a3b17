"""How long proofs take: each crate's seconds from a table, and as many crates at once as there are cores and uses allow."""

from __future__ import annotations

import heapq
from collections.abc import Collection, Mapping

from crates import TOP, Crate

UNLISTED = 60.0


def read_seconds() -> dict[str, float]:
    """The processor seconds of tools/seconds.txt by crate."""
    seconds = {}
    for line in (TOP / "tools" / "seconds.txt").read_text().splitlines():
        if line and not line.startswith("#"):
            name, count = line.split()
            seconds[name] = float(count)
    return seconds


class Plan:
    """A schedule of the proofs of some crates, given in the order of their uses: the longest chain of crates goes first."""

    def __init__(self, crates: list[Crate], cores: int) -> None:
        self.cores = cores
        self.uses = {crate.name: set(crate.uses) & {each.name for each in crates} for crate in crates}
        listed = read_seconds()
        self.seconds = {name: listed.get(name, UNLISTED) for name in self.uses}
        self.chain = self._chains()

    def _chains(self) -> dict[str, float]:
        """For each crate the seconds of the longest chain of crates from it to one that nothing uses."""
        chain = dict.fromkeys(self.uses, 0.0)
        for name in reversed(self.uses):
            chain[name] += self.seconds[name]
            for used in self.uses[name]:
                chain[used] = max(chain[used], chain[name])
        return chain

    def next(self, done: Collection[str], at_work: Collection[str]) -> list[str]:
        """The crates whose proofs begin now, on the cores that are idle."""
        ready = [name for name in self.uses if name not in done and name not in at_work and self.uses[name] <= set(done)]
        ready.sort(key=lambda name: -self.chain[name])
        return ready[: self.cores - len(at_work)]

    def left(self, done: Collection[str], at_work: Mapping[str, float]) -> float:
        """Seconds until all crates are proved. `at_work` has the seconds that each crate at work has already had."""
        done = set(done)
        clock = 0.0
        running = {name: max(self.seconds[name] - had, 1.0) for name, had in at_work.items()}
        ends = [(end, name) for name, end in running.items()]
        heapq.heapify(ends)
        while len(done) < len(self.uses):
            for name in self.next(done, running):
                running[name] = clock + self.seconds[name]
                heapq.heappush(ends, (running[name], name))
            clock, ended = heapq.heappop(ends)
            del running[ended]
            done.add(ended)
        return clock
