"""Shows how far the proofs of a build are: on a terminal one line that is rewritten, otherwise one line for each crate."""

from __future__ import annotations

import os
import re
import threading
import time

import streams
from plan import Plan

# What `rt ci` prints once a crate is proved, or was proved by an earlier run. It prints nothing when a proof begins.
PROVED = re.compile(r"rt: (\w+) (proved|is kept:.*)$")


def minutes(seconds: float) -> int:
    """Whole minutes, rounded up."""
    return int(-(-seconds // 60))


class Progress:
    """Reads the lines of `rt ci`. Shows the crates done of all, those at work as planned, and the minutes gone and left."""

    def __init__(self, plan: Plan) -> None:
        self.plan = plan
        self.rewrites = os.isatty(2)
        self.begun = time.monotonic()
        self.done: set[str] = set()
        self.at_work: dict[str, float] = {}
        self.ended = threading.Event()
        self._begin()
        if self.rewrites:
            threading.Thread(target=self._tick, daemon=True).start()

    def _tick(self) -> None:
        """Rewrites the line every two seconds."""
        while not self.ended.wait(2):
            self.show("")

    def _begin(self) -> None:
        now = time.monotonic()
        self.at_work.update(dict.fromkeys(self.plan.next(self.done, self.at_work), now))

    def read(self, line: str) -> None:
        """Takes one line of `rt ci`, and shows what it changes."""
        proved = PROVED.match(line)
        if proved and proved[1] in self.plan.uses and proved[1] not in self.done:
            self.done.add(proved[1])
            self.at_work.pop(proved[1], None)
            self._begin()
            self.show(f"{proved[1]} is proved")

    def show(self, event: str) -> None:
        """Shows one line. Only a screen that keeps its lines is told of the event."""
        now = time.monotonic()
        left = self.plan.left(self.done, {name: now - begun for name, begun in self.at_work.items()})
        count = f"{len(self.done)} of {len(self.plan.uses)} crates"
        clock = f"{int(now - self.begun) // 60} min gone, about {minutes(left)} min left"
        at_work = f"at work: {', '.join(self.at_work)}" if self.at_work else "compiling"
        if self.rewrites:
            streams.say(f"\r{f'build: {count}; {clock}; {at_work}'[:99]:<99}", end="")
        else:
            streams.say(f"build: {count}: {event}; {clock}; {at_work}")

    def end(self) -> None:
        """Ends a line that is rewritten."""
        self.ended.set()
        if self.rewrites:
            streams.say("")
