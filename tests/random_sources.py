"""Makes random sources of the structured language, compiles and runs each with GEOS, and runs it again in Python by what its statements mean
(language/meaning.py). Each call of a compiled source prints the same words and refusals both times. A source that is refused, also one whose
tokens were changed at random, is refused in one line that has a line and a column of it, and never for a fault of the compiler. A changed
source that is compiled runs the same in Python too. Warnings name just the routines that no public routine calls, and such a routine is
refused only if a call of it is refused too.

    python3 random_sources.py GEOS [COUNT [CHANGED [--counts]]]
"""

import collections
import random
import re
import subprocess
import sys
import tempfile
from pathlib import Path

sys.path.insert(0, str(Path(__file__).parent / "language"))

from meaning import Program, Wrong  # noqa: E402
from programs import Writer, called  # noqa: E402
from reading import uncalled  # noqa: E402

CALLS = 12
# Sources whose files get larger than this are left out: the file would have no room.
LARGE = 40_000
# A changed source with a public routine that may take more steps is not run.
MOST_STEPS = 1_000_000
FAULT = re.compile(r"line \d+, column \d+: .+\n")
TOKENS = re.compile(r"\s+|//[^\n]*|\w+|[=!<>]=|&&|\|\||<<|>>|->|\.\.|\W")
Call = tuple[str, list[int], list[int]]


def calls_of(writer: Writer, seed: int) -> list[Call]:
    """Random calls of the public routines."""
    chosen = random.Random(seed)
    calls = []
    for _ in range(CALLS):
        name, lent = chosen.choice(writer.publics)
        words = [chosen.choice([0, 1, 2, 3, 16, 18, chosen.randrange(65_536)]), chosen.choice([0, 1, 2, 5, 16]), chosen.randrange(7)]
        calls.append((name, words, [chosen.randrange(1, 4)] if lent else []))
    return calls


def printed(text: str, calls: list[Call]) -> list[str] | None:
    """What the calls print by the meaning of the source; `None` if the file gets large."""
    program, lines = Program(text), []
    for name, words, handles in calls:
        lines += program.call(name, words, handles)
        if program.memory.bytes_of_file() > LARGE:
            return None
    return lines


def warned(geos: str, path: Path) -> list[str]:
    """What `check` warns of."""
    ran = subprocess.run([geos, "--diagnostics", "check", str(path)], capture_output=True, text=True, check=False)
    return ran.stderr.splitlines()


def warnings(path: Path, text: str) -> list[str]:
    """What warnings are expected of a source."""
    return [f"{path}:{line}: warning: {name} is never called from a public routine: call it, or remove it" for line, name in uncalled(text)]


def refused(geos: str, path: Path, text: str) -> str:
    """What came of a source that is refused: `refused`, or that it is accepted if a public routine calls each other one."""
    path.write_text(called(text))
    ran = subprocess.run([geos, "check", str(path)], capture_output=True, text=True, check=False)
    return "refused" if ran.returncode else "only uncalled routines are refused, and called ones are not"


def run(geos: str, path: Path, calls: list[Call], *options: str) -> subprocess.CompletedProcess[str]:
    """Runs calls of a source."""
    lines = ["call " + " ".join([name, *map(str, words), *(f"@{h}" for h in handles)]) for name, words, handles in calls]
    command = [geos, "call", str(path), "--region", "16777216", *options]
    return subprocess.run(command, input="\n".join(lines) + "\n", capture_output=True, text=True, check=False)


def compare(geos: str, path: Path, seed: int) -> str:
    """What came of a source: `same`, `refused`, `large`, or how both differ."""
    writer = Writer(seed)
    text = writer.program()
    path.write_text(text)
    calls = calls_of(writer, seed)
    ran = run(geos, path, calls)
    if ran.returncode:
        told = FAULT.fullmatch(ran.stderr) and not ran.stdout and "fault of the compiler" not in ran.stderr
        return refused(geos, path, text) if told else f"status {ran.returncode}: {ran.stderr.strip()}"
    if warned(geos, path) != warnings(path, text):
        return f"warns of {warned(geos, path)}, expected {warnings(path, text)}"
    try:
        expected = printed(text, calls)
    except Wrong as wrong:
        return f"compiled, and {wrong}"
    if expected is None:
        return "large"
    return "same" if ran.stdout.splitlines() == expected else f"prints {ran.stdout.split()}, expected {expected}"


def changed(text: str, chosen: random.Random) -> str:
    """The source with one to three tokens left out, doubled, exchanged with the next or replaced by another one."""
    tokens = [token for token in TOKENS.findall(text) if not token.startswith("//")]
    for _ in range(chosen.randint(1, 3)):
        places = [place for place, token in enumerate(tokens) if not token.isspace()]
        k = chosen.randrange(len(places) - 1)
        at, after = places[k : k + 2]
        change = chosen.randrange(4)
        if change == 0:
            del tokens[at]
        elif change == 1:
            tokens.insert(at, tokens[at])
        elif change == 2:
            tokens[at], tokens[after] = tokens[after], tokens[at]
        else:
            tokens[at] = chosen.choice([tokens[chosen.choice(places)], *"{}();?=.,~\\'\"\0"])
    return "".join(tokens)


def faults_in(text: str, said: str) -> bool:
    """Whether a message names a place of the source, and no fault of the compiler."""
    place = re.fullmatch(r"line (\d+), column (\d+): .+\n", said)
    lines = text.split("\n")
    inside = place and int(place[1]) <= len(lines) and int(place[2]) <= len(lines[int(place[1]) - 1]) + 1
    return bool(inside) and "fault of the compiler" not in said


def within(program: Program, name: str, words: list[int]) -> list[int]:
    """The words of a call, each within the bound of its parameter."""
    parameters = [it for it in program.routines[name].parameters if it.kind == "word"]
    bounds = [65_535 if it.bound is None else program.word(it.bound, []) for it in parameters]
    return [word % (bound + 1) for word, bound in zip(words, [*bounds, *[65_535] * len(words)])]


def run_changed(geos: str, path: Path, text: str, seed: int) -> str:
    """What came of the calls of a changed source that is compiled: `same`, `large` or `long`, or how both differ."""
    program, chosen, calls = Program(text), random.Random(seed), []
    publics = [name for name, routine in program.routines.items() if routine.public]
    for _ in range(CALLS):
        name = chosen.choice(publics)
        words = within(program, name, [chosen.choice([0, 1, 2, 3, 16, 18]), chosen.choice([0, 1, 2, 5, 16]), chosen.randrange(7)])
        blocks = sum(it.kind == "block" for it in program.routines[name].parameters)
        calls.append((name, words, [chosen.randrange(1, 4) for _ in range(blocks)]))
    ran = run(geos, path, calls, "--most-steps", str(MOST_STEPS))
    if ran.stderr.startswith("refused: the budget of"):
        return "long"
    if ran.returncode:
        return f"status {ran.returncode}: {ran.stderr.strip()}"
    expected = printed(text, calls)
    if expected is None:
        return "large"
    return "same" if ran.stdout.splitlines() == expected else f"prints {ran.stdout.split()}, expected {expected}"


def check(geos: str, path: Path, seed: int) -> str:
    """What came of a changed source: `refused` at a place of it, `same`, `large` or `long` if it is compiled, or what is wrong."""
    text = changed(Writer(seed).program(), random.Random(seed))
    path.write_text(text)
    ran = subprocess.run([geos, "check", str(path)], capture_output=True, text=True, check=False)
    if ran.returncode:
        return "refused" if ran.returncode == 1 and faults_in(text, ran.stderr) else f"status {ran.returncode}: {ran.stderr.strip()}"
    try:
        return run_changed(geos, path, text, seed)
    except (Wrong, ValueError, LookupError, AttributeError, RecursionError) as wrong:
        return f"compiled, and {wrong!r}"


def count_results(kind: str, results: list[str]) -> collections.Counter[str]:
    """Prints what is wrong, and counts the results."""
    found: collections.Counter[str] = collections.Counter()
    for seed, result in enumerate(results):
        if result not in ("same", "refused", "large", "long"):
            print(f"{kind} {seed}: {result}")
            result = "wrong"
        found[result] += 1
    return found


def main() -> int:
    geos = sys.argv[1]
    count, changes = (int(word) for word in [*sys.argv[2:4], "200", "200"][:2])
    with tempfile.TemporaryDirectory() as folder:
        path = Path(folder) / "source.tkv"
        found = count_results("source", [compare(geos, path, seed) for seed in range(count)])
        of_changed = count_results("changed source", [check(geos, path, seed) for seed in range(changes)])
    same = found["same"]
    print(f"{count} sources, {found['wrong']} wrong" + ("" if same * 3 >= count else f", and only {same} of them ran"))
    print(f"{changes} changed sources, {of_changed['wrong']} wrong")
    if "--counts" in sys.argv:
        print(dict(found), dict(of_changed))
    return 0


if __name__ == "__main__":
    sys.exit(main())
