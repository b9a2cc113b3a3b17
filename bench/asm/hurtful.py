"""Times `geos asm` on texts that are made to hurt: 4,096 instructions or one MiB of text each. Beside each time stands its ratio to that
of a text of 4,095 additions, assembled in the same run. It fails where a ratio is past its bound, which is many times what was measured:
where no other is given, one that stands for some one second. Last comes `geos budget`, with its ratio to `asm` of the same text.

    python3 hurtful.py PROGRAM
"""

import random
import subprocess
import sys
import tempfile
import time
from pathlib import Path

HEAD = ["routine a public budget 4294967295"]
MOST_TEXT = 1_048_576
RUNS = 5
MOST_RATIO = 200
MOST_BUDGET_RATIO = 4


def heads(n):
    """Places that loops go back to."""
    return [f"h{i}: LDI w0 1" for i in range(n)]


def loops(order):
    """A LOOP back to each, with the four counters in turn."""
    return [f"LOOP k{i % 4} h{i}" for i in order]


def chain(n, begin):
    """So many blocks, each of which goes back to the one before it; the first hands the bounds of words on, and goes to the last."""
    moves = [f"MOV w{i} w{i + 1}" for i in range(7)]
    first = ["b0: " + moves[0], *moves[1:], "SUB w7 w7 w7", f"JMP b{n - 1}"]
    others = [line for i in range(1, n) for line in (f"b{i}: LOOP k0 b{i - 1}", "JMP x")]
    return [*HEAD, *begin, *first, *others, "x: RET"]


def tangle(n, most, seed):
    """So many LOOPs, branches and counters that are set, as they fall, each way over so many places at most."""
    fall = random.Random(seed)
    kinds = [
        lambda i: f"LOOP k{fall.randrange(4)} l{fall.randint(max(0, i - most), i)}",
        lambda i: f"BEQ w0 w1 l{fall.randint(i + 1, min(n, i + most))}",
        lambda i: f"SETK k{fall.randrange(4)} {fall.randrange(3)}",
        lambda i: "ADD w2 w2 w0",
    ]
    lines = [fall.choices(kinds, [3, 3, 3, 1])[0](i) for i in range(n)]
    return [*HEAD, *(f"SETK k{k} 3" for k in range(4)), *(f"l{i}: {line}" for i, line in enumerate(lines)), f"l{n}: RET"]


def wave(n, checks, last):
    """So many blocks, the last one in the text first, each of which raises a bound that flows on through these CHKs, and then the last
    instructions."""
    falls = [line for i in range(n) for line in (f"b{i}: LDI w0 {20_000 - i}", f"BEQ w1 w2 b{i - 1}" if i else "JMP x", "JMP x")]
    return [*HEAD, f"JMP b{n - 1}", *falls, "x: LDI w3 0", *["CHK w0 60000 e"] * checks, *last, "e: RET"]


def ladder(n):
    """So many LOOPs to one head, each behind one step more."""
    steps = [line for i in range(n) for line in (f"x{i}: BEQ w0 w1 y{i}", "LOOP k0 h", f"y{i}: ADD w0 w0 w1")]
    return [*HEAD, "SETK k0 2", "h: LDI w0 1", *steps, "RET"]


def one_back(n):
    """So many LOOPs, each of which goes one place back; what is dear lies behind the first place."""
    sets = [f"SETK k{k} 2" for k in range(4)]
    places = [line for i in range(1, n) for line in (f"v{i}: BEQ w0 w1 v{i + 1}", f"LOOP k1 v{i - 1}")]
    return [*HEAD, *sets, "JMP v1", "x: SETK k0 60000", "y: LOOP k0 y", "RET", "v0: JMP x", *places, f"v{n}: RET"]


def prices(n):
    """So many LOOPs, one behind the other, each with a SETK of its own number, and so many that go one place back, all in one loop."""
    sets = [line for i in range(n) for line in (f"f{i}: SETK k0 {60000 - i}", f"JMP s{i}")]
    places = [line for i in range(1, n) for line in (f"v{i}: BEQ w0 w1 v{i + 1}", f"LOOP k1 v{i - 1}")]
    begin = ["SETK k1 65535", "BEQ w0 w1 g", *(f"BEQ w0 w1 f{i}" for i in range(n)), "g: JMP v1"]
    end = [f"v{n}: LOOP k1 v{n - 1}", "RET", *(f"s{i}: LOOP k0 t" for i in range(n)), "z: RET", f"t: JMP v{n}"]
    return ["routine f budget 60000", "RET", *HEAD, *begin, *sets, "v0: CALL f", "JMP s0", *places, *end]


def zigzag(n, most, back=False):
    """A way that goes from low places to high ones and back n times, and so many LOOPs to its beginning; or all stand the last one first."""
    low = [f"l{i}: " + (f"JMP h{i}" if back or i == n - 1 else f"BEQ w0 w1 h{i}") for i in range(n)]
    high = [f"h{i}: JMP " + (f"l{i + 1}" if i < n - 1 else "z") for i in range(n)]
    if back:
        low, high = ["JMP l0", *reversed(low)], [*reversed(high)]
    return [*HEAD, "SETK k0 1", "top: LDI w0 0", *low, *high, "z: LDI w0 0", *["LOOP k0 top"] * most, "RET"]


def to_one_head(n, set_first, set_within, between=()):
    """So many LOOPs to one head, with the counters in turn that are set in front of it or behind it."""
    counters = [*set_first, *set_within]
    sets = [f"SETK {k} 1" for k in set_first]
    again = [f"SETK {k} 1" for k in set_within]
    return [*HEAD, *sets, "h: LDI w0 1", *again, *between, *(f"LOOP {counters[i % len(counters)]} h" for i in range(n)), "RET"]


def set_in_front(n, order):
    """So many heads, each behind a SETK of a counter in turn, and LOOPs to them in that order."""
    sets = [line for i in range(n) for line in (f"SETK k{i % 4} 1", f"h{i}: LDI w0 1")]
    return [*HEAD, *sets, *(f"LOOP k{i % 4} h{i}" for i in order), "RET"]


def set_for_the_next(n):
    """So many loops that cross, each of which sets the counter of the next one."""
    sets = [f"SETK k{k} 3" for k in range(4)]
    return [*HEAD, *sets, *(f"h{i}: SETK k{i % 4} 2" for i in range(n)), *(f"LOOP k{(i + 1) % 4} h{i}" for i in range(n)), "RET"]


def one_behind_another(n):
    """So many loops of one counter, one behind the other."""
    return [*HEAD, *(line for i in range(n) for line in ("SETK k0 1", f"h{i}: LDI w0 1", f"LOOP k0 h{i}")), "RET"]


def ring(n, order, ways_out):
    """So many LOOPs in this order, each to the next, the last one to the first; behind each a branch past the next one, or none."""
    branches = [[f"BEQ w0 w1 b{min(i + 2, n)}"] if ways_out else [] for i in range(n)]
    places = [line for i in order for line in (f"b{i}: LOOP k0 b{(i + 1) % n}", *branches[i], "JMP z")]
    return [*HEAD, "SETK k0 7", "JMP b0", *places, f"b{n}: LDI w0 1", "z: RET"]


def half_way(n):
    """So many places, from each second of which a LOOP goes half the way back."""
    lines = [f"LOOP k{i // 2 % 4} h{i // 2}" if i % 2 == 0 else f"BEQ w0 w1 h{min(i + 7, n - 1)}" for i in range(n)]
    return [*HEAD, *(f"SETK k{k} 3" for k in range(4)), *(f"h{i}: {line}" for i, line in enumerate(lines)), "RET"]


def set_behind(n):
    """So many loops with one of their own in each, behind which the counter of the next one's is set; each goes back to the one before it."""
    sets = [f"SETK k{k} 1" for k in range(4)]
    loops = [(f"h{i}: LDI w0 1", f"i{i}: LOOP k{i % 3} i{i}", f"SETK k{(i + 1) % 3} 1", f"LOOP k3 h{max(0, i - 1)}") for i in range(n)]
    return [*HEAD, *sets, *(line for lines in loops for line in lines), "RET"]


def own_numbers(n):
    """So many LOOPs, one behind the other, to one place, each with a SETK of its own number."""
    sets = [line for i in range(n) for line in (f"f{i}: SETK k0 {60000 - i}", f"JMP s{i}")]
    begin = [*(f"BEQ w0 w1 f{i}" for i in range(n)), "SETK k0 65535", "JMP s0"]
    return [*HEAD, *begin, *sets, *(f"s{i}: LOOP k0 t" for i in range(n)), "RET", "t: JMP s0"]


def ways_to_one_loop(n):
    """So many blocks that go back, one after another, each with a branch to one LOOP."""
    back = [line for i in range(n) for line in (f"b{i}: BEQ w0 w1 c", f"JMP b{i - 1}" if 0 < i else "JMP c")]
    return [*HEAD, "SETK k0 3", f"JMP b{n - 1}", *back, "c: ADD w0 w0 w0", "LOOP k0 c", "RET"]


def shuffled(n, seed):
    """So many places in any order, each with a LOOP back to one before it."""
    fall = random.Random(seed)
    order = list(range(n))
    fall.shuffle(order)
    places = []
    for i in order:
        ahead, counter, back = min(n, i + fall.choice([1, 2, 3, 50])), fall.randrange(4), fall.randint(0, i)
        places += [f"b{i}: BEQ w0 w1 b{ahead}", f"LOOP k{counter} b{back}", f"JMP b{i + 1}"]
    return [*HEAD, *(f"SETK k{k} 3" for k in range(4)), "JMP b0", *places, f"b{n}: RET"]


def chain_of_calls(n):
    """LOOPs as in `prices`, and 30 routines, each of which calls the one before it."""
    names = ["a", *(f"a{i}" for i in range(30))]
    calls = zip(names[1:], names)
    return [*prices(n), *(line for name, called in calls for line in (f"routine {name} budget 1", f"CALL {called}", "RET"))]


def texts():
    """Each text with what it is, and its bound where that is not the usual one."""
    n = 2040
    words = [f"LDI w{i} 0" for i in range(8)]
    yield "4,095 additions", [*HEAD, *["ADD w0 w0 w1"] * 4095, "RET"]
    yield "4,090 LOOPs to one head", [*HEAD, "SETK k0 1", "h: LDI w0 1", *["LOOP k0 h"] * 4090, "RET"]
    yield "2,040 loops, each in the next", [*HEAD, *heads(n), *loops(reversed(range(n))), "RET"]
    yield "2,040 loops that cross", [*HEAD, *heads(n), *loops(range(n)), "RET"]
    yield "2,040 loops round a way back that nothing pays", [*HEAD, *heads(n), "c: BEQ w0 w1 c", *loops(reversed(range(n))), "RET"]
    yield "2,000 blocks back, one after another", chain(2000, [*words, "SETK k0 65535", "JMP b1999"])
    yield "the same, reached by nothing", chain(2000, ["RET"])
    back = [f"b{i}: JMP " + (f"b{i - 1}" if 0 < i else "x") for i in range(4090)]
    yield "4,090 jumps back, one after another", [*HEAD, "JMP b4089", *back, "x: RET"]
    yield "680 blocks back, each of which raises a bound that flows through 2,030 CHKs", wave(680, 2030, []), 100
    yield "the same, and a way back that nothing pays", wave(680, 2030, ["c: BEQ w0 w1 c"]), 20
    yield "4,000 LOOPs, branches and counters that are set, as they fall", tangle(4000, 50, 39)
    yield "1,360 LOOPs to one head, each behind one step more", ladder(1360)
    yield "2,040 LOOPs that go one place back", one_back(2040)
    yield "670 LOOPs with a SETK of their own number, and a way back", prices(670)
    yield "a way of 1,020 steps to and fro, and 2,040 LOOPs to its beginning", zigzag(1020, 2040)
    yield "the same, the last place first", zigzag(1020, 2040, back=True)
    yield "1,360 LOOPs in any order", shuffled(1360, 39)
    yield "4,090 LOOPs to one head behind which their counter is set", to_one_head(4090, [], ["k0"])
    yield "4,088 LOOPs of four counters to one head", to_one_head(4085, ["k0", "k1", "k2", "k3"], [])
    yield "the same, one of them set behind it", to_one_head(4085, ["k1", "k2", "k3"], ["k0"])
    yield "2,040 LOOPs to one head, behind 2,040 ways ahead", to_one_head(2040, ["k0"], [], ["BEQ w0 w1 z"] * 2040 + ["z: LDI w0 0"])
    yield "1,360 loops, each in the next, with a SETK in front of each", set_in_front(1360, reversed(range(1360)))
    yield "1,360 LOOPs to heads far apart, with a SETK in front of each", set_in_front(1360, [7 * i % 1360 for i in range(1360)])
    yield "2,040 loops that cross, each of which sets the counter of the next", set_for_the_next(2040)
    yield "1,360 loops of one counter, one behind another", one_behind_another(1360)
    yield "2,040 LOOPs in a ring, the last one first", ring(2040, list(reversed(range(2040))), False)
    yield "1,360 LOOPs in a ring, in any order", ring(1360, random.Random(39).sample(range(1360), 1360), True)
    yield "4,088 places, from each second of which a LOOP goes half the way back", half_way(4088)
    yield "1,020 loops, behind each of which the counter of the next is set", set_behind(1020)
    yield "1,020 LOOPs to one place, each with a SETK of its own number", own_numbers(1020)
    yield "2,040 blocks back, each with a branch to one LOOP", ways_to_one_loop(2040)
    yield "1 MiB of labels", [*HEAD, *(f"L{i}:" for i in range(115_000)), "RET"]
    yield "1 MiB of one digit", [*HEAD, "LDI w0 " + "0" * 1_048_000 + "1", "RET"]
    yield "1 MiB of items of an entry row", [*HEAD, "in " + "w0<=9 " * 170_000, "RET"]


def least(program, command, text, out):
    """The least time of some runs of a command, in seconds."""
    times = []
    for _ in range(RUNS):
        start = time.perf_counter()
        subprocess.run([program, command, text, out], stderr=subprocess.DEVNULL, check=False)
        times.append(time.perf_counter() - start)
    return min(times)


def main():
    """Prints a line for each text."""
    base = None
    past = []
    with tempfile.TemporaryDirectory() as folder:
        text, out = Path(folder, "text.asm"), Path(folder, "out")
        for name, lines, *most in texts():
            written = "\n".join(lines) + "\n"
            assert len(written) <= MOST_TEXT, name
            text.write_text(written)
            taken = least(sys.argv[1], "asm", text, out)
            base = base or taken
            print(f"{name}: {1000 * taken:.0f} ms, {taken / base:.1f}")
            if (most[0] if most else MOST_RATIO) < taken / base:
                past.append(name)
        text.write_text("\n".join(chain_of_calls(670)) + "\n")
        taken = least(sys.argv[1], "budget", text, out)
        ratio = taken / least(sys.argv[1], "asm", text, out)
        print(f"budget of 30 CALLs in a chain, behind 670 LOOPs with a SETK of their own number: {1000 * taken:.0f} ms, {ratio:.1f} times its asm")
        if MOST_BUDGET_RATIO < ratio:
            past.append("budget")
    if past:
        sys.exit("past its bound: " + "; ".join(past))


main()
