"""Times `geos check`, `list` and `explain` on images of 4,096 instructions that are made to hurt, and `explain` on their texts; and
`geos run` on scripts that are, and the trial of the kernel's calls on a region that they are to hurt. Beside each time stands its ratio to
that of an image of 4,095 additions, or of the script before, in the same run. It fails where a command on an image takes more than MOST_RATIO
times as long as on that of additions, which stands for one or two seconds.

    python3 worst.py PROGRAM KERNEL_TRIALS
"""

import subprocess
import sys
import tempfile
import time
from pathlib import Path

MOST_BUDGET = 4_294_967_295
HEAD = f"routine a public budget {MOST_BUDGET}"
ADD = "ADD w0 w0 w1"
RUNS = 5
MOST_RATIO = 200

# Two pointers that LFREE makes stale, and further down COPY, which uses both: where they were lost is looked for from behind.
LOSES = ["MNEW s0 w0 e", "DEREF s0 p0 w1 8 u", "DEREF s0 p1 w1 8 u", "LFREE s0 w2 u"]
COPIES = ["COPY p0 p1 8", "u: MUNLOCK s0", "e: RET"]

# A region of 16 MiB is filled with blocks of global memory, and then with blocks of the file, which go where one more is to have room.
REGION = 16_777_216
ROUTINES = """
routine fill public budget 100000
        SETK k0 253
again:  MNEW s0 w0 end
        LDI w4 65498
        LALLOC s0 w7 w4 unlock
unlock: MUNLOCK s0
        LOOP k0 again
end:    RET

routine blocks public budget 100000
        SETK k0 999
        LDI w1 5
more:   VNEW s0 w0 w1 done
        VUNLOCK s0
        LOOP k0 more
done:   RET

routine grow public budget 100
        MNEW s0 w0 gone
        LDI w4 65498
        LALLOC s0 w7 w4 said
said:   OUT w7 free
free:   MUNLOCK s0
gone:   RET

routine half public budget 100000
        SETK k0 1023
        LDI w4 8170
each:   MNEW s0 w0 made
        LALLOC s0 w7 w4 kept
kept:   MUNLOCK s0
        LOOP k0 each
made:   RET
"""

# Each of 1,024 blocks grows in turn, and w5 counts those that have no room.
GROWS = """
        LDI w0 1
        LDI w1 1
        LDI w4 8000
        LDI w5 0
        SETK k0 1023
@next:  MLOCK s0 w0 @past
        LALLOC s0 w7 w4 @full
        JMP @larger
@full:  ADD w5 w5 w1
@larger: MUNLOCK s0
@past:  ADD w0 w0 w1
        LOOP k0 @next
        OUT w5 @end
@end:   RET
"""
ROUTINES += f"""
routine grow_each public budget 100000
{GROWS.replace("@", "each_")}
routine grow_others budget 50000
        in s1=mem s2=mem s3=mem
        out s1=mem s2=mem s3=mem
{GROWS.replace("@", "others_")}
routine grow_beside public budget 100000
        LDI w0 256
        MLOCK s1 w0 none
        LDI w0 512
        MLOCK s2 w0 one
        LDI w0 768
        MLOCK s3 w0 two
        CALL grow_others
        MUNLOCK s3
two:    MUNLOCK s2
one:    MUNLOCK s1
none:   RET
"""
FILLED = ["call fill", "call grow", "call blocks", "update"]
SCRIPTS = {
    "a script of no commands": [],
    "255 blocks of 65,520 bytes, 1,000 blocks of the file, update": FILLED,
    "the same, and a block that grows to 65,520 bytes": [*FILLED, "call grow"],
    "1,024 blocks of 8,192 bytes": ["call half"],
    "the same, each of which grows to 16,208 bytes": ["call half", "call grow_each"],
    "the same, while three are locked": ["call half", "call grow_beside"],
}


def calls(routines, length):
    """Routines of nothing but CALLs of the first one, which has additions."""
    first = length
    yield f"routine r0 budget {first}"
    yield from [ADD] * (length - 1)
    yield "RET"
    for r in range(1, routines):
        yield f"routine r{r} public budget {(length - 1) * (first + 1) + 1}"
        yield from ["CALL r0"] * (length - 1)
        yield "RET"


def forks(n):
    """Places to which two ways lead each."""
    for i in range(n):
        yield f"l{i}: BEQ w0 w1 l{i + 1}"
        yield f"LSIZE s0 w2 w3 l{i + 1}"
    yield f"l{n}: {COPIES[0]}"


def back(n):
    """Jumps each of which leads to the one before it in the text."""
    yield "JMP l1"
    yield f"l{n + 1}: RET"
    yield from (f"l{k}: JMP l{k + 1}" for k in range(n, 0, -1))


def one_back(image, first, count):
    """The image, of one routine, where so many instructions from one on have the instruction before them as their target."""
    changed = bytearray(image)
    for pc in range(first, first + count):
        at = 108 + 10 * pc + 8
        changed[at : at + 2] = (pc - 1).to_bytes(2, "little")
    return bytes(changed)


def refusable(n):
    """The use of a pointer that is set nowhere, so many calls that can be refused, and one that sets it."""
    yield "LDB w0 p0 0"
    yield from (f"l{i}: LSIZE s0 w2 w3 l{i + 1}" for i in range(1, n + 1))
    yield f"l{n + 1}: DEREF s0 p0 w1 8 e"
    yield "e: RET"


def texts():
    """Each text with what it is; and how many of its instructions have the one before them as their target in the image, from pc 1 on."""
    yield "4,095 additions", [HEAD, *[ADD] * 4095, "RET"]
    yield "31 routines of 127 CALLs", calls(32, 128)
    yield "4,090 LOOPs to one head", [HEAD, "SETK k0 1", "h: LDI w0 1", *["LOOP k0 h"] * 4090, "RET"]
    yield "4,094 jumps back", [HEAD, *back(4094)]
    yield "each instruction a label", [HEAD, *(f"l{i}: BEQ w0 w1 l{i + 1}" for i in range(4095)), "l4095: RET"]
    yield "pointers lost 4,089 additions before", [HEAD, *LOSES, *[ADD] * 4089, *COPIES]
    yield "pointers lost 2,044 forks before", [HEAD, *LOSES, *forks(2044), *COPIES[1:]]
    yield "a pointer lost 4,093 refusals before, each of which leads one back", [HEAD, *refusable(4093)], 4094


def least(command):
    """The least time of some runs of a command, which may refuse the image, in seconds."""
    times = []
    for _ in range(RUNS):
        start = time.perf_counter()
        done = subprocess.run(command, stdout=subprocess.PIPE, stderr=subprocess.PIPE, check=False)
        times.append(time.perf_counter() - start)
        assert done.returncode in (0, 1), (command, done.stderr)
    return min(times)


def shown(taken, base):
    """A time, and its ratio to that of the baseline."""
    return f"{1000 * taken:.0f} ms, {taken / base:.1f}"


def look_at_images(program, folder):
    """A line for each image; what is past its bound."""
    text, image = folder / "text.asm", folder / "image"
    bases = None
    past = []
    for name, lines, *one_less in texts():
        text.write_text("\n".join(lines) + "\n")
        # With all rows a target may be another one: which places have a row does not go by targets.
        subprocess.run([program, "asm", *(["--all-rows"] if one_less else []), text, image], check=True)
        if one_less:
            image.write_bytes(one_back(image.read_bytes(), 1, *one_less))
        commands = {
            "check": [program, "check", image],
            "list": [program, "list", image],
            "explain": [program, "explain", image],
            "explain of the text": [program, "explain", text],
        }
        times = {what: least(command) for what, command in commands.items()}
        bases = bases or times
        print(f"{name}: " + "; ".join(f"{what} {shown(taken, bases[what])}" for what, taken in times.items()))
        past += [f"{what} of {name}" for what, taken in times.items() if MOST_RATIO < taken / bases[what]]
    return past


def run_scripts(program, folder):
    """A line for each script, on a new file."""
    text, image, file, script = (folder / name for name in ("text.asm", "image", "file.vm", "script"))
    text.write_text(ROUTINES)
    subprocess.run([program, "asm", text, image], check=True)
    before = None
    for name, lines in SCRIPTS.items():
        script.write_text("".join(line + "\n" for line in lines))
        times = []
        for _ in range(RUNS):
            file.unlink(missing_ok=True)
            subprocess.run([program, "new", file, "--area", "1048576"], check=True)
            start = time.perf_counter()
            done = subprocess.run([program, "run", image, file, script, "--region", str(REGION)], stdout=subprocess.PIPE, check=True)
            times.append(time.perf_counter() - start)
        said = " ".join(done.stdout.decode().split())
        print(f"{name}: {shown(min(times), before or min(times))}; it says {said or 'nothing'}")
        before = min(times)


MOST_SCRIPT = 1_048_576
# Control goes round at `a` with a counter that nothing sets, and what a unit of k1 costs passes 32 bits.
UNFOUND = ["a: LOOP k0 a", "SETKW k1 w2", "b: SETK k3 60000", "LOOP k1 b", "c: OUT w0 d", "LOOP k3 c", *[ADD] * 4080, "d: RET"]


def filled(keeps, use):
    """A script as long as one may be: lines that keep names, and then one line again and again."""
    lines = list(keeps)
    lines += [use] * ((MOST_SCRIPT - sum(len(line) + 1 for line in lines)) // (len(use) + 1))
    return "".join(line + "\n" for line in lines).encode()


def look_at_texts(program, folder):
    """A line for a text that has no steps, and for scripts of as many names as there may be."""
    text = folder / "text.asm"
    text.write_text("\n".join([HEAD, *UNFOUND]) + "\n")
    base = least([program, "asm", text, folder / "image"])
    print(f"`explain` of 4,087 instructions for which no steps are found: {shown(least([program, 'explain', text]), base)} of `asm`")
    text.write_text("routine a public budget 2\nOUT w0 x\nx: RET\n")
    before = None
    for name, script in {
        "1 MiB of calls without names": filled([], "call a 1"),
        "1,024 words under one name": filled(["call a 1 -> x"] * 1024, "call a " + " ".join(["$x"] * 8)),
        "1,024 names of eight letters": filled(
            [f"call a 1 -> aaaa{i:04}" for i in range(1024)], "call a " + " ".join(["$aaaa0000"] * 8)
        ),
    }.items():
        times = []
        for _ in range(RUNS):
            start = time.perf_counter()
            subprocess.run([program, "call", text], input=script, stdout=subprocess.PIPE, check=True)
            times.append(time.perf_counter() - start)
        print(f"{name}: {shown(min(times), before or min(times))}")
        before = before or min(times)


HANDLES = range(1, 1025)
# Lines for a kernel whose region has the blocks of all handles, of 8,192 or of 16,384 bytes, each locked once; and for one of which every
# second block is gone, so that there are as many gaps.
HALF_FULL = ["fill 1 1024 8170"]
FULL = ["fill 1 1024 16362"]
GAPS = [*FULL, *(f"{call} {h}" for h in HANDLES[1::2] for call in ("munlock", "mfree"))]
GROW, GROW_EACH = 2, 4
ON_KERNEL = {
    "no blocks": [],
    "1,024 blocks of 8,192 bytes, every second one locked": [*HALF_FULL, *(f"munlock {h}" for h in HANDLES[::2])],
    "the same, and each grows to 16,208 bytes": [*HALF_FULL, *(f"munlock {h}" for h in HANDLES[::2]), f"call {GROW_EACH}"],
    "512 locked blocks of 16,384 bytes, and 512 gaps as long": GAPS,
    "the same, and 500 blocks that are to grow to 65,520 bytes": [*GAPS, f"times 500 call {GROW}"],
    "512 such blocks and gaps, none locked": [*GAPS, *(f"munlock {h}" for h in HANDLES[::2])],
    "the same, and one block that grows to 65,520 bytes": [*GAPS, *(f"munlock {h}" for h in HANDLES[::2]), f"call {GROW}"],
}


def run_on_kernel(program, trials, folder):
    """A line for calls of a kernel and runs of routines over it: a routine by itself can lock four blocks and no more."""
    text, image = folder / "text.asm", folder / "image"
    text.write_text(ROUTINES)
    subprocess.run([program, "asm", text, image], check=True)
    before = None
    for name, lines in ON_KERNEL.items():
        asked = "\n".join(["on_kernel", "image", image.read_bytes().hex(), "end", f"kernel {REGION}", *lines, ""]).encode()
        times = []
        for _ in range(RUNS):
            start = time.perf_counter()
            done = subprocess.run([trials], input=asked, stdout=subprocess.PIPE, check=True)
            times.append(time.perf_counter() - start)
        said = done.stdout.decode().split("; ")[-1].split(" -> ")[-1].strip()
        print(f"{name}: {shown(min(times), before or min(times))}; it says {said}")
        before = min(times)


def main():
    """Prints a line for each image and each script."""
    program, trials = sys.argv[1:]
    with tempfile.TemporaryDirectory() as folder:
        past = look_at_images(program, Path(folder))
        look_at_texts(program, Path(folder))
        run_scripts(program, Path(folder))
        run_on_kernel(program, trials, Path(folder))
    if past:
        sys.exit("past their bound: " + "; ".join(past))


main()
