"""Sets each byte of an image to each value, and cuts the image at each length, and compares what the program of `trials` answers
with a second reading of images: the offset of the first fault, or the first pc and the lowest rule there, or how its public
routines run on words that are 0, where they do so without blocks. Does the same with the image in version 2.

    python3 damaged_images.py PROGRAM SESSION..

Each SESSION is a file that begins with an image of version 1.
"""

import subprocess
import sys
from itertools import groupby

import image_reading


def runs(numbers):
    """Numbers as the program prints them."""
    counted = [(number, len(list(same))) for number, same in groupby(numbers)]
    return ", ".join(f"{number} {count} times" if count > 1 else str(number) for number, count in counted)


class Lines:
    """The lines that the program is given, each with what it must answer, and how many images were what."""

    def __init__(self):
        self.wanted = ["on_routines -> ok"]
        self.legal = self.accepted = self.run = 0

    def ask(self, line, answer):
        self.wanted.append(f"{line} -> {answer}")

    def check(self, line, data):
        """Wants the answer of the second reading to a line that checks an image, and the run of its first routine."""
        try:
            image = image_reading.read(data)
        except image_reading.Fault as fault:
            return self.ask(line, f"bad image at {fault.at}")
        self.legal += 1
        refused = image_reading.check(image)
        if refused is not None:
            return self.ask(line, "rejected at %d by V%d" % refused)
        self.accepted += 1
        n = len(image.instrs)
        self.ask(line, f"accepted, written again as it was read: bytes {len(data)}, routines {len(image.routines)}, instructions {n}")
        for index, routine in enumerate(image.routines):
            self.call(image, index, routine)

    def call(self, image, index, routine):
        """Wants the run of a public routine on words that are 0, which ends within the budget; none where it is lent blocks."""
        if not routine.public:
            return
        name = f"{routine.name.decode()}, public, instructions {routine.count}, budget {routine.budget}"
        if any(routine.entry.slots):
            self.ask(f"routine {index}", name)
            return self.ask("call", "not asked: not admitted")
        try:
            steps, words, output = image_reading.run(image, index, [0] * 8)
        except NotImplementedError:
            return
        self.run += 1
        if steps > routine.budget:
            print(f"{steps} steps, and the budget is {routine.budget}")
        self.ask(f"routine {index}", name)
        outputs = f"output {runs(output)}" if output else "no output"
        self.ask("call", f"steps {steps}, words {' '.join(map(str, words))}, {outputs}")

    def give(self, data):
        """Gives the program an image."""
        self.ask("image", "its digits follow")
        digits = data.hex()
        self.wanted += [digits[at : at + 1000] for at in range(0, len(digits), 1000)]
        self.check("end", data)

    def compare(self, program):
        """Prints each answer that is not the one that is wanted. A line of digits is not printed again."""
        asked = "".join(line.split(" -> ")[0] + "\n" for line in self.wanted)
        answered = subprocess.run([program], input=asked, stdout=subprocess.PIPE, text=True, check=True).stdout.splitlines()
        wanted = [line for line in self.wanted if " -> " in line]
        changed = ""
        for line, answer in zip(wanted, answered):
            changed = line if line.startswith("byte") else changed
            if line != answer:
                print(f"{changed}: wanted {line}, but was answered {answer}")
        if len(wanted) != len(answered):
            print(f"{len(wanted)} lines were asked and {len(answered)} answered")


def damage(program, data):
    """Tries an image."""
    lines = Lines()
    lines.give(data)
    for at, old in enumerate(data):
        last = old
        for value in range(256):
            lines.ask(f"byte {at} {value}", f"was {last}")
            lines.check("check", data[:at] + bytes([value]) + data[at + 1 :])
            last = value
        lines.ask(f"byte {at} {old}", f"was {last}")
    cut = [data[:length] for length in range(len(data) + 1)] + [data + b"\0"]
    for bytes_ in cut:
        lines.give(bytes_)
    lines.compare(program)
    print(f"{256 * len(data)} changed images, {len(cut)} cut ones")
    print(f"{lines.legal} legal, {lines.accepted} accepted, {lines.run} run", file=sys.stderr)


def image_of(path):
    """The image of a session."""
    with open(path, encoding="ascii") as session:
        return bytes.fromhex(session.read().split("end")[0])


def main():
    program, *paths = sys.argv[1:]
    for path in paths:
        damage(program, image_of(path))
        damage(program, image_reading.in_version_2(image_of(path)))


if __name__ == "__main__":
    main()
