"""Prints the VM file that a copy has to be, by a second reading of the file that is copied: `copied_file.py FILE AREA [saved]`, where AREA is
the size of its areas. The pair is in the first area, and the other one has zeros."""

import sys

from file_reading import read, spell


def main() -> None:
    path, area, *saved = sys.argv[1:]
    with open(path, "rb") as file:
        current, last = read(file.read())
    data = spell(int(area), 0, (last if saved else current, last))
    # The other area is not written.
    end = 1024 + int(area)
    sys.stdout.buffer.write(data[:end] + bytes(int(area)))


main()
