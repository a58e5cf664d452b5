#!/usr/bin/env python3
"""The page of 02 [5]: the five base-3 digits of each byte from 0 to 242, lowest first.

  trits.py                 prints the page
  trits.py --check         says where the page, the program's stored output or the constant table has other numbers
  trits.py --write         writes the page, the stored output and the lines of the constant table anew

Here nothing is divided: the digits count up, as an odometer does, whose first wheel is the fastest. So the page is worked out twice, here and by the
program crates/trit_page, by division, and the gate holds the program's output, the page in docs/ and the constant table to one another."""
import re
import sys
from pathlib import Path

ROOT = Path(__file__).resolve().parent.parent
PAGE = ROOT / "docs" / "trits.txt"
STORED = ROOT / "crates" / "trit_page" / "stdout"
CONSTANT = ROOT / "crates" / "packed" / "src" / "trits.rt"
HEAD = "const TRITS: TritTable = [\n"


def groups():
    """The 243 groups of five digits."""
    wheels = [0] * 5
    for _ in range(243):
        yield tuple(wheels)
        for k in range(5):
            wheels[k] += 1
            if wheels[k] < 3:
                break
            wheels[k] = 0


def page():
    return "".join(" ".join(map(str, group)) + "\n" for group in groups())


def lines():
    """The lines of the constant table: each digit of a group beside the name of its weight."""
    return "".join("    " + " + ".join(f"{digit} * D{k}" for k, digit in enumerate(group)) + ",\n" for group in groups())


def constant():
    """The source before the lines of the constant table, these lines, and the source after them."""
    before, lines_and_rest = CONSTANT.read_text().split(HEAD)
    inside, rest = lines_and_rest.split("];\n", 1)
    return before + HEAD, inside, "];\n" + rest


def check():
    good = True
    for path in (PAGE, STORED):
        if path.read_text() != page():
            print(f"{path.relative_to(ROOT)} is not the page")
            good = False
    numbers = re.findall(r"(\d+) \* D(\d)", constant()[1])
    if constant()[1] != lines() or [int(digit) for digit, _ in numbers] != [digit for group in groups() for digit in group]:
        print(f"{CONSTANT.relative_to(ROOT)} does not have the numbers of the page in its order")
        good = False
    return good


def write():
    PAGE.write_text(page())
    STORED.parent.mkdir(exist_ok=True)
    STORED.write_text(page())
    before, _, after = constant()
    CONSTANT.write_text(before + lines() + after)


def main():
    words = sys.argv[1:]
    if not words:
        sys.stdout.write(page())
    elif words == ["--check"]:
        sys.exit(0 if check() else 1)
    elif words == ["--write"]:
        write()
    else:
        sys.exit(__doc__)


if __name__ == "__main__":
    main()
