#!/usr/bin/env python3
"""One text for every output type.

  one_text.py --check            says which crates, or files of source, stand once for each type

What an output holds is the trait `Output` of the crate `output`; every loop that stores is generic over it. So no crate is named after a type, and no two
source files are the same text but for the names of types."""
import re
import sys
from pathlib import Path

ROOT = Path(__file__).resolve().parent.parent
TYPES = ("i64", "u64", "i32", "u32")
ENDING = re.compile(r"_(" + "|".join(TYPES) + r")$")
NAME = re.compile(r"(?<![A-Za-z0-9])(" + "|".join(TYPES) + r")(?![A-Za-z0-9])|(?<=[A-Za-z0-9])_(" + "|".join(TYPES) + r")\b")
LEAST = 20              # a file of fewer lines is too short to be told apart


def plain(path):
    """The text of a source file without the names of types and without what it imports."""
    lines = [line for line in path.read_text().splitlines() if not re.match(r"\s*(ghost )?(pub(\(crate\))? )?use |\s*//", line)]
    return NAME.sub("T", "\n".join(lines)), len(lines)


def check():
    """Prints each crate named after a type and each pair of files of one text; True where there is none."""
    good = True
    for folder in sorted((ROOT / "crates").iterdir()):
        if folder.is_dir() and ENDING.search(folder.name):
            print(f"the crate {folder.name} is named after a type")
            good = False
    seen = {}
    for path in sorted((ROOT / "crates").glob("*/src/**/*.rt")):
        text, count = plain(path)
        if count < LEAST:
            continue
        if text in seen:
            print(f"{path.relative_to(ROOT)} is the text of {seen[text].relative_to(ROOT)}")
            good = False
        seen.setdefault(text, path)
    return good


if __name__ == "__main__":
    if sys.argv[1:] == ["--check"]:
        sys.exit(0 if check() else 1)
    sys.exit(__doc__)
