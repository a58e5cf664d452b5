#!/usr/bin/env python3
"""Shows a sheet in readable form: its fields, its words, and what makes it malformed if anything does.

  show_sheet.py FILE      (- reads standard input)"""
import struct
import sys

from keysheet_model import LENGTH_LIMIT, SHEET_LIMIT, WORD_LIMIT
from sheets import KINDS


def faults(data, fields):
    """What number 14 finds wrong, in words."""
    kind, n, _, _, count, offset, _, last = fields
    if len(data) > SHEET_LIMIT:
        yield f"the file has {len(data)} bytes, over {SHEET_LIMIT}"
    if kind not in KINDS:
        yield f"kind {kind} is not one of 1 to 9"
    if last != 0:
        yield f"the last field is {last}, not 0"
    if n > LENGTH_LIMIT:
        yield f"n is over {LENGTH_LIMIT}"
    if count > WORD_LIMIT:
        yield f"more than {WORD_LIMIT} words"
    if offset < 32:
        yield f"the words start at byte {offset}, before 32"
    if offset + 4 * count > len(data):
        yield f"the words end at byte {offset + 4 * count}, past the file's {len(data)}"


def main():
    if len(sys.argv) != 2 or sys.argv[1] in ("-h", "--help"):
        print(__doc__)
        sys.exit(0 if len(sys.argv) == 2 else 2)
    try:
        data = sys.stdin.buffer.read() if sys.argv[1] == "-" else open(sys.argv[1], "rb").read()
    except OSError as error:
        sys.exit(f"show_sheet.py: {sys.argv[1]}: {error.strerror}")
    if len(data) < 32:
        print(f"malformed: the file has {len(data)} bytes, under 32")
        return
    fields = struct.unpack_from("<8I", data)
    names = ("kind", "n", "A", "B", "word count", "word offset", "modulus", "last field")
    for name, value in zip(names, fields):
        note = f"  ({KINDS[value]})" if name == "kind" and value in KINDS else ""
        note = "  (signed output)" if name == "modulus" and value == 0 else note
        print(f"{name:12} {value}{note}")
    wrong = list(faults(data, fields))
    for fault in wrong:
        print("malformed:", fault)
    if not wrong:
        words = struct.unpack_from(f"<{fields[4]}I", data, fields[5])
        for i in range(0, len(words), 8):
            print(f"words {i:5}  " + " ".join(f"{w:08x}" for w in words[i:i + 8]))


if __name__ == "__main__":
    main()
