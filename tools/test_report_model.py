#!/usr/bin/env python3
"""Tests the model of residue_report on cases worked out by hand from request [2] of document 02, and holds it to the stored answers of the gate,
whose sums and counts come from another program: for every word of crates/residue_report/args the two must print the same text."""
from pathlib import Path

from report_model import LIMITS_RULE, MODULUS_RULE, RESIDUES_RULE, TEXT_LIMIT, answer, bad_number, named_answer

ROOT = Path(__file__).resolve().parent.parent
CRATE = ROOT / "crates" / "residue_report"
TOO_LONG = "the input is longer than 2097152 bytes\n"


def report(total, squares, *counts):
    """The text of a report; the counts are pairs of a limit and its count."""
    return "".join([f"sum {total}\n", f"sum of squares {squares}\n"] + [f"at most {limit}: {count}\n" for limit, count in counts])


CASES = [
    # half an even modulus is itself, and the residue after it is negative; 2 gives 0 and +1; 1 gives 0
    (b"4\n0 1 2\n2 3 1 0", report(2, 6, (0, 1), (1, 3), (2, 4))),
    (b"5\n1 2\n2 3", report(0, 8, (1, 0), (2, 2))),
    (b"2\n0 1\n1 1 0", report(2, 2, (0, 1), (1, 3))),
    (b"1\n0\n0 0 0", report(0, 0, (0, 3))),
    # no residues, no limits
    (b"7\n0 5\n", report(0, 0, (0, 0), (5, 0))),
    (b"7\n\n6 6", report(-2, 2)),
    (b"7", report(0, 0)),
    # a zero sum has no minus sign; limits in any order, repeated, up to 2^64 - 1
    (b"7\n3 0 18446744073709551615 3\n3 4 1 6", report(0, 20, (3, 4), (0, 0), (2**64 - 1, 4), (3, 4))),
    # the largest modulus: half of it is 2^52
    (b"9007199254740992\n4503599627370495\n4503599627370496 4503599627370497", report(1, 2**104 + (2**52 - 1)**2, (2**52 - 1, 1))),
    (b"2\n0\n" + b"1 " * 65536, report(65536, 65536, (0, 0))),
    # the places of bad numbers
    (b"", str(bad_number(1, MODULUS_RULE))),
    (b"9007199254740993\n", str(bad_number(1, MODULUS_RULE))),
    (b"7 7\n", str(bad_number(2, MODULUS_RULE))),
    (b"7\n1 2 x\n9", str(bad_number(4, LIMITS_RULE))),
    (b"7\n18446744073709551616\n1", str(bad_number(2, LIMITS_RULE))),
    (b"7\n1 2\n3 7 9", str(bad_number(5, RESIDUES_RULE))),
    (b"7\n1 2\n3 " + b"9" * 5000, str(bad_number(5, RESIDUES_RULE))),
    (b"7\n" + b"1 " * 4097, str(bad_number(4098, LIMITS_RULE))),
    (b"2\n0\n" + b"1 " * 65537, str(bad_number(65539, RESIDUES_RULE))),
    # the longest text, and one byte more
    (b"7\n2\n5".ljust(TEXT_LIMIT), report(-2, 4, (2, 1))),
    (b"7\n2\n5".ljust(TEXT_LIMIT + 1), TOO_LONG),
    (b"x".ljust(TEXT_LIMIT + 1), TOO_LONG),
]


def read(name):
    """What the program reads for a word of args."""
    return (CRATE / "stdin" if name == "-" else CRATE / "data" / name).read_bytes()


def main():
    for text, expected in CASES:
        got = answer(text)
        assert got == expected, (text[:80], got[:200], expected[:200])
    names = (CRATE / "args").read_text().split()
    stored = (CRATE / "stdout").read_text()
    for name in names:
        expected = named_answer(name, read)
        assert stored.startswith(expected), (name, stored[:200], expected[:200])
        stored = stored[len(expected):]
    assert stored == "", stored[:200]
    assert sorted(names[1:]) == sorted(path.name for path in (CRATE / "data").iterdir()), "a file that no argument names"
    assert read("-") == (ROOT / "examples" / "residues.txt").read_bytes()
    print(f"{len(CASES) + len(names)} passed, 0 failed")


if __name__ == "__main__":
    main()
