#!/usr/bin/env python3
"""Tests the model on document 01's own examples (the printed sheet, the marked cases a sheet can ask, the run-only cases, the traps) and, for
the third line, on sums worked out by hand from documents 01 and 02 [1]."""
from keysheet_model import answer
from sheets import sheet

CASES = [
    # the sheet that document 01 prints
    (sheet(2, 4, 0, 0, [0xE4]), "0 1 4\n0 0 1 -1\n"),
    # marked cases 1, 2, 3, 6, 7, 8, 9, 12
    (sheet(1, 3, 0, 0, [5]), "0 1 3\n1 0 1\n"),
    (sheet(3, 5, 0, 0, [5]), "0 1 5\n1 0 -1 -1 -1\n"),
    (sheet(3, 5, 0, 0, [0xF3]), "0 1 5\n-1 -1 -1 -1 -1\n"),
    (sheet(9, 2, 2, 0, [7, 0, 12, 0]), "0 4 2\n1 -2\n"),
    (sheet(9, 1, 32, 0, [2**32 - 1, 0]), "0 2 1\n32\n"),
    (sheet(8, 4, 1, 1, [0, 0]), "0 2 4\n1 0 0 -1\n"),
    (sheet(4, 4, 1, 0, [5]), "0 1 4\n0 1 0 0\n"),
    (sheet(6, 4, 2, 0, [1, 0]), "0 2 4\n0 1 1 0\n"),
    # run only: eta 0 and 33, n = 32 reads two words, block length 0
    (sheet(9, 1, 0, 0, [0, 0]), "4 0 0\n"),
    (sheet(9, 1, 33, 0, [0, 0]), "4 0 0\n"),
    (sheet(1, 32, 0, 0, [0, 0, 7]), "0 2 32\n" + " ".join(["0"] * 32) + "\n"),
    (sheet(1, 32, 0, 0, [0]), "23 0 0\n"),
    (sheet(5, 0, 2, 0, [0]), "8 0 0\n"),
    # an empty draw prints an empty line
    (sheet(2, 0, 0, 0, []), "0 0 0\n\n"),
    # -1 over 5
    (sheet(2, 4, 0, 0, [0xE4], 5), "0 1 4\n0 0 1 4\n"),
    (sheet(9, 1, 2, 0, [12, 0], 5), "0 2 1\n3\n"),
    (sheet(9, 1, 2, 0, [12, 0], 2), "9 0 0\n"),
]

# Answers with the third line. A choice among 3 passes over 0xFFFFFFFF alone, one among 5 the same, one among 6 the words from 0xFFFFFFFC on, one
# among a power of two none.
SKIPPED = [
    # marked cases 4 and 5: 0xFFFFFFFF is passed over, 0xFFFFFFFE gives 2
    (sheet(4, 3, 1, 0, [0xFFFFFFFF, 0xFFFFFFFE]), "0 2 3\n0 0 1\n1 0\n"),
    # choices among 4, 5 and 6: they pass over none, one and two words
    (sheet(8, 6, 2, 1, [0xFFFFFFFF, 0xFFFFFFFF, 1, 0xFFFFFFFC, 0xFFFFFFFF, 0xFFFFFFFB]), "0 6 6\n0 -1 0 -1 0 1\n3 0\n"),
    (sheet(8, 6, 2, 1, [0xFFFFFFFF, 0xFFFFFFFF, 1, 0xFFFFFFFC, 0xFFFFFFFF, 0xFFFFFFFB], 7), "0 6 6\n0 6 0 6 0 1\n3 0\n"),
    # blocks: among 3 where exactly one of 3 or at most one of 2, among 4 where at most one of 3
    (sheet(6, 6, 3, 0, [0xFFFFFFFF, 0xFFFFFFFE, 0xFFFFFFFF, 0]), "0 4 6\n0 0 1 1 0 0\n2 0\n"),
    (sheet(5, 2, 2, 0, [0xFFFFFFFF, 0xFFFFFFFE]), "0 2 2\n0 0\n1 0\n"),
    (sheet(5, 3, 3, 0, [0xFFFFFFFF]), "0 1 3\n0 0 0\n0 0\n"),
    # a ternary weight: the word of signs is used, whatever a choice among 3 would do with it; so is the one that the 33rd sign takes
    (sheet(7, 3, 2, 0, [0xFFFFFFFF, 0, 0xFFFFFFFF, 1]), "0 4 3\n1 1 0\n1 0\n"),
    (sheet(7, 34, 33, 0, [0xFFFFFFFF, *range(1, 33), 0, 0xFFFFFFFF, 33]), "0 36 34\n0 " + "1 " * 32 + "-1\n1 0\n"),
    # with h = n only signs are read
    (sheet(7, 2, 2, 0, [0xFFFFFFFE]), "0 1 2\n-1 1\n0 0\n"),
    # uniform ternary: bytes FF, F3, 05, F4, of which the last is not looked at
    (sheet(3, 5, 0, 0, [0xF405F3FF]), "0 1 5\n1 0 -1 -1 -1\n0 2\n"),
    # bytes F5, 00, F6, F7, then 02 and three that are not looked at
    (sheet(3, 6, 0, 0, [0xF7F600F5, 0xFFFFFF02]), "0 2 6\n-1 -1 -1 -1 -1 1\n0 3\n"),
    # a word of four rejected bytes is no skipped word
    (sheet(3, 1, 0, 0, [0xFFFFFFFF, 0xF2]), "0 2 1\n1\n0 4\n"),
    # kinds that read every word as it comes
    (sheet(1, 2, 0, 0, [0xFFFFFFFF]), "0 1 2\n1 1\n0 0\n"),
    (sheet(2, 4, 0, 0, [0xE4]), "0 1 4\n0 0 1 -1\n0 0\n"),
    (sheet(9, 1, 2, 0, [0xFFFFFFFF, 0xFFFFFFFF]), "0 2 1\n0\n0 0\n"),
    # empty draws
    (sheet(1, 0, 0, 0, [0xFFFFFFFF]), "0 1 0\n\n0 0\n"),
    (sheet(3, 0, 0, 0, [0xFFFFFFFF]), "0 0 0\n\n0 0\n"),
    (sheet(8, 0, 0, 0, [0xFFFFFFFF]), "0 0 0\n\n0 0\n"),
    # a refusal prints its line alone, also where words or bytes were passed over before they ran out
    (sheet(4, 3, 1, 0, [0xFFFFFFFF]), "23 0 0\n"),
    (sheet(3, 6, 0, 0, [0xF7F600F5]), "23 0 0\n"),
    (sheet(4, 3, 4, 0, [0xFFFFFFFF]), "7 0 0\n"),
    (sheet(10, 3, 1, 0, [0xFFFFFFFF]), "14 0 0\n"),
]


def main():
    for data, expected in CASES:
        got = answer(data)
        assert got == expected, (data, got, expected)
    for data, expected in SKIPPED:
        got = answer(data, skipped=True)
        assert got == expected, (data, got, expected)
        assert answer(data) == "".join(expected.splitlines(True)[:2]), (data, expected)
    print(f"{len(CASES) + len(SKIPPED)} passed, 0 failed")


if __name__ == "__main__":
    main()
