#!/usr/bin/env python3
"""Tests the model of the desk's entry on answers worked out by hand from documents 01 and 02 [4], each as a line and the line that answers it."""
from desk_model import BYTE_LIMIT, answer, answer_line

ZERO = "0000000000000000"
ONE = "0100000000000000"
MINUS_ONE = "ffffffffffffffff"   # -m is 2^64 - m, lowest byte first
HELD = "5555555555555555"        # eight bytes of the output before the call
HIGH = "ffffffff"                # a word that a choice among 3 passes over

DRAWN = [
    # 01's printed sheet: word 0xE4 gives 0 0 1 -1; from place 1 the word before it is not read; over 5 and over 2^32 - 1
    (f"2 0 0 0 0 e4000000 {HELD * 4}", f"0 1 0 0 {ZERO}{ZERO}{ONE}{MINUS_ONE}"),
    (f"2 0 0 0 1 {HIGH}e4000000 {HELD * 4}", f"0 2 0 0 {ZERO}{ZERO}{ONE}{MINUS_ONE}"),
    (f"2 0 0 5 0 e4000000 {HELD * 4}", f"0 1 0 0 {ZERO}{ZERO}{ONE}0400000000000000"),
    (f"2 0 0 4294967295 0 e4000000 {HELD * 4}", f"0 1 0 0 {ZERO}{ZERO}{ONE}feffffff00000000"),
    # the bytes 01 02 03 04 are the word 0x04030201, of which the bits 0 and 9 are the lowest ones
    (f"1 0 0 0 0 01020304 {HELD * 10}", f"0 1 0 0 {ONE}{ZERO * 8}{ONE}"),
    # marked cases 1, 2, 7, 8, 9 and 12; parameters that a kind does not use are ignored
    (f"1 9 9 0 0 05000000 {HELD * 3}", f"0 1 0 0 {ONE}{ZERO}{ONE}"),
    (f"3 0 0 0 0 05000000 {HELD * 5}", f"0 1 0 0 {ONE}{ZERO}{MINUS_ONE * 3}"),
    (f"9 32 0 0 0 {HIGH}00000000 {HELD}", "0 2 0 0 2000000000000000"),
    (f"9 32 0 0 0 00000000{HIGH} {HELD}", "0 2 0 0 e0ffffffffffffff"),
    (f"9 32 0 33 0 00000000{HIGH} {HELD}", f"0 2 0 0 {ONE}"),
    (f"8 1 1 0 0 0000000000000000 {HELD * 4}", f"0 2 0 0 {ONE}{ZERO}{ZERO}{MINUS_ONE}"),
    (f"4 1 0 0 0 05000000 {HELD * 4}", f"0 1 0 0 {ZERO}{ONE}{ZERO}{ZERO}"),
    (f"6 2 0 0 0 0100000000000000 {HELD * 4}", f"0 2 0 0 {ZERO}{ONE}{ONE}{ZERO}"),
    # a choice among 3 passes over 2^32 - 1 and takes 2^32 - 2; among the bytes FF F3 05 F4 two are rejected and the last is not looked at
    (f"4 1 0 0 0 {HIGH}feffffff {HELD * 3}", f"0 2 1 0 {ZERO}{ZERO}{ONE}"),
    (f"3 0 0 0 0 fff305f4 {HELD * 5}", f"0 1 0 2 {ONE}{ZERO}{MINUS_ONE * 3}"),
    # no coefficients: uniform binary reads a word all the same, sparse ternary none
    ("1 0 0 0 0 05000000 -", "0 1 0 0 -"),
    ("2 0 0 0 1 05000000 -", "0 1 0 0 -"),
    ("2 0 0 0 0 - -", "0 0 0 0 -"),
    # exactly 4,096 coefficients, of 256 words; exactly 8,192 words, of which one is read
    (f"2 0 0 0 0 {'00000000' * 256} {HELD * 4096}", f"0 256 0 0 {ZERO * 4096}"),
    (f"1 0 0 0 8191 {'00000000' * 8191}01000000 {HELD}", f"0 8192 0 0 {ONE}"),
]

# A refusal keeps the place and reports zeros; the output stays, but 23 writes zeros.
REFUSED = [
    # 29, by each cause
    (f"2 0 0 0 0 - {HELD * 4097}", 29),
    (f"2 0 0 0 0 {'00000000' * 8193} {HELD}", 29),
    *[(f"2 0 0 0 1 e4000000e4000000 {HELD}{'55' * extra}", 29) for extra in range(1, 8)],
    *[(f"2 0 0 0 1 e4000000{'e4' * extra} {HELD}", 29) for extra in range(1, 4)],
    # the others
    (f"0 0 0 0 0 e4000000 {HELD}", 14),
    (f"10 0 0 0 0 e4000000 {HELD}", 14),
    (f"4294967295 0 0 0 0 e4000000 {HELD}", 14),
    (f"5 0 0 0 0 e4000000 {HELD}", 5),
    (f"6 0 0 0 0 e4000000 {HELD}", 5),
    (f"9 0 0 0 0 e4000000e4000000 {HELD}", 4),
    (f"9 33 0 0 0 e4000000e4000000 {HELD}", 4),
    (f"2 0 0 0 2 e4000000 {HELD}", 22),
    (f"2 0 0 0 18446744073709551615 e4000000 {HELD}", 22),
    ("2 0 0 0 1 - -", 22),
    (f"4 2 0 0 0 e4000000 {HELD}", 7),
    (f"7 2 0 0 0 e4000000 {HELD}", 7),
    (f"8 1 1 0 0 e4000000 {HELD}", 7),
    (f"5 2 0 0 0 e4000000 {HELD}", 8),
    ("6 2 0 0 0 e4000000 -", 8),
    (f"2 0 0 1 0 e4000000 {HELD}", 9),
    (f"9 3 0 3 0 e4000000e4000000 {HELD}", 9),
    (f"2 0 0 0 1 e4000000 {HELD}", 23),
    (f"9 3 0 0 0 e4000000 {HELD}", 23),
    ("1 0 0 0 0 - -", 23),
    (f"1 0 0 0 0 e4000000 {HELD * 32}", 23),
    # words and bytes that were skipped before the words ran out are not reported
    (f"4 1 0 0 1 {HIGH}{HIGH} {HELD * 3}", 23),
    (f"3 0 0 0 0 fffffff3 {HELD * 5}", 23),
    # two at once: 29 before 14 and 5, 14 before making and 22, making before 22, 22 before 7, 8 and 9, 7 and 8 before 9, 9 before 23
    (f"0 0 0 0 0 e4000000 {HELD}55", 29),
    (f"0 0 0 0 0 e40000 {HELD}", 29),
    (f"5 0 0 0 0 e4000000 {HELD}55", 29),
    (f"10 0 0 1 9 e4000000 {HELD}", 14),
    (f"5 0 0 0 2 e4000000 {HELD}", 5),
    (f"9 33 0 0 2 e4000000 {HELD}", 4),
    (f"4 2 0 0 2 e4000000 {HELD}", 22),
    (f"5 2 0 0 2 e4000000 {HELD}", 22),
    (f"2 0 0 1 2 e4000000 {HELD}", 22),
    (f"4 2 0 1 0 e4000000 {HELD}", 7),
    (f"5 2 0 1 0 e4000000 {HELD}", 8),
    (f"2 0 0 1 1 e4000000 {HELD}", 9),
]

BAD = [
    "",
    f"2 0 0 0 0 e4000000 {HELD} ",
    f" 2 0 0 0 0 e4000000 {HELD}",
    f"2  0 0 0 0 e4000000 {HELD}",
    "2 0 0 0 0 e4000000",
    f"02 0 0 0 0 e4000000 {HELD}",
    f"4294967296 0 0 0 0 e4000000 {HELD}",
    f"2 0 0 0 18446744073709551616 e4000000 {HELD}",
    f"2 0 0 0 0 E4000000 {HELD}",
    f"2 0 0 0 0 e400000 {HELD}",
    f"2 0 0 0 0  {HELD}",
    f"2 0 0 0 0 e4000000 {'00' * (BYTE_LIMIT + 1)}",
]


def refusal(line, number):
    """The line that a refusal with this number is answered by."""
    fields = line.split(" ")
    place, output = fields[4], fields[6]
    return f"{number} {place} 0 0 {'0' * len(output) if number == 23 and output != '-' else output}"


def main():
    cases = DRAWN + [(line, refusal(line, number)) for line, number in REFUSED] + [(line, "bad line") for line in BAD]
    for line, expected in cases:
        got = answer_line(line)
        assert got == expected + "\n", (line, got, expected)
    assert answer("\n" + DRAWN[0][0] + "\nx") == "bad line\n" + DRAWN[0][1] + "\nbad line\n"
    assert answer("") == ""
    print(f"{len(cases) + 2} passed, 0 failed")


if __name__ == "__main__":
    main()
