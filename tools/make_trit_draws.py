#!/usr/bin/env python3
"""Writes what the program crates/trit_draws must print: uniform ternary drawn from many lists of words, by the model of keysheet_model.py.

A line is for a list of words: its kind (below), how many words it has, and the place where each draw begins; then how many draws were made, how many of them
answered 0, 9, 22 and 23, and a sum over number, place, both sums of what was skipped, and every element plus 1, of all answers. Each of some lengths is drawn
signed and as residues of the moduli 1 (which is refused by 9), 3 and 3329, into an output that holds 7 throughout. The program draws each of them by the table
and by division, counts the pairs that are the same, and adds up those by the table; the model divides, one digit after the other."""
from pathlib import Path

from keysheet_model import Refused, Words, uniform_ternary

ROOT = Path(__file__).resolve().parent.parent
STORED = ROOT / "crates" / "trit_draws" / "stdout"
ROOM = 96                                   # words of a list
LENGTHS = list(range(45)) + [64, 99, 100]
COUNTS = [0, 1, 2, 5, 13, ROOM]
MODULI = [0, 1, 3, 3329]                    # 0 stands for signed
HELD = 7                                    # what an output holds before
LARGE = 2**32


def words_of(kind):
    """0: the bytes 0, 1, 2 and so on; 1: random bytes; 2: random bytes from 224 on, of which 19 in 32 are accepted; 3: random bytes of which few are, from 240 on."""
    if kind == 0:
        return [sum((4 * i + k) % 256 << 8 * k for k in range(4)) for i in range(ROOM)]
    state, words = 1, []
    for _ in range(ROOM):
        state = (state * 1664525 + 1013904223) % LARGE
        words.append(state | [0, 0xE0E0E0E0, 0xF0F0F0F0][kind - 1])
    return words


def drawn(words, place, n, modulus):
    """Number, place and both sums, and what the output holds."""
    lent = Words(words, place)
    try:
        if len(words) < place:
            raise Refused(22)
        if modulus == 1:
            raise Refused(9)
        values = uniform_ternary(lent, n)
    except Refused as refused:
        return [refused.number, place, 0, 0], [0 if refused.number == 23 else HELD] * n
    return [0, lent.place, lent.skipped_words, lent.skipped_bytes], [v % modulus for v in values] if modulus else values


def line(kind, count, place):
    words = words_of(kind)[:count]
    numbers = {0: 0, 9: 0, 22: 0, 23: 0}
    total = 0
    draws = 0
    for n in LENGTHS:
        for modulus in MODULI:
            answer, output = drawn(words, place, n, modulus)
            numbers[answer[0]] += 1
            draws += 1
            for value in answer + [element + 1 for element in output]:
                total = (total * 31 + value) % LARGE
    return f"{kind} {count} {place}: {draws} draws, {draws} the same; {' '.join(map(str, numbers.values()))}; {total}\n"


def main():
    STORED.parent.mkdir(exist_ok=True)
    STORED.write_text("".join(line(kind, count, place) for kind in range(4) for count in COUNTS for place in sorted({0, 1, count, count + 1})))


if __name__ == "__main__":
    main()
