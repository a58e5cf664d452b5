#!/usr/bin/env python3
"""Writes the stored requests to the desk's entry and the model's answers: make_desk_cases.py CRATE_FOLDER

CRATE_FOLDER gets data/NAME.txt for each family, one request a line in the format of desk_model; args (the files' names, a line each) and stdout (for each
name a line `== NAME.txt` and then the answers by the model). The requests are fixed: random words come from a generator with the seed below."""
import random
import struct
import sys
from pathlib import Path

from desk_model import answer, desk, shown
from keysheet_model import LENGTH_LIMIT, WORD_LIMIT, parse
from make_cases import parameters, skips, words_for
from sheets import KINDS

SEED = 20261117
LENGTHS = (1, 4, 5, 16, 33)
PLACES = (0, 1, 3)
MODULI = (17, 3329, 2**32 - 1, 65, 2**31)
LAST_PLACE = 2**64 - 1
HIGH = 0xFFFFFFFF   # passed over by every choice but one among a power of two
USUAL = {1: (0, 0), 2: (0, 0), 3: (0, 0), 4: (2, 0), 5: (2, 0), 6: (3, 0), 7: (2, 0), 8: (2, 1), 9: (3, 0)}   # A and B that serve six coefficients
OTHER_KINDS = (0, 10, 11, 255, 256, 257, 65537, 2**31, 2**31 + 1, 2**32 - 1)
PAST_END = (1, 2, 2**31, 2**32)   # places past the end by so much; after the last comes the largest place


def held(count):
    """What the output's bytes hold before the call: no byte is 0, and neighbours differ."""
    return bytes(1 + i % 255 for i in range(count))


def packed(words):
    return struct.pack(f"<{len(words)}I", *words)


def line(kind, a, b, modulus, place, words, output):
    """A request: the words as numbers or as bytes, the output as a number of coefficients or as bytes."""
    words = words if isinstance(words, bytes) else packed(words)
    output = output if isinstance(output, bytes) else held(8 * output)
    return f"{kind} {a} {b} {modulus} {place} {shown(words)} {shown(output)}"


def usual(kind, place, words, output=6, modulus=0):
    """A request of a kind with the parameters that serve six coefficients."""
    return line(kind, *USUAL[kind], modulus, place, words, output)


def kinds(rng, moduli):
    """Every kind at several lengths and places, with plenty of words, and with the moduli in turn."""
    turn = 0
    for kind in KINDS:
        for n in LENGTHS:
            for a, b in parameters(kind, n, rng):
                place = PLACES[turn % len(PLACES)]
                yield line(kind, a, b, moduli[turn % len(moduli)], place, words_for(rng, 3 * n + 8 + place), n)
                turn += 1


def signed(rng):
    return kinds(rng, (0,))


def residues(rng):
    return kinds(rng, MODULI)


def moduli(rng):
    """The moduli 1, 2, 3 and 2^32 - 1 for every kind."""
    for kind in KINDS:
        for modulus in (1, 2, 3, 2**32 - 1):
            yield usual(kind, 1, words_for(rng, 24), modulus=modulus)
    for eta in (1, 2, 31, 32):
        for modulus in (eta, eta + 1):
            yield line(9, eta, 0, modulus, 0, words_for(rng, 8), 3)


def places(rng):
    """Just enough words and one too few, from two places; the end itself; past the end. What is read last stands there."""
    for kind in KINDS:
        words = words_for(rng, 30)
        for place in (0, 4):
            end = desk(kind, *USUAL[kind], 0, packed(words), held(48), place)[1]
            yield usual(kind, place, words[:end])
            yield usual(kind, place, words[:end - 1])
        yield usual(kind, len(words), words)
        for past in PAST_END:
            yield usual(kind, len(words) + past, words)
        yield usual(kind, LAST_PLACE, words)
    # a draw that reads nothing succeeds at the end, and not past it
    for kind, a, n in ((2, 0, 0), (4, 0, 3), (7, 0, 3), (8, 0, 3), (9, 2, 0)):
        for place in (2, 3, 4, LAST_PLACE):
            yield line(kind, a, 0, 0, place, [1, 2, 3], n)


def limit_of_both(rng):
    """Exactly 4,096 coefficients and 8,192 words."""
    yield line(9, 21, 0, 65537, 0, words_for(rng, WORD_LIMIT), LENGTH_LIMIT)


def limit_of_coefficients(rng):
    """Exactly 4,096 coefficients, and one more, which is 29 also with another kind."""
    yield line(3, 0, 0, 0, 5, words_for(rng, 1000), LENGTH_LIMIT)
    yield line(10, 0, 0, 0, 0, words_for(rng, 4), LENGTH_LIMIT + 1)


def limit_of_words(rng):
    """Exactly 8,192 words, and one more."""
    yield line(1, 0, 0, 0, WORD_LIMIT - 1, words_for(rng, WORD_LIMIT), 4)
    yield line(1, 0, 0, 0, WORD_LIMIT, words_for(rng, WORD_LIMIT + 1), 4)


def whole_items(rng):
    """Bytes of the output beyond a multiple of eight, and of the words beyond one of four: no whole number of items. Whole numbers among them."""
    words = packed(words_for(rng, 6))
    for extra in range(8):
        for whole in (0, 8, 16):
            yield line(2, 0, 0, 0, 0, words, held(whole + extra))
    for extra in range(4):
        for whole in (0, 4, 12):
            yield line(2, 0, 0, 0, 0, (words + words)[:whole + extra], 2)
            yield line(1, 0, 0, 17, 0, (words + words)[:whole + extra], 0)
    yield line(2, 0, 0, 0, 0, words[:7], held(9))


def refusals(rng):
    """Each number but 29, alone."""
    w = words_for(rng, 20)
    for kind in OTHER_KINDS:
        yield line(kind, 2, 1, 0, 1, w, 4)
    for kind in (5, 6):
        yield line(kind, 0, 0, 0, 1, w, 4)
    for eta in (0, 33, 34, 256, 257, 2**32 - 1):
        yield line(9, eta, 0, 0, 1, w, 2)
    for kind, a, b in ((4, 5, 0), (7, 5, 0), (8, 3, 2), (8, 5, 0), (8, 0, 5), (4, 2**32 - 1, 0), (7, 2**32 - 1, 0), (8, 2**32 - 1, 2**32 - 1), (8, 2**32 - 1, 1)):
        for modulus in (0, 3):
            yield line(kind, a, b, modulus, 1, w, 4)
    for kind in (5, 6):
        for size, n in ((2, 5), (3, 4), (5, 4), (2, 0), (2**32 - 1, 4)):
            yield line(kind, size, 0, 0, 1, w, n)
    for kind in KINDS:
        yield usual(kind, 1, w, modulus=1)
    for eta in (2, 7, 32):
        yield line(9, eta, 0, eta, 1, w, 2)
    for kind in KINDS:
        yield usual(kind, 21, w)
        yield usual(kind, 0, [])
        yield usual(kind, 20, w, modulus=7)


def order(rng):
    """Two or more numbers at once: the one that comes first is answered."""
    w = words_for(rng, 10)
    past = len(w) + 1
    short = packed(w)[:7]
    # 29 before 14, 5, 4, 22, 7, 8, 9 and 23
    for kind, a, modulus, place in ((0, 1, 0, 0), (10, 1, 0, 0), (5, 0, 0, 0), (6, 0, 0, 0), (9, 0, 0, 0), (9, 33, 0, 0), (1, 0, 0, past), (4, 9, 0, 0), (7, 9, 0, 0),
                                    (6, 3, 0, 0), (1, 0, 1, 0), (9, 7, 7, 0), (3, 0, 0, len(w)), (0, 0, 1, LAST_PLACE)):
        yield line(kind, a, 0, modulus, place, w, held(33))
        yield line(kind, a, 0, modulus, place, short, 4)
    # 14 before 5, 4, 22, 9 and 23
    for kind in (0, 10, 2**32 - 1):
        yield line(kind, 0, 0, 0, 0, w, 4)
        yield line(kind, 33, 0, 0, past, w, 4)
        yield line(kind, 0, 0, 1, 0, w, 4)
        yield line(kind, 9, 9, 0, 0, [], 4)
    # making, 5 and 4, before 22, 8, 9 and 23
    for kind, a in ((5, 0), (6, 0), (9, 0), (9, 33)):
        for modulus, place, words, n in ((0, past, w, 4), (0, LAST_PLACE, w, 4), (0, 0, w, 0), (1, 0, w, 4), (1, past, w, 4), (7, 0, [], 4)):
            yield line(kind, a, 0, modulus, place, words, n)
    # 22 before 7, 8, 9 and 23
    for kind, a, modulus, n in ((4, 9, 0, 4), (7, 9, 0, 4), (8, 9, 0, 4), (5, 2, 0, 5), (6, 2, 0, 0), (1, 0, 1, 4), (9, 7, 7, 4), (4, 9, 1, 4),
                                (6, 2, 1, 5), (1, 0, 0, 0)):
        yield line(kind, a, 0, modulus, past, w, n)
        yield line(kind, a, 0, modulus, 1, [], n)
    # 7 and 8 before 9 and 23
    for kind, a, n in ((4, 9, 4), (7, 9, 4), (8, 9, 4), (5, 2, 5), (6, 2, 5), (5, 2, 0)):
        yield line(kind, a, 0, 1, 0, w, n)
        yield line(kind, a, 0, 0, 0, [], n)
        yield line(kind, a, 0, 1, len(w), w, n)
    # 9 before 23
    for kind in KINDS:
        yield usual(kind, 0, [], modulus=1)
        yield usual(kind, len(w), w, modulus=1)


def empty(rng):
    """No coefficients, which uniform binary reads a word for, and no words."""
    w = words_for(rng, 3)
    for kind in KINDS:
        a = {5: 1, 6: 1, 9: 2}.get(kind, 0)
        for modulus in (0, 1, 3):
            yield line(kind, a, 0, modulus, 1, w, 0)
        yield line(kind, a, 0, 0, 3, w, 0)
        yield line(kind, a, 0, 0, 0, [], 0)
        yield line(kind, a, 0, 0, 1, [], 0)
        yield line(kind, a, 0, 0, 0, [], 2)
    for kind in (4, 7, 8):
        yield line(kind, 1, 0, 0, 0, w, 0)


def skipped(rng):
    """Words and bytes that are skipped, from place 0 and after two words that are not read. The long sheets are left to the sheet's own cases."""
    for _, data in skips(rng):
        kind, n, a, b, modulus, words = parse(data)
        if n <= 100 and len(words) <= 100:
            yield line(kind, a, b, modulus, 0, words, n)
            yield line(kind, a, b, modulus, 2, [HIGH, HIGH, *words], n)


def byte_order(rng):
    """Words whose four bytes differ, and coefficients and residues of which the eight bytes show the order and the sign."""
    w = bytes(range(1, 17))
    for kind in KINDS:
        yield usual(kind, 0, w)
        yield usual(kind, 1, w, modulus=2**32 - 1)
    for word in (0x01020304, 0x80000000, 0x00000080, 0x00FF0000):
        yield line(1, 0, 0, 0, 0, [word], 31)
    for low, high in ((HIGH, 0), (0, HIGH), (0x7FFFFFFF, 0x80000000), (1, 0), (0, 1)):
        for modulus in (0, 33, 2**32 - 1):
            yield line(9, 32, 0, modulus, 0, [low, high], 1)


GOOD = "2 0 0 0 0 e4000000 " + "55" * 16   # a line of the right form, for those below that are not


def bad_lines(rng):
    """Lines of another form, each beside one of the right form."""
    kind, rest = GOOD.split(" ", 1)
    fields = GOOD.split(" ")
    yield GOOD
    yield ""
    yield " "
    yield "-"
    for count in range(1, 7):
        yield " ".join(fields[:count])
    for text in (GOOD + " ", " " + GOOD, GOOD + " 0", GOOD.replace(" ", "  ", 1), GOOD.replace(" ", "\t", 1), GOOD + "\r", GOOD[:-1], GOOD + "5"):
        yield text
    for number in ("", "00", "02", "+2", "-2", "2.", "0x2", "a", "/", ":", "4294967296", "4294967298", "18446744073709551618", "9" * 40):
        yield f"{number} {rest}"
    for index in (1, 2, 3, 4):
        for number in ("", "01", "-", "4294967296", "18446744073709551616", "18446744073709551615"):
            yield " ".join([*fields[:index], number, *fields[index + 1:]])
    for index in (5, 6):
        for text in ("", "0", "e4 00", "E4000000", "g4000000", "e400000", "e400000g", "--", "-00", "00-", "`0", "/0", ":0", "0x00", "@0"):
            yield " ".join([*fields[:index], text, *fields[index + 1:]])
    yield line(1, 0, 0, 0, 0, [5], 3)


FAMILIES = (signed, residues, moduli, places, limit_of_both, limit_of_coefficients, limit_of_words, whole_items, refusals, order, empty, skipped, byte_order,
            bad_lines)
FILE_LIMIT = 150000   # bytes of a file that the program reads


def main():
    if len(sys.argv) != 2:
        sys.exit(__doc__)
    folder = Path(sys.argv[1])
    data = folder / "data"
    data.mkdir(parents=True, exist_ok=True)
    for old in data.glob("*.txt"):
        old.unlink()
    rng = random.Random(SEED)
    texts, count, size = [], 0, 0
    for family in FAMILIES:
        name = family.__name__ + ".txt"
        lines = list(family(rng))
        text = "".join(one + "\n" for one in lines)
        assert len(text) <= FILE_LIMIT, name
        (data / name).write_bytes(text.encode())
        texts.append(f"== {name}\n" + answer(text))
        count += len(lines)
        size += len(text)
        print(f"{name}: {len(lines)} lines, {len(text)} bytes")
    (folder / "args").write_text("".join(f"{family.__name__}.txt\n" for family in FAMILIES))
    (folder / "stdout").write_text("".join(texts))
    print(f"{count} lines, {size} bytes, answered by {sum(map(len, texts))}")


if __name__ == "__main__":
    main()
