#!/usr/bin/env python3
"""A model of the desk's entry, `desk_draw`, written from documents 01 and 02 [4] alone, over the draws of keysheet_model.

  desk_model.py < REQUESTS

One request a line: kind, A, B, modulus and place in decimal, then the bytes of the words and those of the output before the call in lower-case
hexadecimal, two digits a byte, or - for none; one space between. For each it prints number, place, skipped words, skipped bytes and the bytes of the
output after the call, or `bad line` where the line has another form. crates/desk_cases reads and prints the same."""
import re
import struct
import sys

from keysheet_model import LARGEST, LENGTH_LIMIT, WORD_LIMIT, Refused, Words, draw

BYTE_LIMIT = 33000      # bytes of the words, and of the output, in a line: above what the desk accepts, so that it is seen to refuse more
BAD_LINE = "bad line"
LINE = re.compile(r"(0|[1-9][0-9]*) (0|[1-9][0-9]*) (0|[1-9][0-9]*) (0|[1-9][0-9]*) (0|[1-9][0-9]*) (-|(?:[0-9a-f]{2})+) (-|(?:[0-9a-f]{2})+)")


def refused_by_29(word_count, output_count):
    """More than 4,096 coefficients (output bytes over eight) or 8,192 words, or a byte slice that is no whole number of items."""
    return (output_count // 8 > LENGTH_LIMIT or word_count // 4 > WORD_LIMIT or output_count % 8 != 0 or word_count % 4 != 0)


def coefficients_of(kind, n, a, b, modulus, lent):
    """The coefficients, or Refused: 14 for a kind that is not among the nine, then the numbers of making, then those of the draw."""
    if not 1 <= kind <= 9:
        raise Refused(14)
    return draw(kind, n, a, b, modulus, lent)


def desk(kind, a, b, modulus, words_bytes, output_bytes, place):
    """Number, place, skipped words, skipped bytes and the output's bytes after the call. A refusal keeps the place and the bytes and reports zeros,
    but for 23, which writes zeros over the output."""
    if refused_by_29(len(words_bytes), len(output_bytes)):
        return 29, place, 0, 0, output_bytes
    n = len(output_bytes) // 8
    lent = Words(list(struct.unpack(f"<{len(words_bytes) // 4}I", words_bytes)), place)
    try:
        coefficients = coefficients_of(kind, n, a, b, modulus, lent)
    except Refused as refused:
        return refused.number, place, 0, 0, bytes(8 * n) if refused.number == 23 else output_bytes
    return 0, lent.place, lent.skipped_words, min(lent.skipped_bytes, LARGEST), struct.pack(f"<{n}q", *coefficients)


def shown(data):
    return data.hex() or "-"


def request(line):
    """The request that a line stands for, or None where it has another form."""
    found = LINE.fullmatch(line)
    if not found:
        return None
    numbers, words, output = found.groups()[:5], found[6].strip("-"), found[7].strip("-")
    if any(len(digits) > 20 for digits in numbers) or max(len(words), len(output)) > 2 * BYTE_LIMIT:
        return None
    kind, a, b, modulus, place = map(int, numbers)
    if max(kind, a, b, modulus) >= 2**32 or place >= 2**64:
        return None
    return kind, a, b, modulus, bytes.fromhex(words), bytes.fromhex(output), place


def answer_line(line):
    """The text that answers a line."""
    asked = request(line)
    if asked is None:
        return BAD_LINE + "\n"
    number, place, words, data, output = desk(*asked)
    return f"{number} {place} {words} {data} {shown(output)}\n"


def answer(text):
    """The text that answers all lines. Each ends in a newline; the last may lack it."""
    lines = text.split("\n")
    return "".join(answer_line(line) for line in (lines if lines[-1] else lines[:-1]))


if __name__ == "__main__":
    if sys.argv[1:]:
        sys.exit(__doc__)
    sys.stdout.write(answer(sys.stdin.buffer.read().decode("latin-1")))
