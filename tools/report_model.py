#!/usr/bin/env python3
"""A model of the program residue_report, written from request [2] of document 02 and the format of the program's text alone.

  report_model.py FILE..      (- is standard input)

For each file it prints the line `== FILE` and then what the program prints. It shares nothing with the Rattle code or with the Rust, and aims to
be read, not to be fast."""
import re
import sys
from pathlib import Path

TEXT_LIMIT = 2097152    # bytes of a text
LIMIT_LIMIT = 4096      # limits of a text
RESIDUE_LIMIT = 65536   # residues of a report
LARGEST_MODULUS = 2**53
LARGEST_LIMIT = 2**64 - 1

MODULUS_RULE = f"the first line is the modulus alone, a whole number from 1 to {LARGEST_MODULUS}"
LIMITS_RULE = f"the second line is up to {LIMIT_LIMIT} limits, whole numbers up to {LARGEST_LIMIT}"
RESIDUES_RULE = f"after the second line come up to {RESIDUE_LIMIT} residues, whole numbers below the modulus"


class Bad(Exception):
    """A text that is turned down, with the line that says why."""


def bad_number(position, rule):
    """The first bad number of the input, counted from 1, and what should stand there."""
    return Bad(f"number {position} of the input is bad: {rule}\n")


def tokens(part):
    """What stands between spaces, tabs, carriage returns and newlines."""
    return re.findall(rb"[^ \t\r\n]+", part)


def number(token, bounds):
    """The value of a token of decimal digits, leading zeros allowed, or None where it is no number within the bounds."""
    if not re.fullmatch(rb"[0-9]+", token):
        return None
    digits = token.lstrip(b"0") or b"0"
    if len(digits) > len(str(bounds[-1])) or int(digits) not in bounds:
        return None
    return int(digits)


def numbers(part, room, bounds, before, rule):
    """The numbers of a part, which follow `before` others of the input; at most `room` of them."""
    values = []
    for token in tokens(part):
        value = number(token, bounds) if len(values) < room else None
        if value is None:
            raise bad_number(before + len(values) + 1, rule)
        values.append(value)
    return values


def parse(text):
    """The modulus, the limits and the residues of a text, or Bad."""
    if len(text) > TEXT_LIMIT:
        raise Bad(f"the input is longer than {TEXT_LIMIT} bytes\n")
    first, second, rest = (text.split(b"\n", 2) + [b"", b""])[:3]
    modulus = numbers(first, 1, range(1, LARGEST_MODULUS + 1), 0, MODULUS_RULE)
    if not modulus:
        raise bad_number(1, MODULUS_RULE)
    limits = numbers(second, LIMIT_LIMIT, range(LARGEST_LIMIT + 1), 1, LIMITS_RULE)
    residues = numbers(rest, RESIDUE_LIMIT, range(modulus[0]), 1 + len(limits), RESIDUES_RULE)
    return modulus[0], limits, residues


def centered(residue, modulus):
    """Up to half the modulus, rounded down, a residue is itself."""
    return residue if residue <= modulus // 2 else residue - modulus


def answer(text):
    """What the program prints for a text: the sum of the centered values, that of their squares, and for each limit how many magnitudes do not
    exceed it; for a bad text the one line that says what is bad."""
    try:
        modulus, limits, residues = parse(text)
    except Bad as bad:
        return str(bad)
    values = [centered(residue, modulus) for residue in residues]
    lines = [f"sum {sum(values)}", f"sum of squares {sum(value * value for value in values)}"]
    counts = {limit: sum(abs(value) <= limit for value in values) for limit in set(limits)}
    lines += [f"at most {limit}: {counts[limit]}" for limit in limits]
    return "\n".join(lines) + "\n"


def named_answer(name, read):
    """The line that names a file, and the answer to what `read` gives for it."""
    return f"== {name}\n" + answer(read(name))


if __name__ == "__main__":
    for argument in sys.argv[1:]:
        sys.stdout.write(named_answer(argument, lambda name: sys.stdin.buffer.read() if name == "-" else Path(name).read_bytes()))
