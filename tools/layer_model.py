#!/usr/bin/env python3
"""A model of the judgement of layer tables, written from the layered Gaussian of document 01 and request [6] of document 02 alone, and of the program
layer_check, from the format of its text.

  layer_model.py FILE..      (- is standard input)

For each file it prints the line `== FILE` and then what the program prints. It shares nothing with the Rattle code or with the Rust, and aims to be read,
not to be fast."""
import math
import re
import struct
import sys
from pathlib import Path

LAYERS = (128, 256, 512)    # the R of document 01
TEXT_LIMIT = 1048576        # bytes of a text
LIST_LIMIT = 1024           # endpoints, and heights, of a text
CURVE_LIMIT = 32768         # curve values of a text
LARGEST = 2**64 - 1

SUPPORT_RULE = f"the first line is the support alone, a whole number up to {LARGEST}"
ENDPOINTS_RULE = f"the second line is up to {LIST_LIMIT} endpoints, whole numbers up to {LARGEST}"
HEIGHTS_RULE = f"the third line is up to {LIST_LIMIT} heights, each the 16 hexadecimal digits of an f64"
CURVE_RULE = f"the fourth line is up to {CURVE_LIMIT} curve values, each the 16 hexadecimal digits of an f64"
END_RULE = "after the fourth line stands nothing"


# ---- the judgement

def endpoint_wrong(support, endpoints, i):
    """'R+1 endpoints (u64, never falling, first 0, last M)'; of a pair out of order the later is wrong."""
    x = endpoints[i]
    return (i == 0 and x != 0) or (i > 0 and x < endpoints[i - 1]) or (i == len(endpoints) - 1 and x != support)


def height_wrong(heights, i):
    """'R+1 heights (finite, falling at each step, first above 0.999, last 0)'. A step from or to a NaN does not fall; where a NaN stands it is not finite, so it
    is itself the first that is wrong."""
    y = heights[i]
    if not math.isfinite(y):
        return True
    return (i == 0 and not y > 0.999) or (i > 0 and not y < heights[i - 1]) or (i == len(heights) - 1 and y != 0.0)


def curve_wrong(curve, i):
    """'M+1 curve values in 0..1'."""
    return not 0.0 <= curve[i] <= 1.0


def first_wrong(count, wrong):
    """The first index that is wrong, or None."""
    return next((i for i in range(count) if wrong(i)), None)


def judged(support, endpoints, heights, curve):
    """The number and the index of tables: 13 for a wrong R or a wrong list length, then endpoints, heights and curve, each with the first index that is
    wrong; index 0 with every other number."""
    if len(endpoints) - 1 not in LAYERS or len(heights) != len(endpoints) or len(curve) != support + 1:
        return 13, 0
    for number, count, wrong in [
        (30, len(endpoints), lambda i: endpoint_wrong(support, endpoints, i)),
        (31, len(heights), lambda i: height_wrong(heights, i)),
        (32, len(curve), lambda i: curve_wrong(curve, i)),
    ]:
        index = first_wrong(count, wrong)
        if index is not None:
            return number, index
    return 0, 0


# ---- the text

class Bad(Exception):
    """A text that is turned down, with the line that says why."""


def bad_number(position, rule):
    """The first bad number of the input, counted from 1, and what should stand there."""
    return Bad(f"number {position} of the input is bad: {rule}\n")


def whole(token):
    """A whole number below 2^64 in decimal, leading zeros allowed; else None."""
    digits = token.lstrip(b"0") or b"0"
    if not re.fullmatch(rb"[0-9]+", token) or len(digits) > 20 or int(digits) > LARGEST:
        return None
    return int(digits)


def real(token):
    """The f64 whose bits are 16 hexadecimal digits, the highest first; else None."""
    if not re.fullmatch(rb"[0-9a-fA-F]{16}", token):
        return None
    return struct.unpack(">d", bytes.fromhex(token.decode()))[0]


def entries(line, room, read, before, rule):
    """The figures of a line, which follow `before` others of the input; at most `room` of them."""
    values = []
    for token in re.findall(rb"[^ \t\r\n]+", line):
        value = read(token) if len(values) < room else None
        if value is None:
            raise bad_number(before + len(values) + 1, rule)
        values.append(value)
    return values


def parse(text):
    """The support, the endpoints, the heights and the curve of a text, or Bad."""
    if len(text) > TEXT_LIMIT:
        raise Bad(f"the input is longer than {TEXT_LIMIT} bytes\n")
    lines = (text.split(b"\n", 4) + [b""] * 4)[:5]
    support = entries(lines[0], 1, whole, 0, SUPPORT_RULE)
    if not support:
        raise bad_number(1, SUPPORT_RULE)
    endpoints = entries(lines[1], LIST_LIMIT, whole, 1, ENDPOINTS_RULE)
    heights = entries(lines[2], LIST_LIMIT, real, 1 + len(endpoints), HEIGHTS_RULE)
    curve = entries(lines[3], CURVE_LIMIT, real, 1 + len(endpoints) + len(heights), CURVE_RULE)
    entries(lines[4], 0, whole, 1 + len(endpoints) + len(heights) + len(curve), END_RULE)
    return support[0], endpoints, heights, curve


def told(number, index, support, endpoints, heights, curve):
    """What the program says of a number and an index."""
    return {
        0: "the tables are good",
        13: f"the lengths do not fit: {len(endpoints)} endpoints, {len(heights)} heights and {len(curve)} curve values, and not 129, 257 or 513 endpoints, "
            f"as many heights and {support} + 1 curve values",
        30: f"endpoint {index} is wrong: the first is 0, none is below the one before it, and the last is {support}",
        31: f"height {index} is wrong: each is finite, the first is above 0.999, the others are below the one before them, and the last is 0",
        32: f"curve value {index} is wrong: each is from 0 to 1",
    }[number]


def answer(text):
    """What the program prints for a text: number, index, and what they mean; for a bad text the one line that says what is bad."""
    try:
        tables = parse(text)
    except Bad as bad:
        return str(bad)
    number, index = judged(*tables)
    return f"{number} {index} {told(number, index, *tables)}\n"


def named_answer(name, read):
    """The line that names a file, and the answer to what `read` gives for it."""
    return f"== {name}\n" + answer(read(name))


if __name__ == "__main__":
    for argument in sys.argv[1:]:
        sys.stdout.write(named_answer(argument, lambda name: sys.stdin.buffer.read() if name == "-" else Path(name).read_bytes()))
