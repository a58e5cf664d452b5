#!/usr/bin/env python3
"""Writes the cases of crates/layer_cases and the texts of crates/layer_check, with what each program must print by layer_model.py.

  make_layer_cases.py [--check]

The tables are those that the Rust dumped for its layered draws (crates/rust_answers/data/layered_*.txt). Cases are fixed: each changes some figures of a copy
of the tables, or the lengths that are lent, and asks for the verdict and for six draws. The numbers come in the orders of document 01, with those of 02 [6] in
13's place. With --check nothing is written, and it says which files differ."""
import math
import struct
import sys
from fractions import Fraction
from pathlib import Path

import layer_model

ROOT = Path(__file__).resolve().parent.parent
DUMPS = ROOT / "crates" / "rust_answers" / "data"
CASES = ROOT / "crates" / "layer_cases"
TEXTS = ROOT / "crates" / "layer_check"
EXAMPLE = ROOT / "examples" / "layers.txt"
DEVIATIONS = {256: 6004799503160661 / 2**48, 258: 21.5, 768: 64.0}    # those of the Rust's draws by each dump
LARGEST = 2**64 - 1
LENGTH_LIMIT = 65536            # elements of an output
WORDS_A_ZERO = 5                # that a coefficient takes from words of 0: layer, coin, magnitude 0, and a 64-bit word below the threshold
ENDPOINTS, HEIGHTS, CURVE = 1000, 2000, 3000     # where each list begins in the program's room


# ---- figures

def bits(x):
    return struct.unpack("<Q", struct.pack("<d", x))[0]


def of_bits(pattern):
    return struct.unpack("<d", struct.pack("<Q", pattern))[0]


def above(x):
    return math.nextafter(x, math.inf)


def below(x):
    return math.nextafter(x, -math.inf)


INFINITE = bits(math.inf)
MINUS_INFINITE = bits(-math.inf)
NANS = [0x7FF8000000000000, 0x7FF0000000000001, 0xFFF8000000000000, 0xFFFFFFFFFFFFFFFF]
MINUS_ZERO = bits(-0.0)
LEAST = 1                       # the bits of the least f64 above 0
MINUS_LEAST = 2**63 + 1
LARGEST_FINITE = INFINITE - 1


class Tables:
    """A dump: the support, the deviation, the endpoints, and the bits of the heights and of the curve values."""

    def __init__(self, support):
        lines = {line.split()[0]: line.split()[2:] for line in (DUMPS / f"layered_{support}.txt").read_text().splitlines()[:4]}
        self.support = support
        self.deviation = DEVIATIONS.get(support)
        self.lists = {
            ENDPOINTS: [int(x) for x in lines["6"]],
            HEIGHTS: reals(lines["7"]),
            CURVE: reals(lines["8"]),
        }

    def lengths(self):
        return [len(self.lists[k]) for k in (ENDPOINTS, HEIGHTS, CURVE)]

    def changed(self, lengths, changes):
        """The lists as they are lent: of a room with zeros behind each list, so many."""
        lent = []
        for k, length in zip((ENDPOINTS, HEIGHTS, CURVE), lengths):
            room = self.lists[k] + [0] * max(0, length - len(self.lists[k]))
            for which, index, entry in changes:
                if which == k and index < len(room):
                    room[index] = entry
            lent.append(room[:length])
        return lent


def reals(words):
    """The bits of a list of reals, each given as m and e for m × 2^e."""
    return [bits(math.ldexp(int(m), int(e))) for m, e in zip(words[::2], words[1::2])]


# ---- what the library answers

def judged(support, lent):
    endpoints, heights, curve = lent
    return layer_model.judged(support, endpoints, [of_bits(b) for b in heights], [of_bits(b) for b in curve])


class Case:
    """A request with changes of the tables. Outputs hold 9 before a draw, and all words are 0."""

    def __init__(self, tables, changes=(), lengths=None, n=2, modulus=12289, length=4, coefficients=2, moduli=(12289, 40961), words=10, place=0):
        self.tables, self.changes, self.lengths = tables, list(changes), lengths or tables.lengths()
        self.n, self.modulus, self.length, self.coefficients, self.moduli = n, modulus, length, coefficients, moduli
        self.words, self.place = words, place

    def line(self):
        numbers = [self.n, self.modulus, self.length, self.coefficients, *self.moduli, self.words, self.place, *self.lengths]
        return " ".join(map(str, numbers + [x for which, index, entry in self.changes for x in (which + index, entry)])) + "\n"

    def passes(self):
        """Whether words of 0 draw a 0: 'magnitude 0 passes by the threshold of 0.5 / first height', a 64-bit word of 0 if that is above 0."""
        first = of_bits(self.tables.changed(self.lengths, self.changes)[1][0])
        return int(Fraction(0.5 / first) * 2**64) > 0

    def drawn(self, length, coefficients, refusals, fault):
        """A draw's answer and what its output holds: the first number that refuses, before or in the place of the tables; else what the words give."""
        number, index = next(((r, 0) for r in refusals if r), fault)
        place, held = self.place, "same"
        if number == 0:
            place, held = self.place + WORDS_A_ZERO * coefficients, "zeros"
            if place > self.words or (coefficients and not self.passes()):
                number, place = 23, self.place
        return f"{number} {index} {place} 0 0 {held if length else 'empty'}"

    def too_small(self, modulus):
        """Number 9: 'largest magnitude (M, eta, else 1) above modulus − 1'; 'modulus 0 gives 9'."""
        return 9 if self.tables.support > modulus - 1 else 0

    def answer(self):
        fault = judged(self.tables.support, self.tables.changed(self.lengths, self.changes))
        past_end = 22 if self.place > self.words else 0
        too_long = 6 if self.n > LENGTH_LIMIT else 0
        shape = 11 if self.length != self.coefficients * len(self.moduli) else 0
        crt = [past_end, shape, 6 if self.length > LENGTH_LIMIT else 0]
        for modulus in self.moduli:
            crt += [10 if modulus == 0 else 0, self.too_small(modulus)]
        draws = [
            self.drawn(self.n, self.n, [past_end, too_long], fault),
            self.drawn(self.n, self.n, [past_end, too_long, self.too_small(self.modulus)], fault),
            self.drawn(self.length, self.coefficients, crt, fault),
        ]
        return f"{fault[0]} {fault[1]} " + "".join(f"| {draw} " for draw in draws + draws) + "\n"


# ---- the cases

def endpoint_cases(t):
    last = len(t.lists[ENDPOINTS]) - 1
    xs = t.lists[ENDPOINTS]
    for i in (0, 1, 2, last // 2, last - 1, last):
        for entry in (0, 1, t.support - 1, t.support, t.support + 1, 2**63, LARGEST):
            yield Case(t, [(ENDPOINTS, i, entry)])
        if i > 0:
            for entry in (xs[i - 1], xs[i - 1] + 1, max(0, xs[i - 1] - 1)):
                yield Case(t, [(ENDPOINTS, i, entry)])
        if i < last:
            for entry in (xs[i + 1], xs[i + 1] + 1):
                yield Case(t, [(ENDPOINTS, i, entry)])


def height_cases(t):
    last = len(t.lists[HEIGHTS]) - 1
    ys = [of_bits(b) for b in t.lists[HEIGHTS]]
    for i in (0, 1, 2, last // 2, last - 1, last):
        for entry in [INFINITE, MINUS_INFINITE, *NANS, MINUS_ZERO, 0, LEAST, MINUS_LEAST, bits(1.0), bits(-1.0), LARGEST_FINITE]:
            yield Case(t, [(HEIGHTS, i, entry)])
        if i > 0:
            for y in (ys[i - 1], above(ys[i - 1]), below(ys[i - 1])):
                yield Case(t, [(HEIGHTS, i, bits(y))])
        if i < last:
            for y in (ys[i + 1], above(ys[i + 1]), below(ys[i + 1])):
                yield Case(t, [(HEIGHTS, i, bits(y))])
    for y in (0.999, below(0.999), above(0.999), 0.5):
        yield Case(t, [(HEIGHTS, 0, bits(y))])
        # a list that falls from there
        yield Case(t, [(HEIGHTS, 0, bits(y)), (HEIGHTS, 1, bits(0.4)), *[(HEIGHTS, i, bits(0.4 - 0.001 * i)) for i in range(2, 6)]])


def curve_cases(t):
    last = len(t.lists[CURVE]) - 1
    for i in (0, 1, last // 2, last - 1, last):
        for entry in [INFINITE, MINUS_INFINITE, *NANS, MINUS_ZERO, 0, LEAST, MINUS_LEAST, bits(1.0), bits(above(1.0)), bits(below(1.0)), bits(-1.0), bits(2.0)]:
            yield Case(t, [(CURVE, i, entry)])


def length_cases(t):
    e, h, c = t.lengths()
    for x in (0, 1, 2, 128, 130, 257, 513, 1000):
        yield Case(t, lengths=[x, h, c])
        yield Case(t, lengths=[e, x, c])
        yield Case(t, lengths=[x, x, c])
    for x in (0, 1, c - 1, c + 1, 5000):
        yield Case(t, lengths=[e, h, x])
    # all lengths come before any entry: a wrong one together with a wrong entry of each list
    for lengths in ([e - 1, h, c], [e, h + 1, c], [e, h, c - 1], [e, h, c + 1], [0, 0, 0], [e + 1, h + 1, c]):
        for change in ((ENDPOINTS, 0, 7), (HEIGHTS, 0, NANS[0]), (CURVE, 0, NANS[0])):
            yield Case(t, [change], lengths)
    # R of 256 and 512, by lists that go on with rising endpoints and falling heights
    for r in (256, 512):
        lengths = [r + 1, r + 1, c]
        yield Case(t, [(ENDPOINTS, r, t.support)], lengths)
        yield Case(t, [(ENDPOINTS, r, t.support), (HEIGHTS, r, 0)], lengths)


def pair_cases(t):
    e, h, c = (x - 1 for x in t.lengths())
    endpoint, height, value = (ENDPOINTS, e, t.support + 1), (HEIGHTS, h // 2, INFINITE), (CURVE, 0, bits(-1.0))
    for changes in ([endpoint, height], [endpoint, value], [height, value], [endpoint, height, value]):
        yield Case(t, changes)
    # two and more of one list: the first is named
    yield Case(t, [(ENDPOINTS, 0, 1), (ENDPOINTS, e, 0)])
    yield Case(t, [(ENDPOINTS, 100, 0), (ENDPOINTS, 50, 0)])
    yield Case(t, [(HEIGHTS, 90, NANS[0]), (HEIGHTS, 17, NANS[1]), (HEIGHTS, h, bits(1.0))])
    yield Case(t, [(HEIGHTS, 1, bits(0.9)), (HEIGHTS, 2, bits(0.9)), (HEIGHTS, 3, bits(0.9))])
    yield Case(t, [(CURVE, c, bits(2.0)), (CURVE, c - 1, NANS[2]), (CURVE, 200, MINUS_ZERO), (CURVE, 201, MINUS_LEAST)])
    # a good entry given twice, the last one counting
    yield Case(t, [(CURVE, 3, NANS[0]), (CURVE, 3, bits(0.5))])
    yield Case(t, [(HEIGHTS, h, MINUS_ZERO), (CURVE, c, MINUS_ZERO), (CURVE, 0, MINUS_ZERO)])


def order_cases(t):
    m = t.support
    e, h, c = t.lengths()
    faults = [
        {}, {"changes": [(ENDPOINTS, 0, 1)]}, {"changes": [(ENDPOINTS, e - 1, m - 1)]}, {"changes": [(HEIGHTS, 77, NANS[0])]}, {"changes": [(HEIGHTS, h - 1, LEAST)]},
        {"changes": [(CURVE, 100, bits(2.0))]}, {"changes": [(CURVE, c - 1, NANS[0])]}, {"lengths": [e, h, c - 1]}, {"lengths": [e - 1, h, c]},
    ]
    requests = [
        {"words": 3, "place": 4}, {"words": 0, "place": 1}, {"words": 10, "place": LARGEST}, {"words": 10, "place": 10}, {"words": 10, "place": 9},
        {"words": 0}, {"words": 9}, {"words": 10}, {"words": 64, "place": 7},
        {"n": 65537, "length": 65538, "coefficients": 32769}, {"n": 65536, "length": 65536, "coefficients": 32768},
        {"n": 65537, "length": 65538, "coefficients": 32769, "words": 2, "place": 3},
        {"modulus": 0, "moduli": (0, 12289)}, {"modulus": 1, "moduli": (12289, 0)}, {"modulus": m, "moduli": (m, 12289)}, {"modulus": m + 1, "moduli": (m + 1, m)},
        {"modulus": LARGEST, "moduli": (m, 0)}, {"modulus": 2**63, "moduli": (0, m)}, {"modulus": m + 1, "moduli": (m + 1, m + 1)},
        {"length": 3}, {"length": 5}, {"coefficients": 2**63}, {"coefficients": LARGEST}, {"length": 0}, {"length": 3, "moduli": (0, 0)},
        {"length": 3, "modulus": 0, "words": 0, "place": 1}, {"length": 65537, "n": 65537, "coefficients": 2},
        {"n": 0, "length": 0, "coefficients": 0}, {"n": 0, "length": 0, "coefficients": 0, "words": 0}, {"n": 0, "length": 0, "coefficients": 0, "words": 0, "place": 1},
        {"n": 0, "length": 0, "coefficients": 0, "modulus": 0, "moduli": (0, 0)}, {"n": 1, "length": 2, "coefficients": 1, "words": 5},
        {"n": 12, "length": 24, "coefficients": 12, "words": 64, "place": 4}, {"n": 13, "length": 26, "coefficients": 13, "words": 64, "place": 0},
    ]
    for request in requests:
        for fault in faults:
            yield Case(t, **fault, **request)


BAD_LINES = [
    "", "1 2 3", "2 12289 4 2 12289 40961 10 0 129 129", "2 12289 4 2 12289 40961 10 0 129 129 257 1000", "2 12289 4 2 12289 40961 10 0 129 129 257 1000 0 1001",
    "2 x 4 2 12289 40961 10 0 129 129 257", "2 12289 4 2 12289 40961 65 0 129 129 257", "70001 12289 4 2 12289 40961 10 0 129 129 257",
    "2 12289 70001 2 12289 40961 10 0 129 129 257", "2 12289 4 2 12289 40961 10 0 1001 129 257", "2 12289 4 2 12289 40961 10 0 129 1001 257",
    "2 12289 4 2 12289 40961 10 0 129 129 5001", "2 12289 4 2 12289 40961 10 0 129 129 18446744073709551616",
]


def case_files():
    """Name, text and answers of each file of cases."""
    for support, kinds in [
        (258, [endpoint_cases, height_cases, curve_cases, length_cases, pair_cases]), (768, [endpoint_cases, height_cases, curve_cases, pair_cases]),
        (256, [order_cases]),
    ]:
        t = Tables(support)
        cases = [case for kind in kinds for case in kind(t)]
        head = [[support, bits(t.deviation)]] + [t.lists[k] for k in (ENDPOINTS, HEIGHTS, CURVE)]
        text = "".join(" ".join(map(str, line)) + "\n" for line in head) + "".join(case.line() for case in cases)
        answers = "".join(case.answer() for case in cases)
        if support == 256:
            text += "".join(line + "\n" for line in BAD_LINES)
            answers += "bad line\n" * len(BAD_LINES)
        yield f"m{support}.txt", text, answers, cases


# ---- the texts of layer_check

def text_of(t, changes=(), lengths=None, figure="{:016x}"):
    endpoints, heights, curve = t.changed(lengths or t.lengths(), changes)
    lines = [str(t.support), " ".join(map(str, endpoints)), " ".join(map(figure.format, heights)), " ".join(map(figure.format, curve))]
    return "".join(line + "\n" for line in lines).encode()


def texts():
    """Name and text of each stored text."""
    small, wide = Tables(256), Tables(768)
    good = text_of(small)
    first, second, third, fourth = good.splitlines()
    one = b"3ff0000000000000"
    yield "good_256.txt", good
    yield "good_258.txt", text_of(Tables(258))
    yield "good_768.txt", text_of(wide)
    yield "good_4095.txt", text_of(Tables(4095))
    yield "text_upper_case.txt", text_of(small, figure="{:016X}")
    yield "text_crlf_tabs.txt", good.replace(b"\n", b"\r\n").replace(b" ", b"\t ")
    yield "text_no_last_newline.txt", good[:-1]
    yield "text_blank_lines_behind.txt", b"  000256\n" + good.split(b"\n", 1)[1] + b"\n \t\r\n\n"
    yield "endpoint_first.txt", text_of(small, [(ENDPOINTS, 0, 1)])
    yield "endpoint_falls.txt", text_of(small, [(ENDPOINTS, 77, small.lists[ENDPOINTS][76] - 1)])
    yield "endpoint_too_large.txt", text_of(small, [(ENDPOINTS, 77, 2560)])
    yield "endpoint_last.txt", text_of(small, [(ENDPOINTS, 128, 255)])
    yield "height_first.txt", text_of(small, [(HEIGHTS, 0, bits(0.999))])
    yield "height_not_a_number.txt", text_of(small, [(HEIGHTS, 40, NANS[3])])
    yield "height_equal.txt", text_of(small, [(HEIGHTS, 127, small.lists[HEIGHTS][126])])
    yield "height_last.txt", text_of(small, [(HEIGHTS, 128, LEAST)])
    yield "height_last_minus_zero.txt", text_of(small, [(HEIGHTS, 128, MINUS_ZERO)])
    yield "curve_above_1.txt", text_of(small, [(CURVE, 0, bits(above(1.0)))])
    yield "curve_below_0.txt", text_of(small, [(CURVE, 256, MINUS_LEAST)])
    yield "curve_infinite.txt", text_of(small, [(CURVE, 128, INFINITE)])
    yield "two_lists.txt", text_of(small, [(CURVE, 0, NANS[0]), (HEIGHTS, 100, NANS[0])])
    yield "lengths_endpoints.txt", text_of(small, lengths=[128, 129, 257])
    yield "lengths_heights.txt", text_of(small, [(ENDPOINTS, 0, 1)], lengths=[129, 130, 257])
    yield "lengths_curve.txt", text_of(small, lengths=[129, 129, 256])
    yield "lengths_support.txt", b"255\n" + good.split(b"\n", 1)[1]
    yield "lengths_none.txt", b"256\n"
    yield "lengths_none_of_largest.txt", b"18446744073709551615\n\n\n\n"
    yield "lengths_most.txt", b"5\n" + b"1 " * 1024 + b"\n" + (one + b" ") * 1024 + b"\n" + one
    yield "bad_empty.txt", b""
    yield "bad_newline_first.txt", b"\n" + good
    yield "bad_blank_first.txt", b" \t\r\n1\n"
    yield "bad_support_two.txt", b"256 1\n"
    yield "bad_support_letter.txt", b"2S6\n"
    yield "bad_support_hexadecimal.txt", b"0x100\n1\n"
    yield "bad_support_2_64.txt", b"18446744073709551616\n"
    yield "bad_support_minus.txt", b"-1\n"
    yield "bad_endpoint_letter.txt", b"256\n0 1 2b 3\n"
    yield "bad_endpoint_2_64.txt", b"256\n0 18446744073709551615 18446744073709551616\n"
    yield "bad_endpoint_point.txt", b"256\n0 1.0\n"
    yield "bad_endpoint_1025.txt", b"256\n" + b"1 " * 1025 + b"\n"
    yield "bad_height_short.txt", b"256\n0 1\n" + one + b" " + one[:15] + b"\n"
    yield "bad_height_long.txt", b"256\n0 1\n0" + one + b"\n"
    yield "bad_height_decimal.txt", b"256\n0 1\n1.0\n"
    yield "bad_height_letter.txt", b"256\n0 1\n" + one + b" 3fg0000000000000\n"
    yield "bad_height_1025.txt", b"256\n0 1\n" + (one + b" ") * 1025 + b"\n"
    yield "bad_curve_prefix.txt", b"256\n0\n" + one + b"\n" + one + b" 0x3ff00000000000\n"
    yield "bad_curve_comma.txt", b"256\n0\n" + one + b"\n" + one + b"," + one + b"\n"
    yield "bad_fifth_line.txt", good + b"\n" + one + b"\n"
    yield "bad_curve_wrapped.txt", b"\n".join([first, second, third, fourth[:1000], fourth[1000:]]) + b"\n"
    yield "bad_one_a_line.txt", b"256\n0\n1\n2\n"
    yield "bad_first_of_two.txt", b"256\n0 x 1\n3ff 4\n"


def example():
    """Tables of the dump with one endpoint mistyped: two digits exchanged."""
    t = Tables(258)
    i = next(i for i in range(77, 129) if int(str(t.lists[ENDPOINTS][i])[::-1]) < t.lists[ENDPOINTS][i - 1])
    return text_of(t, [(ENDPOINTS, i, int(str(t.lists[ENDPOINTS][i])[::-1]))])


# ---- the files

def files():
    """Path and bytes of every file."""
    stored = list(case_files())
    for name, text, _, _ in stored:
        yield CASES / "data" / name, text.encode()
    yield CASES / "args", "".join(name + "\n" for name, _, _, _ in stored).encode()
    yield CASES / "stdout", "".join(f"== {name}\n{answers}" for name, _, answers, _ in stored).encode()
    named = {"-": example(), **dict(texts())}
    yield EXAMPLE, named["-"]
    yield TEXTS / "stdin", named["-"]
    for name, text in list(named.items())[1:]:
        yield TEXTS / "data" / name, text
    yield TEXTS / "args", "".join(name + "\n" for name in named).encode()
    yield TEXTS / "stdout", "".join(layer_model.named_answer(name, named.get) for name in named).encode()


def main():
    differ = 0
    for path, content in files():
        if sys.argv[1:] != ["--check"]:
            path.parent.mkdir(parents=True, exist_ok=True)
            path.write_bytes(content)
        elif not path.exists() or path.read_bytes() != content:
            print(f"{path.relative_to(ROOT)} differs")
            differ += 1
    cases = sum(len(cases) for _, _, _, cases in case_files())
    print(f"{cases} cases, {len(dict(texts())) + 1} texts, {differ} files differ")
    sys.exit(differ != 0)


if __name__ == "__main__":
    main()
