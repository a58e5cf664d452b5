#!/usr/bin/env python3
"""Tests the model of layer tables on cases worked out by hand from document 01 and request [6] of document 02, and holds what make_layer_cases.py writes to the
files that are stored."""
import math
import unittest

import make_layer_cases
from layer_model import CURVE_RULE, END_RULE, ENDPOINTS_RULE, HEIGHTS_RULE, SUPPORT_RULE, TEXT_LIMIT, answer, bad_number, judged

NAN = math.nan
ONE = b"3ff0000000000000"


def good(r=128, support=3):
    """Tables of r layers by hand: endpoints 0, 1, 1, .. up to the support; heights 1, and then r − 1, r − 2, .. down to 0, over 1,024; a curve of halves."""
    return [support, [0] + [1] * (r - 1) + [support], [1.0] + [(r - i) / 1024 for i in range(1, r + 1)], [0.5] * (support + 1)]


def changed(which, index, entry, r=128, support=3):
    """The same with one entry changed: of list 1, 2 or 3."""
    tables = good(r, support)
    tables[which][index] = entry
    return tables


class Judged(unittest.TestCase):
    def told(self, expected, tables):
        self.assertEqual(judged(*tables), expected)

    def test_good(self):
        for r in (128, 256, 512):
            self.told((0, 0), good(r))
        self.told((0, 0), good(support=1))
        self.told((0, 0), good(support=4095))

    def test_layers(self):
        for r in (1, 64, 127, 129, 255, 257, 511, 513, 1024):
            self.told((13, 0), good(r))
        self.told((13, 0), [3, [], [], [0.5] * 4])

    def test_lengths(self):
        support, endpoints, heights, curve = good()
        self.told((13, 0), [support, endpoints[:-1], heights, curve])
        self.told((13, 0), [support, endpoints + [3], heights, curve])
        self.told((13, 0), [support, endpoints, heights[:-1], curve])
        self.told((13, 0), [support, endpoints, heights + [-1.0], curve])
        self.told((13, 0), [support, endpoints, heights, curve[:-1]])
        self.told((13, 0), [support, endpoints, heights, curve + [0.5]])
        self.told((13, 0), [2, endpoints, heights, curve])
        self.told((13, 0), [2**64 - 1, endpoints, heights, []])
        # endpoints of 256 layers with heights of 128
        self.told((13, 0), [support, good(256)[1], heights, curve])

    def test_lengths_before_entries(self):
        tables = good()
        tables[1][0], tables[2][5], tables[3][2] = 7, NAN, 2.0
        self.told((30, 0), tables)
        self.told((13, 0), tables[:3] + [tables[3][:-1]])
        self.told((13, 0), tables[:2] + [tables[2][:-1], tables[3]])

    def test_endpoints(self):
        self.told((30, 0), changed(1, 0, 1))
        self.told((30, 0), changed(1, 0, 2**64 - 1))
        # 1, 0, 1: the later of the pair 1, 0
        self.told((30, 2), changed(1, 2, 0))
        self.told((30, 64), changed(1, 64, 0))
        # 0, 0, 1 does not fall
        self.told((0, 0), changed(1, 1, 0))
        # too large: the list falls after it
        self.told((30, 65), changed(1, 64, 2))
        self.told((30, 65), changed(1, 64, 2**64 - 1))
        self.told((30, 128), changed(1, 127, 4))
        self.told((0, 0), changed(1, 127, 3))
        # the last is M
        self.told((30, 128), changed(1, 128, 2))
        self.told((30, 128), changed(1, 128, 4))
        self.told((30, 128), changed(1, 128, 0))

    def test_heights(self):
        for i in (0, 1, 64, 127, 128):
            for y in (math.inf, -math.inf, NAN):
                self.told((31, i), changed(2, i, y))
        self.told((31, 0), changed(2, 0, 0.999))
        self.told((31, 0), changed(2, 0, 0.5))
        self.told((0, 0), changed(2, 0, math.nextafter(0.999, 1)))
        self.told((0, 0), changed(2, 0, 5e300))
        # equal to the one before, and above it
        self.told((31, 64), changed(2, 64, 65 / 1024))
        self.told((31, 64), changed(2, 64, 0.9))
        # equal to the one after, and below it: the later is wrong
        self.told((31, 65), changed(2, 64, 63 / 1024))
        self.told((31, 65), changed(2, 64, -1.0))
        # the last is 0, and −0.0 is 0
        self.told((31, 128), changed(2, 128, 5e-324))
        self.told((31, 128), changed(2, 128, -5e-324))
        self.told((31, 128), changed(2, 128, 1.0))
        self.told((0, 0), changed(2, 128, -0.0))
        # 0 before the last: the last is not below it
        self.told((31, 128), changed(2, 127, 0.0))

    def test_curve(self):
        for i in (0, 1, 3):
            for p in (math.inf, -math.inf, NAN, -5e-324, math.nextafter(1.0, 2), -1.0, 2.0):
                self.told((32, i), changed(3, i, p))
            for p in (0.0, -0.0, 1.0, 5e-324):
                self.told((0, 0), changed(3, i, p))

    def test_order(self):
        tables = good()
        tables[3][0] = NAN
        self.told((32, 0), tables)
        tables[2][128] = 0.1
        self.told((31, 128), tables)
        tables[1][128] = 2
        self.told((30, 128), tables)
        tables[1][3] = 0
        self.told((30, 3), tables)


class Text(unittest.TestCase):
    def bad(self, position, rule, text):
        self.assertEqual(answer(text), str(bad_number(position, rule)))

    def test_tables(self):
        endpoints = b"0 " + b"1 " * 127 + b"3"
        # heights 1 and then 2^-1, 2^-2, .. and 0: exponents 1023 down
        heights = b" ".join(b"%03x0000000000000" % (1023 - i) for i in range(128)) + b" " + b"0" * 16
        curve = b"3FE0000000000000 " * 4
        text = b"3\n" + endpoints + b"\n" + heights + b"\n" + curve
        self.assertEqual(answer(text), "0 0 the tables are good\n")
        self.assertEqual(answer(text.replace(b"\n", b"\r\n").replace(b" ", b"\t")), "0 0 the tables are good\n")
        self.assertEqual(answer(text.replace(b"0 1 1", b"0 1 0", 1)),
                         "30 2 endpoint 2 is wrong: the first is 0, none is below the one before it, and the last is 3\n")
        self.assertEqual(answer(text.replace(b"3ff0000000000000", b"FFF8000000000000", 1)),
                         "31 0 height 0 is wrong: each is finite, the first is above 0.999, the others are below the one before them, and the last is 0\n")
        self.assertEqual(answer(text[:-17] + b"3ff0000000000001"), "32 3 curve value 3 is wrong: each is from 0 to 1\n")
        self.assertEqual(answer(b"2" + text[1:]), "13 0 the lengths do not fit: 129 endpoints, 129 heights and 4 curve values, and not 129, 257 or 513 endpoints, "
                         "as many heights and 2 + 1 curve values\n")

    def test_bad(self):
        self.bad(1, SUPPORT_RULE, b"")
        self.bad(1, SUPPORT_RULE, b"\n3\n")
        self.bad(2, SUPPORT_RULE, b"3 3\n")
        self.bad(1, SUPPORT_RULE, b"18446744073709551616")
        self.bad(3, ENDPOINTS_RULE, b"3\n0 1a\n")
        self.bad(1026, ENDPOINTS_RULE, b"3\n" + b"0 " * 1025)
        self.bad(4, HEIGHTS_RULE, b"3\n0 1\n3ff000000000000\n")
        self.bad(4, HEIGHTS_RULE, b"3\n0 1\n" + ONE + b"0\n")
        self.bad(1027, HEIGHTS_RULE, b"3\n0\n" + (ONE + b" ") * 1025)
        self.bad(2, CURVE_RULE, b"3\n\n\n0.5\n")
        self.bad(32770, CURVE_RULE, b"3\n\n\n" + (ONE + b" ") * 32769)
        self.bad(3, END_RULE, b"3\n\n\n" + ONE + b"\n\n0\n")

    def test_longest(self):
        self.assertTrue(answer(b"3".ljust(TEXT_LIMIT)).startswith("13 0 the lengths"))
        self.assertEqual(answer(b"3".ljust(TEXT_LIMIT + 1)), "the input is longer than 1048576 bytes\n")


class Stored(unittest.TestCase):
    def test_files(self):
        for path, content in make_layer_cases.files():
            self.assertTrue(path.exists() and path.read_bytes() == content, path)


if __name__ == "__main__":
    unittest.main()
