#!/usr/bin/env python3
"""A model of the program keysheet, written from documents 01 and 02 alone: a sheet on standard input, the answer's text on standard output.

  keysheet_model.py [skipped]      (skipped: a third line with the words and the bytes skipped, document 02 [1])

It is the independent source of the stored answers, so it shares nothing with the Rattle code and aims to be read, not to be fast."""
import struct
import sys

SHEET_LIMIT = 65536     # bytes of a sheet
LENGTH_LIMIT = 4096     # coefficients of a sheet
WORD_LIMIT = 8192       # words of a sheet
OUTPUT_LIMIT = 65536    # coefficients of any draw
LARGEST = 2**64 - 1     # a byte sum above it is given as it


class Refused(Exception):
    """A call that is refused, with its number."""

    def __init__(self, number):
        super().__init__(number)
        self.number = number


class Words:
    """A lent list of 32-bit words and the place in it, with the words that choices passed over and the bytes that were rejected."""

    def __init__(self, words, place=0):
        self.words = words
        self.place = place
        self.skipped_words = 0
        self.skipped_bytes = 0

    def word(self):
        if self.place == len(self.words):
            raise Refused(23)
        self.place += 1
        return self.words[self.place - 1]

    def wide(self):
        """A 64-bit word is two words, low half first."""
        low = self.word()
        return low + (self.word() << 32)

    def choose(self, k):
        """A choice among k skips a word that is not below k * floor(2^32 / k), and gives the remainder by k."""
        while True:
            w = self.word()
            if w < k * (2**32 // k):
                return w % k
            self.skipped_words += 1


def uniform_binary(words, n):
    """32 bits a word, lowest first; floor(n / 32) + 1 words are read, also for n = 0."""
    read = [words.word() for _ in range(n // 32 + 1)]
    return [read[i // 32] >> (i % 32) & 1 for i in range(n)]


def sparse_ternary(words, n):
    """16 two-bit draws a word: 0 and 1 give 0, 2 gives 1, 3 gives -1."""
    read = [words.word() for _ in range((n + 15) // 16)]
    return [(0, 0, 1, -1)[read[i // 16] >> (2 * (i % 16)) & 3] for i in range(n)]


def uniform_ternary(words, n):
    """Bytes, lowest first, 243..255 skipped; five base-3 digits, lowest first, 0, 1, 2 giving -1, 0, 1. Bytes after the last accepted one are
    not looked at, so they are not rejected either."""
    out = []
    pending = []
    while len(out) < n:
        if not pending:
            w = words.word()
            pending = [w >> shift & 255 for shift in (0, 8, 16, 24)]
        byte = pending.pop(0)
        if byte >= 243:
            words.skipped_bytes += 1
            continue
        for _ in range(5):
            out.append(byte % 3 - 1)
            byte //= 3
    return out[:n]


def insert(words, out, value):
    """At index i = len(out): s is chosen among i + 1, place s is copied to i, the value is put at s."""
    s = words.choose(len(out) + 1)
    out.append(out[s] if s < len(out) else value)
    out[s] = value


def fixed_composition(words, n, minus, ones):
    """The commonest value fills (ties: 0, then -1, then 1); the other two follow in that order."""
    weights = [(0, n - minus - ones), (-1, minus), (1, ones)]
    most = max(weight for _, weight in weights)
    fill = next(value for value, weight in weights if weight == most)
    out = [fill] * most
    for value, weight in weights:
        if value != fill:
            for _ in range(weight):
                insert(words, out, value)
    return out


def fixed_binary_weight(words, n, h):
    """Ones into zeros if h <= n - h, else zeros into ones."""
    base, value, count = (0, 1, h) if h <= n - h else (1, 0, n - h)
    out = [base] * (n - count)
    for _ in range(count):
        insert(words, out, value)
    return out


def fixed_ternary_weight(words, n, h):
    """Insertion at n-h..n-1, sign bit 1 for 1 and 0 for -1, 32 signs a word read before the choice; with h = n only signs are read."""
    signs = []

    def sign():
        if not signs:
            w = words.word()
            signs.extend(w >> i & 1 for i in range(32))
        return 1 if signs.pop(0) else -1

    if h == n:
        return [sign() for _ in range(n)]
    out = [0] * (n - h)
    for _ in range(h):
        value = sign()
        insert(words, out, value)
    return out


def blocks(words, n, size, at_most_one):
    """A choice for each block says where its one stands; the last choice of at most one leaves it zero."""
    out = []
    for _ in range(n // size):
        s = words.choose(size + 1 if at_most_one else size)
        out.extend(1 if i == s else 0 for i in range(size))
    return out


def centered_binomial(words, n, eta):
    """Ones of the low eta bits minus ones of the next eta bits of a 64-bit word."""
    out = []
    for _ in range(n):
        w = words.wide()
        mask = (1 << eta) - 1
        out.append(bin(w & mask).count("1") - bin(w >> eta & mask).count("1"))
    return out


def draw(kind, n, a, b, modulus, words):
    """The coefficients of a request with one of the nine kinds, or Refused: the numbers of making, then those of the draw in their order. (A sheet
    draws from place 0, which is never past the end.)"""
    if kind in (5, 6) and a == 0:
        raise Refused(5)
    if kind == 9 and not 1 <= a <= 32:
        raise Refused(4)
    if words.place > len(words.words):
        raise Refused(22)
    if n > OUTPUT_LIMIT:
        raise Refused(6)
    if kind in (4, 7) and a > n or kind == 8 and a + b > n:
        raise Refused(7)
    if kind in (5, 6) and (n == 0 or n % a != 0):
        raise Refused(8)
    # the sheet's modulus 0 asks for signed output, so neither 9 for 0 nor 10 can come here
    if modulus and (a if kind == 9 else 1) > modulus - 1:
        raise Refused(9)
    if kind == 1:
        signed = uniform_binary(words, n)
    elif kind == 2:
        signed = sparse_ternary(words, n)
    elif kind == 3:
        signed = uniform_ternary(words, n)
    elif kind == 4:
        signed = fixed_binary_weight(words, n, a)
    elif kind in (5, 6):
        signed = blocks(words, n, a, kind == 5)
    elif kind == 7:
        signed = fixed_ternary_weight(words, n, a)
    elif kind == 8:
        signed = fixed_composition(words, n, a, b)
    else:
        signed = centered_binomial(words, n, a)
    return [v + modulus if v < 0 else v for v in signed] if modulus else signed


def parse(sheet):
    """The fields of a sheet and its words, or Refused(14)."""
    if not 32 <= len(sheet) <= SHEET_LIMIT:
        raise Refused(14)
    kind, n, a, b, count, offset, modulus, last = struct.unpack_from("<8I", sheet)
    if not 1 <= kind <= 9 or last != 0 or n > LENGTH_LIMIT or count > WORD_LIMIT:
        raise Refused(14)
    if offset < 32 or offset + 4 * count > len(sheet):
        raise Refused(14)
    return kind, n, a, b, modulus, list(struct.unpack_from(f"<{count}I", sheet, offset))


def answer(sheet, skipped=False):
    """The text that keysheet prints for a sheet: two lines, and with `skipped` a third; the one line of a refusal either way."""
    try:
        kind, n, a, b, modulus, words = parse(sheet)
        lent = Words(words)
        coefficients = draw(kind, n, a, b, modulus, lent)
    except Refused as refused:
        return f"{refused.number} 0 0\n"
    text = f"0 {lent.place} {n}\n" + " ".join(map(str, coefficients)) + "\n"
    if skipped:
        text += f"{lent.skipped_words} {min(lent.skipped_bytes, LARGEST)}\n"
    return text


if __name__ == "__main__":
    if sys.argv[1:] not in ([], ["skipped"]):
        sys.exit(__doc__)
    sys.stdout.write(answer(sys.stdin.buffer.read(SHEET_LIMIT + 1), sys.argv[1:] == ["skipped"]))
