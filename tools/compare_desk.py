#!/usr/bin/env python3
"""Puts random requests to the desk's entry and to its model, and compares the number, the place, both sums and every byte of the output.

  compare_desk.py LIBRARY COUNT SEED      (LIBRARY: a shared object made of libdesk.a, see desk_callers/README.md)

Guard bytes stand around the output. It prints how often each number came, and how many answers differ; the exit status is 1 where one does."""
import collections
import ctypes
import random
import sys
from pathlib import Path

from desk_model import desk

sys.path.insert(0, str(Path(__file__).resolve().parent.parent / "desk_callers" / "python"))
from desk import entry  # noqa: E402

GUARD = bytes(range(160, 224))
LENGTHS = (0, 1, 2, 3, 5, 8, 16, 31, 32, 33, 64, 100, 257)
MODULI = (0, 0, 0, 1, 2, 3, 7, 33, 3329, 2**32 - 1)
SKIPPED = (0xFFFFFFFF, 0xFFFFFFFE, 0xF3F4F5F6, 0xF2F2F2F2)   # passed over by choices, and bytes around 243


def words_for(rng):
    """The bytes of words, few or many, one in eight of them one that choices or bytes pass over; now and then no whole number of them."""
    count = rng.choice((0, 1, 2, 10, 60, 300, 700))
    words = [rng.choice(SKIPPED) if rng.randrange(8) == 0 else rng.getrandbits(32) for _ in range(count)]
    return b"".join(w.to_bytes(4, "little") for w in words) + bytes(rng.choice((0,) * 60 + (1, 2, 3)))


def request(rng):
    """Kind, A, B, modulus, the words' bytes, the output's bytes and the place, most of them good, each sometimes bad."""
    n = rng.choice(LENGTHS)
    kind = rng.choice((1, 2, 3, 4, 5, 6, 7, 8, 9) * 4 + (0, 10, rng.getrandbits(32)))
    a = {5: rng.choice((0, 1, 2, 4, 8, 16)), 6: rng.choice((0, 1, 2, 3, 8, 32)), 9: rng.randrange(34)}.get(kind, rng.randrange(n + 2))
    b = rng.randrange(max(n - a, 0) + 2)
    words = words_for(rng)
    output = rng.randbytes(8 * n + rng.choice((0,) * 60 + (1, 4, 7)))
    place = rng.choice((0, 0, 0, 1, 2, rng.randrange(len(words) // 4 + 2), rng.randrange(len(words) // 4 + 2), 2**64 - 1))
    return kind, a, b, rng.choice(MODULI), words, output, place


def asked(desk_draw, kind, a, b, modulus, words, output, place):
    """What the entry answers. The sums are no zeros before the call."""
    room = ctypes.create_string_buffer(GUARD + output + GUARD, len(output) + 2 * len(GUARD))
    lent = ctypes.create_string_buffer(words, max(len(words), 1))
    at, skipped_words, skipped_bytes = ctypes.c_size_t(place), ctypes.c_uint64(99), ctypes.c_uint64(99)
    start = ctypes.cast(ctypes.addressof(room) + len(GUARD), ctypes.c_char_p)
    number = desk_draw(kind, a, b, modulus, ctypes.cast(lent, ctypes.c_char_p), len(words), start, len(output), at, skipped_words, skipped_bytes)
    if not room.raw.startswith(GUARD) or not room.raw.endswith(GUARD) or lent.raw[:len(words)] != words:
        return "a byte that is not the output's was written"
    return number, at.value, skipped_words.value, skipped_bytes.value, room.raw[len(GUARD):-len(GUARD)]


def main():
    if len(sys.argv) != 4:
        sys.exit(__doc__)
    desk_draw, count, rng = entry(sys.argv[1]), int(sys.argv[2]), random.Random(int(sys.argv[3]))
    numbers = collections.Counter()
    differences = 0
    for _ in range(count):
        asks = request(rng)
        answer = desk(*asks)
        numbers[answer[0]] += 1
        if asked(desk_draw, *asks) != answer:
            differences += 1
            print("differs:", asks)
    print(f"{count} requests:", ", ".join(f"{n} {numbers[n]} times" for n in sorted(numbers)))
    print(differences, "differ")
    return 1 if differences else 0


if __name__ == "__main__":
    sys.exit(main())
