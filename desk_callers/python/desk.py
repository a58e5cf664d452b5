#!/usr/bin/env python3
"""A caller of the desk's entry in Python. A question is asked by numbers, and what comes of it is printed as the program keysheet does with `skipped`.

  desk.py LIBRARY      (a shared object made of libdesk.a: cc -shared -o libdesk.so -Wl,--whole-archive target/staticlib/libdesk.a -Wl,--no-whole-archive)"""
import ctypes
import struct
import sys
from collections import namedtuple

MAX_COEFFICIENTS = 4096
Drawn = namedtuple("Drawn", "coefficients place skipped_words skipped_bytes")


class Refused(Exception):
    """A request that is refused, with its number; include/desk.h says what each means."""

    def __init__(self, number):
        super().__init__(f"refused by {number}")
        self.number = number


def entry(library):
    """The entry of a shared object, with the types of include/desk.h."""
    function = ctypes.CDLL(library).desk_draw
    u32, u64, size = ctypes.c_uint32, ctypes.c_uint64, ctypes.c_size_t
    function.restype = u32
    function.argtypes = [u32, u32, u32, u32, ctypes.c_char_p, size, ctypes.c_char_p, size, ctypes.POINTER(size), ctypes.POINTER(u64), ctypes.POINTER(u64)]
    return function


def draw(desk_draw, kind, n, words, a=0, b=0, modulus=0, place=0):
    """Draws n coefficients from the words, from a place on; modulus 0 asks for signed ones. Raises Refused."""
    lent = struct.pack(f"<{len(words)}I", *words)
    # One coefficient more than the most is refused as any greater number is.
    output = ctypes.create_string_buffer(8 * min(n, MAX_COEFFICIENTS + 1))
    at, skipped_words, skipped_bytes = ctypes.c_size_t(place), ctypes.c_uint64(), ctypes.c_uint64()
    number = desk_draw(kind, a, b, modulus, lent, len(lent), output, len(output), at, skipped_words, skipped_bytes)
    if number != 0:
        raise Refused(number)
    return Drawn(struct.unpack(f"<{n}q", output.raw), at.value, skipped_words.value, skipped_bytes.value)


def show(*request, **more):
    """Prints the number, the words used so far and n, then the coefficients, then what was skipped; for a refusal its number and zeros."""
    try:
        drawn = draw(*request, **more)
    except Refused as refused:
        print(refused.number, 0, 0)
        return
    print(0, drawn.place, len(drawn.coefficients))
    print(*drawn.coefficients)
    print(drawn.skipped_words, drawn.skipped_bytes)


def main():
    if len(sys.argv) != 2:
        sys.exit(__doc__)
    desk_draw = entry(sys.argv[1])
    # The question of examples/example.sheet: sparse ternary.
    show(desk_draw, 2, 4, [0xE4])
    # That of examples/skipped.sheet: a composition of two minus ones and one 1, here as residues modulo 7 and after one word of another's.
    show(desk_draw, 8, 6, [0, 0xFFFFFFFF, 0xFFFFFFFF, 1, 0xFFFFFFFC, 0xFFFFFFFF, 0xFFFFFFFB], a=2, b=1, modulus=7, place=1)
    # Five ones among four coefficients: refused by 7.
    show(desk_draw, 4, 4, [0xE4], a=5)


if __name__ == "__main__":
    main()
