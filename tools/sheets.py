"""The layout of a sheet, shared by the tools: eight little-endian u32 (kind, n, A, B, word count, word offset, modulus, 0), then words."""
import struct

KINDS = {
    1: "uniform-binary",
    2: "sparse-ternary",
    3: "uniform-ternary",
    4: "binary-weight",
    5: "block-at-most-one",
    6: "block-exactly-one",
    7: "ternary-weight",
    8: "composition",
    9: "centered-binomial",
}


# A sheet with more is answered by 14.
MOST_COEFFICIENTS = 4096
MOST_WORDS = 8192


def sheet(kind, n, a, b, words, modulus=0, last=0, offset=32, count=None):
    """The bytes of a sheet; count and offset can be given wrong on purpose."""
    count = len(words) if count is None else count
    head = struct.pack("<8I", kind, n, a, b, count, offset, modulus, last)
    return head + b"\0" * max(0, offset - 32 if offset < 65536 else 0) + struct.pack(f"<{len(words)}I", *words)
