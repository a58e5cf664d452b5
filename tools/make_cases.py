#!/usr/bin/env python3
"""Writes the stored sheets of the gate and their answers by the model: make_cases.py CRATE_FOLDER

CRATE_FOLDER gets data/NAME.sheet for each case, args (files' names, a line each: those of PLAIN, the word `skipped`, and all of them) and stdout
(for each name a line `== NAME.sheet` and then the answer's lines, with the third line after `skipped`). The cases are fixed: random words come
from a generator with the seed below."""
import random
import struct
import sys
from pathlib import Path

from keysheet_model import answer
from sheets import KINDS, sheet

SEED = 20261115
LENGTHS = (0, 1, 2, 4, 5, 6, 15, 16, 17, 31, 32, 33, 63, 64, 65)
SKIPPED = (0xFFFFFFFF, 0xFFFFFFFE, 0xFFFFFFF3, 0xF3F4F5F6, 0xF2F2F2F2)   # passed over by choices, and bytes around 243
# answered without the third line too: document 01's printed sheet, one of each kind, skipped words and bytes, an empty draw, refusals
PLAIN = ("printed", "k1_n33_0", "k2_n17_0", "k3_n33_0", "k4_n33_2", "k5_n32_3", "k6_n32_3", "k7_n33_2", "k8_n33_2", "k9_n17_0",
         "skips_composition", "skips_bytes_last_word", "k2_empty", "weight_4", "kind_0", "skips_short_choice")


def words_for(rng, count):
    """Random words, one in eight of them one that choices or bytes pass over."""
    return [rng.choice(SKIPPED) if rng.randrange(8) == 0 else rng.getrandbits(32) for _ in range(count)]


def parameters(kind, n, rng):
    """A and B that the kind accepts at this length, several where they change the path."""
    if kind == 4:
        return sorted({(h, 0) for h in (0, 1, n // 2, max(0, n // 2 + 1), n) if h <= n})
    if kind in (5, 6):
        return [(size, 0) for size in (1, 2, 3, 4, 8, 31, 64) if n and n % size == 0] or [(2, 0)]
    if kind == 7:
        return sorted({(h, 0) for h in (0, 1, n // 2, max(0, n - 1), n) if h <= n})
    if kind == 8:
        third = n // 3
        return sorted({(0, 0), (third, third), (third, n - 2 * third), (n - third, third), (n, 0), (0, n)})
    if kind == 9:
        return [(eta, 0) for eta in (1, 2, 3, 21, 32)]
    return [(0, 0)]


def used(data):
    """How many words the model uses, or None where it refuses."""
    head = answer(data).split("\n")[0].split()
    return int(head[1]) if head[0] == "0" else None


def drawn(rng):
    """Every kind at every length, signed and with a modulus, with plenty of words; some with exactly enough and one short."""
    for kind in KINDS:
        for n in LENGTHS:
            for i, (a, b) in enumerate(parameters(kind, n, rng)):
                words = words_for(rng, 3 * n + 40)
                modulus = rng.choice((0, 0, 2, 3, 17, 3329, 2**32 - 1))
                yield f"k{kind}_n{n}_{i}", sheet(kind, n, a, b, words, modulus)
                if i == 0 and n in (5, 16, 33, 64):
                    need = used(sheet(kind, n, a, b, words, 0))
                    if need is not None:
                        yield f"k{kind}_n{n}_exact", sheet(kind, n, a, b, words[:need], 0)
                        if need:
                            yield f"k{kind}_n{n}_short", sheet(kind, n, a, b, words[:need - 1], 0)


def bounds(rng):
    """The largest lengths and word counts, and no words at all."""
    for kind, a, b in ((1, 0, 0), (2, 0, 0), (3, 0, 0), (4, 100, 0), (5, 64, 0), (6, 4096, 0), (7, 50, 0), (8, 30, 30)):
        yield f"k{kind}_n4096", sheet(kind, 4096, a, b, words_for(rng, 1200))
    yield "k9_n4096", sheet(9, 4096, 21, 0, words_for(rng, 8192), 65537)
    yield "k4_n4096_dense", sheet(4, 4096, 2048, 0, words_for(rng, 2200))
    yield "k7_n4096_full", sheet(7, 4096, 4096, 0, words_for(rng, 128), 7)
    yield "n_over", sheet(1, 4097, 0, 0, words_for(rng, 200))
    yield "words_over", sheet(1, 4, 0, 0, words_for(rng, 8193))
    for kind in KINDS:
        yield f"k{kind}_no_words", sheet(kind, 4, 2, 1, [])
        yield f"k{kind}_empty", sheet(kind, 0, 1, 0, [])


def refused(rng):
    """Numbers of making and of the draw, alone and two at a time."""
    w = words_for(rng, 40)
    yield "block_zero_5", sheet(5, 4, 0, 0, w)
    yield "block_zero_6", sheet(6, 4, 0, 0, w)
    yield "block_zero_empty", sheet(6, 0, 0, 0, w)
    yield "eta_zero", sheet(9, 4, 0, 0, w)
    yield "eta_33", sheet(9, 4, 33, 0, w)
    yield "eta_max", sheet(9, 4, 2**32 - 1, 0, w)
    yield "weight_4", sheet(4, 4, 5, 0, w)
    yield "weight_7", sheet(7, 4, 5, 0, w)
    yield "weight_8", sheet(8, 4, 3, 2, w)
    yield "weight_8_max", sheet(8, 4, 2**32 - 1, 2**32 - 1, w)
    yield "weight_before_modulus", sheet(4, 4, 5, 0, w, 1)
    yield "block_length", sheet(5, 5, 2, 0, w)
    yield "block_length_zero", sheet(5, 0, 2, 0, w)
    yield "block_before_modulus", sheet(6, 5, 2, 0, w, 1)
    yield "block_huge", sheet(5, 4, 2**32 - 1, 0, w)
    for kind in KINDS:
        yield f"k{kind}_modulus_1", sheet(kind, 4, 2, 1, w, 1)
        yield f"k{kind}_modulus_2", sheet(kind, 4, 2, 1, w, 2)
    yield "modulus_before_short", sheet(1, 4, 0, 0, [], 1)
    yield "eta_modulus_equal", sheet(9, 4, 7, 0, w, 7)
    yield "eta_modulus_above", sheet(9, 4, 7, 0, w, 8)
    yield "eta_empty_modulus", sheet(9, 0, 7, 0, w, 7)


def damaged(rng):
    """Sheets that number 14 refuses, each for one cause, and their neighbours that pass."""
    w = words_for(rng, 40)
    good = sheet(1, 4, 0, 0, w)
    for size in (0, 1, 4, 31, 32, 33, 35):
        yield f"cut_{size}", good[:size]
    yield "no_words_at_end", sheet(2, 0, 0, 0, [])
    for kind in (0, 10, 11, 255, 256, 2**31, 2**32 - 1):
        yield f"kind_{kind}", sheet(kind, 4, 2, 1, w)
    for last in (1, 256, 2**32 - 1):
        yield f"last_{last}", sheet(1, 4, 0, 0, w, last=last)
    for offset in (0, 1, 31, 32):
        yield f"offset_{offset}", sheet(1, 4, 0, 0, w, offset=offset)
    for gap in (1, 2, 3, 4, 7, 100):
        yield f"gap_{gap}", sheet(1, 4, 0, 0, w, offset=32 + gap)
    yield "offset_end_no_words", struct.pack("<8I", 2, 0, 0, 0, 0, 32, 0, 0)
    yield "offset_past_end_no_words", struct.pack("<8I", 2, 0, 0, 0, 0, 33, 0, 0)
    yield "count_one_more", sheet(1, 4, 0, 0, w, count=len(w) + 1)
    yield "count_one_less", sheet(1, 4, 0, 0, w, count=len(w) - 1)
    yield "offset_wraps", struct.pack("<8I", 1, 4, 0, 0, 8, 2**32 - 32, 0, 0) + bytes(64)
    yield "count_max", struct.pack("<8I", 1, 4, 0, 0, 2**32 - 1, 32, 0, 0) + bytes(64)
    yield "count_wraps", struct.pack("<8I", 1, 4, 0, 0, 2**30, 32, 0, 0) + bytes(64)
    yield "n_max", sheet(1, 2**32 - 1, 0, 0, w)
    yield "unused_fields", sheet(1, 4, 2**32 - 1, 2**32 - 1, w)
    yield "full_size", sheet(1, 4, 0, 0, w) + bytes(65536 - 32 - 4 * len(w))


def skips(rng):
    """Sheets for the third line: words that choices pass over and bytes that are rejected, few and many, and draws that skip none; document 01's
    printed sheet among these."""
    high = 0xFFFFFFFF   # passed over by every choice but one among a power of two
    yield "printed", sheet(2, 4, 0, 0, [0xE4])
    yield "skips_one_choice", sheet(4, 3, 1, 0, [high, 0xFFFFFFFE])
    yield "skips_composition", sheet(8, 6, 2, 1, [high, high, 1, 0xFFFFFFFC, high, 0xFFFFFFFB])
    yield "skips_composition_residues", sheet(8, 6, 2, 1, [high, high, 1, 0xFFFFFFFC, high, 0xFFFFFFFB], 7)
    yield "skips_none_power_of_two", sheet(6, 8, 4, 0, [high, high])
    yield "skips_blocks_exactly_one", sheet(6, 6, 3, 0, [high, 0xFFFFFFFE, high, 0])
    yield "skips_blocks_at_most_one", sheet(5, 4, 2, 0, [high, 0xFFFFFFFE, high, high, 0])
    yield "skips_blocks_many", sheet(6, 4095, 5, 0, [high, 3] * 819)
    yield "skips_weight_signs_used", sheet(7, 3, 2, 0, [high, 0, high, 1])
    yield "skips_weight_second_signs", sheet(7, 34, 33, 0, [high, *range(1, 33), high, high, 33])
    yield "skips_weight_full", sheet(7, 70, 70, 0, [high, high, high])
    yield "skips_weight_dense", sheet(4, 33, 20, 0, words_for(rng, 60))
    yield "skips_all_words_but_one", sheet(4, 3, 1, 0, [high] * 8191 + [2])
    yield "skips_bytes_last_word", sheet(3, 5, 0, 0, [0xF405F3FF])
    yield "skips_bytes_after_last", sheet(3, 5, 0, 0, [0xFFFFFF05])
    yield "skips_bytes_before_last", sheet(3, 5, 0, 0, [0x05FFFFFF])
    yield "skips_bytes_two_words", sheet(3, 6, 0, 0, [0xF7F600F5, 0xFFFFFF02])
    yield "skips_bytes_whole_words", sheet(3, 1, 0, 0, [high, high, 0xF2])
    yield "skips_bytes_edge", sheet(3, 10, 0, 0, [0xF2F3F2F4])
    yield "skips_bytes_none", sheet(3, 20, 0, 0, [0xF2F2F2F2])
    yield "skips_bytes_many", sheet(3, 4096, 0, 0, [0xFFF300F4, 0x010203FF] * 206)
    yield "skips_bytes_residues", sheet(3, 6, 0, 0, [0xF7F600F5, 0xFFFFFF02], 3329)
    yield "skips_none_binary", sheet(1, 2, 0, 0, [high])
    yield "skips_none_binomial", sheet(9, 2, 2, 0, [high] * 4, 17)
    yield "skips_empty_ternary", sheet(3, 0, 0, 0, [high])
    yield "skips_empty_composition", sheet(8, 0, 0, 0, [high])
    yield "skips_short_choice", sheet(4, 3, 1, 0, [high])
    yield "skips_short_second_choice", sheet(8, 6, 2, 1, [high, high, 1, high])
    yield "skips_short_bytes", sheet(3, 6, 0, 0, [0xF7F600F5])
    yield "skips_short_blocks", sheet(6, 6, 3, 0, [high, 1, high], 5)


def cases():
    rng = random.Random(SEED)
    for group in (drawn, bounds, refused, damaged, skips):
        yield from group(rng)


def main():
    if len(sys.argv) != 2:
        sys.exit(__doc__)
    folder = Path(sys.argv[1])
    data = folder / "data"
    data.mkdir(parents=True, exist_ok=True)
    for old in data.glob("*.sheet"):
        old.unlink()
    sheets = {}
    for name, content in cases():
        name += ".sheet"
        assert name not in sheets, name
        (data / name).write_bytes(content)
        sheets[name] = content
    plain = [name + ".sheet" for name in PLAIN]
    texts = [f"== {name}\n" + answer(sheets[name]) for name in plain]
    texts += [f"== {name}\n" + answer(sheets[name], skipped=True) for name in sheets]
    (folder / "args").write_text("\n".join([*plain, "skipped", *sheets]) + "\n")
    (folder / "stdout").write_text("".join(texts))
    print(f"{len(sheets)} sheets, {sum(map(len, sheets.values()))} bytes, {len(plain)} of them answered twice")


if __name__ == "__main__":
    main()
