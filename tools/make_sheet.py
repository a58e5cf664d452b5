#!/usr/bin/env python3
"""Writes a sheet from numbers typed on the command line.

  make_sheet.py KIND N [--a A] [--b B] [--modulus Q] [--words W ...] [--out FILE]

KIND is a number from 1 to 9 or a name (make_sheet.py --kinds lists them). Numbers are decimal, or hexadecimal after 0x.
Without --out the sheet goes to standard output."""
import argparse
import sys

from sheets import KINDS, MOST_COEFFICIENTS, MOST_WORDS, sheet


def number(text):
    try:
        value = int(text, 0)
    except ValueError:
        raise argparse.ArgumentTypeError(f"{text!r} is no number")
    if not 0 <= value < 2**32:
        raise argparse.ArgumentTypeError(f"{text} does not fit 32 bits")
    return value


def kind_list():
    return "\n".join(f"{key}  {name}" for key, name in KINDS.items())


def kind(text):
    names = {name: key for key, name in KINDS.items()}
    if text in names:
        return names[text]
    if not text[:1].isdigit():
        raise argparse.ArgumentTypeError(f"no kind is called {text!r}; the kinds are\n{kind_list()}")
    return number(text)


class Kinds(argparse.Action):
    def __call__(self, parser, namespace, values, option_string=None):
        print(kind_list())
        parser.exit()


def malformed(given):
    """Why the sheet will be answered by 14, or None: document 01's causes that a sheet from this tool can have."""
    if given.kind not in KINDS:
        return f"kind {given.kind} is not among 1 to 9"
    if given.n > MOST_COEFFICIENTS:
        return f"{given.n} coefficients are more than {MOST_COEFFICIENTS:,}"
    if len(given.words) > MOST_WORDS:
        return f"{len(given.words)} words are more than {MOST_WORDS:,}"
    return None


def main():
    parser = argparse.ArgumentParser(description=__doc__, formatter_class=argparse.RawDescriptionHelpFormatter)
    parser.add_argument("--kinds", action=Kinds, nargs=0, help="list the kinds and stop")
    parser.add_argument("kind", type=kind, help="1 to 9, or a name")
    parser.add_argument("n", type=number, help="number of coefficients")
    parser.add_argument("--a", type=number, default=0, help="field A (weight, block size, minus ones or eta)")
    parser.add_argument("--b", type=number, default=0, help="field B (ones of a composition)")
    parser.add_argument("--modulus", type=number, default=0, help="modulus, or 0 for signed output")
    parser.add_argument("--words", type=number, nargs="*", default=[], help="the random words")
    parser.add_argument("--out", help="file to write")
    given = parser.parse_args()
    why = malformed(given)
    if why:
        print(f"make_sheet.py: this sheet will be answered by 14: {why}", file=sys.stderr)
    data = sheet(given.kind, given.n, given.a, given.b, given.words, given.modulus)
    try:
        if given.out:
            with open(given.out, "wb") as out:
                out.write(data)
        else:
            sys.stdout.buffer.write(data)
    except OSError as error:
        sys.exit(f"make_sheet.py: {given.out}: {error.strerror}")


if __name__ == "__main__":
    main()
