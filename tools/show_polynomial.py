#!/usr/bin/env python3
"""A polynomial of ML-KEM from bytes, with its working: FIPS 203, Algorithm 8 (SamplePolyCBD), written from the standard's text.

    show_polynomial.py ETA < BYTES           BYTES are 64 * ETA bytes in hexadecimal, two digits each; spaces and newlines stand where wanted
    show_polynomial.py --check FILE...       replays files in the format of crates/c_answers and says how many answers agree

For each coefficient a line is printed: i, the bits of the first sum, the bits of the second, x - y, and f[i]. A refusal prints its number alone."""
import sys

N = 256
Q = 3329


def bits_of(data):
    """b: bit 8*i + j is bit j of byte i."""
    return [(byte >> j) & 1 for byte in data for j in range(8)]


def refusal(eta, byte_length, output_length):
    """27 before 28, or 0."""
    if eta not in (2, 3):
        return 27
    if byte_length != 64 * eta or output_length != N:
        return 28
    return 0


def sums(eta, data):
    """The bits of both sums for each coefficient, in order."""
    b = bits_of(data)
    for i in range(N):
        start = 2 * i * eta
        yield b[start : start + eta], b[start + eta : start + 2 * eta]


def polynomial(eta, data):
    return [(sum(x) - sum(y)) % Q for x, y in sums(eta, data)]


def answer(eta, data, output_length):
    """What a stored line holds after the output length."""
    number = refusal(eta, len(data), output_length)
    return [number] + (polynomial(eta, data) if number == 0 else [])


def agrees(line):
    try:
        numbers = [int(word) for word in line.split(" ")]
    except ValueError:
        return False
    if [str(n) for n in numbers] != line.split(" ") or len(numbers) < 2:
        return False
    eta, count = numbers[0], numbers[1]
    data, tail = numbers[2 : 2 + count], numbers[2 + count :]
    if len(data) != count or not tail or any(not 0 <= byte < 256 for byte in data):
        return False
    return answer(eta, data, tail[0]) == tail[1:]


def check(path):
    with open(path, newline="") as file:
        lines = file.read().split("\n")
    judged = [agrees(line) for line in lines[:-1]] + ([False] if lines[-1] else [])
    print(f"{path}: {len(judged)} answers, {sum(judged)} agree")


def show(eta, data):
    number = refusal(eta, len(data), N)
    if number:
        print(number)
        return
    for i, (x, y) in enumerate(sums(eta, data)):
        value = sum(x) - sum(y)
        print(f"{i}: {' '.join(map(str, x))} | {' '.join(map(str, y))} | {value} | {value % Q}")


def main():
    if len(sys.argv) >= 3 and sys.argv[1] == "--check":
        for path in sys.argv[2:]:
            check(path)
    elif len(sys.argv) == 2 and sys.argv[1].isdecimal():
        try:
            data = bytes.fromhex(sys.stdin.read())
        except ValueError:
            sys.exit("the bytes are not in hexadecimal")
        show(int(sys.argv[1]), data)
    else:
        sys.exit(__doc__)


main()
