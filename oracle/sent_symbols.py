#!/usr/bin/env python3
"""Compares what `receive_recording` wrote of the sample recording with what was sent, or turns a recording.

    target/bin/make_recording | target/bin/receive_recording | python3 oracle/sent_symbols.py
    target/bin/make_recording | python3 oracle/sent_symbols.py turn 1 | target/bin/receive_recording

The first reads digits and a summary on standard input and says how many symbols are as sent, how many quarter
turns they are round, and which are not as sent (a `-` never is); the status is 1 if most are not. The second copies
a recording (complex f32, little-endian) from standard input to standard output, each sample turned by so many
quarters. Labels are those of docs/SPECIFICATION.md.
"""

import sys
from array import array

# P5: the generator of `make_recording`; the top two bits of its state are the symbol.
SYMBOLS, SEED, MULTIPLIER, INCREMENT, MODULUS = 1000, 1, 1_664_525, 1_013_904_223, 2**32
# How far the digits may stand from the symbols sent: the first strobe comes before the first symbol.
SHIFTS = range(-2, 3)


def sent():
    """The symbol numbers in the order in which they are sent."""
    numbers, state = [], SEED
    for _ in range(SYMBOLS):
        state = (MULTIPLIER * state + INCREMENT) % MODULUS
        numbers.append(state * 4 // MODULUS)
    return numbers


def judged(digits):
    """The shift and the turn with the fewest symbols that are not as sent, and where these stand."""
    numbers = sent()
    found = []
    for shift in SHIFTS:
        for turn in range(4):
            both = [place for place in range(len(digits)) if 0 <= place + shift < len(numbers)]
            wrong = [place for place in both if digits[place] != (numbers[place + shift] + turn) % 4]
            found.append((len(wrong), abs(shift), turn, len(both), wrong))
    _, _, turn, count, wrong = min(found)
    return turn, count, wrong


def compare():
    """Reads digits and says how they compare."""
    lines = sys.stdin.buffer.read().decode("latin-1").split("\n")
    digits = ["0123".find(digit) for line in lines if line and not line.strip("0123-") for digit in line]
    if not digits:
        sys.exit("sent_symbols: no digits on standard input; it reads what receive_recording writes")
    turn, count, wrong = judged(digits)
    if 2 * len(wrong) > count:
        sys.exit("sent_symbols: these are not the symbols of the sample recording, or it was not received")
    quarters = "1 quarter turn" if turn == 1 else f"{turn} quarter turns"
    print(f"{count - len(wrong)} of {count} symbols are as sent, {quarters} round")
    if wrong:
        print("not as sent, counted from 0:", *wrong[:20], "..." if len(wrong) > 20 else "")


def turned(quarters):
    """Copies a recording, each sample turned (Q1)."""
    recording = sys.stdin.buffer.read()
    if len(recording) % 8 > 0:
        sys.exit("sent_symbols: the recording ends inside a sample")
    parts = array("f", recording)
    if sys.byteorder == "big":
        parts.byteswap()
    for _ in range(quarters % 4):
        parts[0::2], parts[1::2] = array("f", (-im for im in parts[1::2])), parts[0::2]
    if sys.byteorder == "big":
        parts.byteswap()
    sys.stdout.buffer.write(parts.tobytes())


if __name__ == "__main__":
    if len(sys.argv) == 3 and sys.argv[1] == "turn" and sys.argv[2].isdigit():
        turned(int(sys.argv[2]))
    elif len(sys.argv) == 1:
        compare()
    else:
        sys.exit(__doc__)
