#!/usr/bin/env python3
"""The cosine table: entry j is the f32 nearest to cos(2 pi j / 4096), j = 0 .. 4096.

Whole numbers only, so nothing here is rounded by accident. Every value is held as an
interval: two whole numbers lo <= hi that stand for lo / 2**BITS and hi / 2**BITS, with the
true value in between. An entry is accepted only if both ends round to the same f32. Rounding
to the nearest f32 is monotone, so the true value then rounds to it as well.

    python3 cosine_table.py            writes the table's three files: cosine_table.txt beside
                                       this script, the definition's list of bit patterns and
                                       the code's array
    python3 cosine_table.py --check    compares those files with what is computed here
"""

import struct
import sys
from fractions import Fraction
from pathlib import Path

TURN = 4096          # entries in a turn; entry TURN repeats entry 0
BITS = 256           # places after the binary point of an interval's ends
ONE = 1 << BITS
HERE = Path(__file__).resolve().parent
TEXT = HERE / "cosine_table.txt"
LIST = HERE.parent / "crates" / "cosine" / "specs" / "Bits.antt"
ARRAY = HERE.parent / "crates" / "tables" / "src" / "cosines.rt"


def floor_div(a, b):
    """a / b rounded down, b above 0."""
    return a // b


def ceil_div(a, b):
    """a / b rounded up, b above 0."""
    return -((-a) // b)


def arctan_of_inverse(k):
    """An interval around arctan(1 / k) for a whole k above 1.

    The series 1/k - 1/(3 k^3) + 1/(5 k^5) - ... alternates and its terms fall, so the rest
    after any term is between 0 and the next term.
    """
    lo = hi = 0
    n = 0
    while True:
        bottom = (2 * n + 1) * k ** (2 * n + 1)
        down, up = floor_div(ONE, bottom), ceil_div(ONE, bottom)
        if down == 0:
            # The rest lies between minus and plus one of the last place.
            return lo - up, hi + up
        if n % 2 == 0:
            lo, hi = lo + down, hi + up
        else:
            lo, hi = lo - up, hi - down
        n += 1


def pi_interval():
    """An interval around pi, by Machin: pi = 16 arctan(1/5) - 4 arctan(1/239)."""
    a_lo, a_hi = arctan_of_inverse(5)
    b_lo, b_hi = arctan_of_inverse(239)
    return 16 * a_lo - 4 * b_hi, 16 * a_hi - 4 * b_lo


def cosine_of(x_lo, x_hi):
    """An interval around cos x for x between the ends, both from 0 to 2.

    cos x = 1 - x^2/2! + x^4/4! - ... For every x the cosine lies between two partial sums
    that follow each other, so the first term left out bounds the rest on both sides.
    """
    sq_lo, sq_hi = floor_div(x_lo * x_lo, ONE), ceil_div(x_hi * x_hi, ONE)
    t_lo = t_hi = ONE                      # the term x^(2n) / (2n)!
    lo = hi = 0
    n = 0
    while True:
        if n % 2 == 0:
            lo, hi = lo + t_lo, hi + t_hi
        else:
            lo, hi = lo - t_hi, hi - t_lo
        n += 1
        step = (2 * n - 1) * (2 * n)
        t_lo = floor_div(t_lo * sq_lo, ONE * step)
        t_hi = ceil_div(t_hi * sq_hi, ONE * step)
        if t_lo == 0 and t_hi <= 2:
            return lo - t_hi, hi + t_hi


def nearest_f32(value):
    """The bits of the f32 nearest to value / 2**BITS, ties to even; value above 0 and the
    result in the range of the normal numbers."""
    exponent = value.bit_length() - 1 - BITS       # 2**exponent <= value < 2**(exponent + 1)
    if exponent < -126 or exponent > 0:
        raise SystemExit("cosine table: a value outside the range expected")
    shift = exponent + BITS - 23                   # bits below the 24 that an f32 keeps
    kept, rest = value >> shift, value & ((1 << shift) - 1)
    half = 1 << (shift - 1)
    if rest > half or (rest == half and kept & 1):
        kept += 1
    # A carry out of the 24 bits moves on into the exponent field by itself.
    return ((exponent + 127) << 23) + (kept - (1 << 23))


def first_quarter():
    """The bits of the entries 0 to 1024."""
    pi_lo, pi_hi = pi_interval()
    if not 0 < pi_hi - pi_lo < 1 << 20:
        raise SystemExit("cosine table: pi is not known closely enough")
    entries = [nearest_f32(ONE)]                   # the cosine of 0 is exactly 1
    for j in range(1, TURN // 4):
        x_lo = floor_div(2 * j * pi_lo, TURN)
        x_hi = ceil_div(2 * j * pi_hi, TURN)
        lo, hi = cosine_of(x_lo, x_hi)
        if not 0 < lo <= hi < ONE:
            raise SystemExit(f"cosine table: entry {j}: an interval outside 0 to 1")
        down, up = nearest_f32(lo), nearest_f32(hi)
        if down != up:
            raise SystemExit(f"cosine table: entry {j}: the interval straddles a rounding boundary")
        entries.append(down)
    entries.append(0)                              # a quarter turn: exactly 0, plus zero
    return entries


def negated(bits):
    """The bits of the negated number; plus zero stays plus zero."""
    return bits ^ 0x8000_0000 if bits else 0


def bit_patterns():
    """Yields the 4,097 bit patterns in order.

    The other three quarters follow from the first: cos(pi - x) = -cos x and
    cos(2 pi - x) = cos x hold exactly, and rounding to nearest even treats both signs alike.
    """
    quarter = first_quarter()
    half = quarter + [negated(b) for b in reversed(quarter[:-1])]
    yield from half
    yield from reversed(half[:-1])


def value_of(bits):
    """The number an f32's bits stand for; normal numbers and zeros only."""
    sign = -1 if bits >> 31 else 1
    exponent, fraction = (bits >> 23) & 0xFF, bits & 0x7F_FFFF
    if exponent == 0:
        if fraction:
            raise SystemExit("cosine table: a subnormal entry")
        return Fraction(0)
    return sign * Fraction((1 << 23) | fraction) * Fraction(2) ** (exponent - 150)


def check_rules(patterns):
    """The rules C10 and C11 of docs/SPECIFICATION.md over all entries, in exact fractions."""
    c = [value_of(b) for b in patterns]
    rules = {
        "4,097 entries": len(c) == TURN + 1,
        "entries 0 and 4096 are 1": c[0] == 1 and patterns[0] == patterns[TURN],
        "the zeros have a plus sign": patterns[1024] == 0 == patterns[3072],
        "half a turn on the sign changes": all(c[j + 2048] == -c[j] for j in range(2049)),
        "mirrored the sign changes": all(c[2048 - j] == -c[j] for j in range(2049)),
        "the first half falls": all(c[j + 1] < c[j] for j in range(2048)),
        "the doubling rule": all(
            abs((2 * c[j] * c[j] - 1) - c[2 * j]) <= Fraction(1, 2**22) for j in range(2049)
        ),
    }
    for rule, holds in rules.items():
        if not holds:
            raise SystemExit(f"cosine table: this rule does not hold: {rule}")


def as_text(patterns):
    """The oracle's file: one word of eight hexadecimal digits a line."""
    return "".join(f"{b:08x}\n" for b in patterns)


LIST_HEAD = """\
-- C10: the cosine table's 4,097 entries as bit patterns, in order; both zeros have a plus sign.
-- Written by oracle/cosine_table.py. Definitions only.
use Prim.Native.Nat.{ℕ}
use mathlib.Core.List.{List, [], _∷_}

unfoldable pub cosBits : List ℕ
cosBits =
"""


def as_list(patterns):
    """The definition's file: the bit patterns in hexadecimal, 16 a line."""
    rows = [patterns[i : i + 16] for i in range(0, len(patterns), 16)]
    return LIST_HEAD + "".join("    " + "".join(f"{b:#010x} ∷ " for b in row).rstrip() + "\n" for row in rows)[:-1] + " []\n"


ARRAY_HEAD = """\
// The cosine table. Written by oracle/cosine_table.py.
ghost use mathlib.Core.Path.{_≡_};
ghost use Rattle·cosine.specs.Table.{cosList};

// C10: entry j is cos(2 pi j / 4096), the nearest f32. Both zeros have a plus sign.
const COS_F32: [f32; 4097] = [
"""

ARRAY_TAIL = """\
];

// The table. A constant array is stored anew wherever it is named, so a run takes it once and lends
// it from then on.
pub fn cos_f32_table() -> [f32; 4097]
    ensures { λ r. ⌜ r ≡ cosList ⌝ }
{
    COS_F32
}
"""


def decimal(bits):
    """The shortest decimal that reads back as the f32 with these bits."""
    value = struct.unpack(">f", struct.pack(">I", bits))[0]
    for digits in range(1, 10):
        near = float(f"{value:.{digits - 1}e}")
        if struct.unpack(">I", struct.pack(">f", near))[0] == bits:
            return repr(near)
    raise SystemExit("cosine table: an entry that nine digits do not settle")


def as_array(patterns):
    """The code's file: decimals, one a line, as the formatter wants it."""
    return ARRAY_HEAD + "".join(f"    {decimal(b)},\n" for b in patterns) + ARRAY_TAIL


def main(arguments):
    patterns = list(bit_patterns())
    check_rules(patterns)
    files = {TEXT: as_text(patterns), LIST: as_list(patterns), ARRAY: as_array(patterns)}
    if arguments not in ([], ["--check"]):
        raise SystemExit(__doc__)
    for file, text in files.items():
        if arguments == []:
            file.write_text(text, encoding="utf-8")
            print(f"cosine table: {len(patterns)} entries written to {file.name}")
        elif file.read_text(encoding="utf-8") != text:
            raise SystemExit(f"cosine table: {file.name} differs from what is computed")
        else:
            print(f"cosine table: {file.name} holds the {len(patterns)} entries computed")


if __name__ == "__main__":
    main(sys.argv[1:])
