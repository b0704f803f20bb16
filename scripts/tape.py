#!/usr/bin/env python3
"""Order tapes: makes one of a recording, reads what order_tape puts out, and shows a tape in words.

    python3 scripts/tape.py write --sps 4 < recording.cf32 | target/bin/order_tape | python3 scripts/tape.py read
    python3 scripts/tape.py show < tape

write  makes a tape of a recording (complex f32, little-endian, real part first): a set-up of each loop, then the
       samples, at most 2,048 in a command. The settings are those of receive_recording, but for what is named.
read   reads the symbols that order_tape puts out and writes their numbers as digits, 64 to a line, as
       receive_recording does, or their parts.
show   lists the commands of a tape, each with the offset of its first byte, and says where order_tape would refuse it.

The status is 1 if something is wrong with the input or the output, 2 if something is wrong with an argument.
"""

# Labels such as R16 are those of docs/SPECIFICATION.md.
import argparse
import math
import os
import signal
import struct
import sys

# ---- The tape: command bytes, selectors, and the fields behind them.

CARRIER, TIMING, SAMPLES, RESET = 1, 2, 3, 4
CONSTELLATIONS = {"bpsk": 0, "qpsk": 1, "8psk": 2}
DETECTORS = {"gardner": 0, "mueller-muller": 1}
CARRIER_VALUES, TIMING_VALUES, COUNT = struct.Struct("<3d"), struct.Struct("<5d"), struct.Struct("<H")
LARGEST_COUNT = 2048
SAMPLE = 8


def carrier_command(code, bandwidth, damping, offset):
    """The command that sets up the carrier; the code selects the constellation."""
    return bytes((CARRIER, code)) + CARRIER_VALUES.pack(bandwidth, damping, offset)


def timing_command(code, sps, bandwidth, damping, deviation, gain):
    """The command that sets up timing; the code selects the detector."""
    return bytes((TIMING, code)) + TIMING_VALUES.pack(sps, bandwidth, damping, deviation, gain)


def samples_command(samples):
    """The command that brings samples, which are bytes: at most 2,048 whole ones."""
    count, rest = divmod(len(samples), SAMPLE)
    if rest or count > LARGEST_COUNT:
        raise ValueError("not up to 2,048 whole samples")
    return bytes((SAMPLES,)) + COUNT.pack(count) + samples


def reset_command():
    """The command that resets both loops."""
    return bytes((RESET,))


# ---- The receiver's checks of a set-up: the number of the refusal, its text and the index of the value, or none. A NaN
# is in no range.


def carrier_refusal(bandwidth, damping, offset):
    """C4: E2 to E4."""
    if not 0.0001 <= bandwidth <= 0.2:
        return 2, "the carrier's bandwidth must be from 0.0001 to 0.2", 0
    if not 0.1 <= damping <= 4.0:
        return 3, "the carrier's damping must be from 0.1 to 4", 1
    if not 0.0 <= offset <= 0.25:
        return 4, "the maximum offset must be from 0 to 0.25 cycles per symbol", 2
    return None


def gains(sps, bandwidth, damping, gain):
    """T3: kp and ki of the timing loop, each operation rounded once."""
    theta = bandwidth / (damping + 1.0 / (4.0 * damping))
    d = (1.0 + (2.0 * damping) * theta) + theta * theta
    return ((((4.0 * damping) * theta) / d) / gain) * sps, (((4.0 * (theta * theta)) / d) / gain) * sps


def timing_refusal(sps, bandwidth, damping, deviation, gain):
    """T4: E1 to E6."""
    if not 2.0 <= sps <= 1000000.0:
        return 1, "the samples per symbol must be from 2 to 1,000,000", 0
    if not 0.0001 <= bandwidth <= 0.1:
        return 2, "timing's bandwidth must be from 0.0001 to 0.1", 1
    if not 0.1 <= damping <= 4.0:
        return 3, "timing's damping must be from 0.1 to 4", 2
    if not 0.0 <= deviation <= 0.05:
        return 4, "the maximum deviation must be from 0 to 0.05", 3
    if not (gain > 0.0 and math.isfinite(gain)):
        return 5, "the detector gain must be above 0 and finite", 4
    if not all(map(math.isfinite, gains(sps, bandwidth, damping, gain))):
        return 6, "the detector gain is so small that the loop's gains are not finite", 4
    return None


# ---- Standard input and output


class Trouble(Exception):
    """Something is wrong with the input or the output."""

    status = 1


class Unsuited(Trouble):
    """A setting is out of its range."""

    status = 2


def taken(source, size):
    """Bytes of standard input, up to so many."""
    try:
        return source(size)
    except OSError as trouble:
        raise Trouble(f"standard input cannot be read: {trouble.strerror}") from None


def put(output, data):
    """Writes bytes to standard output, at once."""
    try:
        output.write(data)
        output.flush()
    except OSError as trouble:
        raise Trouble(f"standard output cannot be written: {trouble.strerror}") from None


def remark(text):
    """Says what is odd about an input that is taken all the same."""
    if sys.stderr is not None:
        print(f"tape.py: remark: {text}", file=sys.stderr, flush=True)


def streams():
    """Standard input and standard output, as bytes."""
    if sys.stdin is None or sys.stdout is None:
        raise Trouble("standard input or standard output is closed")
    if sys.stdin.isatty():
        raise Trouble("nothing is redirected to standard input; --help says what is read there")
    return sys.stdin.buffer, sys.stdout.buffer


def bytes_are(count):
    """So many bytes, with their verb."""
    return "byte is" if count == 1 else f"{count} bytes are"


# ---- write

# P1: the settings of receive_recording.
TIMING_DEFAULTS = {"sps": 4.0, "timing_bandwidth": 0.01, "timing_damping": 1.0, "deviation": 0.01, "gain": 6.28}
CARRIER_DEFAULTS = {"carrier_bandwidth": 0.02, "carrier_damping": 1.0, "offset": 0.05}


def set_ups(detector, timing, constellation, carrier):
    """The set-ups of both loops. It stops if the receiver would refuse one."""
    loops = (TIMING_DEFAULTS, timing, timing_refusal), (CARRIER_DEFAULTS, carrier, carrier_refusal)
    for names, values, check in loops:
        refused = check(*values)
        if refused:
            number, why, index = refused
            option = list(names)[index].replace("_", "-")
            raise Unsuited(f"--{option} {values[index]:g}: {why} (order_tape would refuse with {number})")
    return timing_command(DETECTORS[detector], *timing) + carrier_command(CONSTELLATIONS[constellation], *carrier)


# How many samples are looked at for a remark, and the largest part that is not odd.
LOOKED_AT = 1 << 20
LARGE = 1e6


class Look:
    """What the first samples of a recording are: how many, how many carry something, how many are odd."""

    def __init__(self):
        self.count = self.carrying = self.odd = 0

    def at(self, block):
        """Looks at the samples of a block."""
        if self.count >= LOOKED_AT:
            return
        for re, im in struct.iter_unpack("<2f", block):
            self.count += 1
            if not (abs(re) <= LARGE and abs(im) <= LARGE):
                self.odd += 1
            elif re or im:
                self.carrying += 1

    def tell(self):
        """Remarks on what is odd."""
        if not self.count:
            remark("the recording has no samples")
        elif not self.carrying:
            remark("every sample is silent, not finite or very large: is it complex f32, little-endian?")
        elif self.odd:
            remark(f"{self.odd} of the first {self.count} samples are not finite or very large: "
                   "is it complex f32, little-endian, without a header?")


def write(given):
    """Writes a tape, block by block."""
    timing, carrier = ([getattr(given, name) for name in names] for names in (TIMING_DEFAULTS, CARRIER_DEFAULTS))
    tape = set_ups(given.detector, timing, given.constellation, carrier)
    recording, output = streams()
    if sys.stdout.isatty():
        raise Trouble("a tape is bytes and no text: redirect standard output to a file or a pipe")
    put(output, tape)
    look = Look()
    block = taken(recording.read, SAMPLE * given.block)
    while block:
        rest = len(block) % SAMPLE
        whole = block[:len(block) - rest]
        if whole:
            put(output, samples_command(whole))
            look.at(whole)
        if rest:
            look.tell()
            raise Trouble("the recording ends inside a sample: all its whole samples are on the tape, its last "
                          f"{bytes_are(rest)} not; is it complex f32 without a header?")
        block = taken(recording.read, SAMPLE * given.block)
    look.tell()


# ---- read

# How many digits a line has, and how many symbols are read at a time.
WIDTH = 64
AT_A_TIME = 2048


def octant(re, im):
    """C14: the signs give the quadrant, the part of larger magnitude its half."""
    wide, tall = abs(re) > abs(im), abs(im) > abs(re)
    if re > 0 and im >= 0:
        return 0 if wide else 1
    if re <= 0 and im > 0:
        return 2 if tall else 3
    if re < 0 and im <= 0:
        return 4 if wide else 5
    return 6 if tall else 7


def digit_of(constellation, re, im):
    """R11 to R13 and R16: the number of a symbol as a digit, `-` if it reads none."""
    if math.isnan(re) or math.isnan(im) or (re == 0 and im == 0):
        return "-"
    if constellation == "bpsk":
        return "1" if re < 0 or (re == 0 and im < 0) else "0"
    return str(octant(re, im) // 2 if constellation == "qpsk" else octant(re, im))


def lined(digits, column):
    """Digits with a line end behind each 64th, where so many stand in the line already."""
    lines = [digits[max(at, 0):at + WIDTH] for at in range(-column, len(digits), WIDTH)]
    full = digits and (column + len(digits)) % WIDTH == 0
    return "\n".join(lines) + ("\n" if full else "")


def parts_text(re, im):
    """A line with both parts, with as many digits as tell each from every other f32."""
    return f"{re:.9g} {im:.9g}\n"


def read(given):
    """Reads symbols, as they come, and writes them as text."""
    symbols, output = streams()
    rest, count = b"", 0
    got = taken(symbols.read1, SAMPLE * AT_A_TIME)
    while got:
        block = rest + got
        end = len(block) - len(block) % SAMPLE
        parts, rest = struct.iter_unpack("<2f", block[:end]), block[end:]
        if given.parts:
            text = "".join(parts_text(re, im) for re, im in parts)
        else:
            text = lined("".join(digit_of(given.constellation, re, im) for re, im in parts), count % WIDTH)
        count += end // SAMPLE
        put(output, text.encode("ascii"))
        got = taken(symbols.read1, SAMPLE * AT_A_TIME)
    if count % WIDTH and not given.parts:
        put(output, b"\n")
    if rest:
        raise Trouble(f"the input ends inside a symbol: its last {bytes_are(len(rest))} not a whole one")


# ---- show


class Refused(Exception):
    """A command that order_tape refuses: with a number, and why."""


class Tape:
    """A tape that is read field by field. At is how many bytes were read."""

    def __init__(self, source):
        self.source, self.at, self.ready = source, 0, set()

    def field(self, size):
        """The next field. A tape that ends inside it is refused."""
        got = taken(self.source.read, size)
        self.at += len(got)
        if len(got) < size:
            raise Refused(10, "the tape ends inside the command")
        return got

    def selected(self, names, what):
        """The name that the next byte selects."""
        code = self.field(1)[0]
        for name, known in names.items():
            if known == code:
                return name
        raise Refused(9, f"there is no {what} {code:#04x}")

    def both_set_up(self):
        """Samples and resets come when both loops are set up."""
        missing = [name for code, name in ((CARRIER, "the carrier"), (TIMING, "timing")) if code not in self.ready]
        if missing:
            raise Refused(11, f"{' and '.join(missing)} must be set up before")


def settings_text(selected, names, values):
    """What a set-up selects, and its values."""
    return ", ".join([selected] + [f"{name} {repr(value).removesuffix('.0')}" for name, value in zip(names, values)])


def shown_carrier(tape):
    """A carrier set-up in words."""
    name = tape.selected(CONSTELLATIONS, "constellation")
    values = CARRIER_VALUES.unpack(tape.field(CARRIER_VALUES.size))
    refused = carrier_refusal(*values)
    text = settings_text(name, ("bandwidth", "damping", "offset"), values)
    if refused:
        raise Refused(refused[0], f"{text}: {refused[1]}")
    tape.ready.add(CARRIER)
    return text


def shown_timing(tape):
    """A timing set-up in words."""
    name = tape.selected(DETECTORS, "detector")
    values = TIMING_VALUES.unpack(tape.field(TIMING_VALUES.size))
    refused = timing_refusal(*values)
    text = settings_text(name, ("sps", "bandwidth", "damping", "deviation", "gain"), values)
    if refused:
        raise Refused(refused[0], f"{text}: {refused[1]}")
    tape.ready.add(TIMING)
    return text


def shown_samples(tape):
    """Samples in words."""
    count = COUNT.unpack(tape.field(COUNT.size))[0]
    if count > LARGEST_COUNT:
        raise Refused(9, f"{count} are more than {LARGEST_COUNT}")
    tape.both_set_up()
    tape.field(SAMPLE * count)
    return str(count)


def shown_reset(tape):
    """A reset in words."""
    tape.both_set_up()
    return "both loops"


COMMANDS = {CARRIER: ("carrier set-up", shown_carrier), TIMING: ("timing set-up", shown_timing),
            SAMPLES: ("samples", shown_samples), RESET: ("reset", shown_reset)}


def shown(tape, command):
    """A command in words. It stops if order_tape would refuse it."""
    if command not in COMMANDS:
        hint = "" if tape.at > 1 else " (is it a recording? write makes a tape of it)"
        raise Refused(9, f"there is no command {command:#04x}{hint}")
    name, words = COMMANDS[command]
    try:
        return f"{name}: {words(tape)}"
    except Refused as stop:
        raise Refused(stop.args[0], f"{name}: {stop.args[1]}") from None


def show(_):
    """Lists the commands of a tape. The status is 1 if order_tape would refuse it."""
    source, output = streams()
    tape = Tape(source)
    while True:
        start = tape.at
        first = taken(source.read, 1)
        if not first:
            put(output, f"{start:>10}  the tape ends, nothing is refused\n".encode("ascii"))
            return 0
        tape.at += 1
        try:
            put(output, f"{start:>10}  {shown(tape, first[0])}\n".encode("ascii"))
        except Refused as stop:
            number, why = stop.args
            put(output, f"{start:>10}  {why}; refused with {number}, bytes read: {tape.at}\n".encode("ascii"))
            return 1


# ---- Arguments

SETTINGS = {
    "sps": "samples per symbol, 2 to 1,000,000",
    "timing-bandwidth": "timing's loop bandwidth, a fraction of the symbol rate, 0.0001 to 0.1",
    "timing-damping": "timing's damping, 0.1 to 4",
    "deviation": "how far the samples per symbol may move, a fraction of them, 0 to 0.05",
    "gain": "slope of the timing error detector, above 0; it depends on pulse and level",
    "carrier-bandwidth": "the carrier's loop bandwidth, a fraction of the symbol rate, 0.0001 to 0.2",
    "carrier-damping": "the carrier's damping, 0.1 to 4",
    "offset": "limit of the tracked frequency, in cycles per symbol, 0 to 0.25; to pull in farther raise the bandwidth",
}


def block_size(text):
    """How many samples a command has at most."""
    if not (text.isdecimal() and 1 <= int(text) <= LARGEST_COUNT):
        raise argparse.ArgumentTypeError(f"{text!r} is not a whole number from 1 to {LARGEST_COUNT}")
    return int(text)


def add_write(jobs):
    """The arguments of write."""
    job = jobs.add_parser("write", help="make a tape of a recording", allow_abbrev=False,
                          formatter_class=argparse.ArgumentDefaultsHelpFormatter,
                          description="Reads a recording, complex f32, little-endian, real part first, without a "
                          "header, and writes a tape. docs/THEORY.md says how to choose the settings.")
    job.add_argument("--constellation", choices=CONSTELLATIONS, default="qpsk", help="how the carrier is modulated")
    job.add_argument("--detector", choices=DETECTORS, default="gardner", help="timing error detector")
    for name, meaning in SETTINGS.items():
        job.add_argument("--" + name, type=float, metavar="X", help=meaning)
    job.add_argument("--block", type=block_size, metavar="N", default=LARGEST_COUNT,
                     help="samples in a command at most, 1 to 2,048; the symbols do not depend on it, but with a "
                     "smaller N they come sooner from a live input")
    job.set_defaults(run=write, **TIMING_DEFAULTS, **CARRIER_DEFAULTS)


def arguments():
    """The arguments, which say what to do."""
    parser = argparse.ArgumentParser(prog="tape.py", description=__doc__,
                                     formatter_class=argparse.RawDescriptionHelpFormatter)
    jobs = parser.add_subparsers(dest="job", required=True, metavar="{write,read,show}")
    add_write(jobs)
    job = jobs.add_parser("read", help="read what order_tape puts out", allow_abbrev=False,
                          description="Reads the symbols that order_tape puts out and writes their numbers as digits, "
                          "64 to a line, `-` for a symbol that reads none.")
    job.add_argument("--constellation", choices=CONSTELLATIONS, default="qpsk",
                     help="the one that was set up, which the symbols do not tell (default: qpsk)")
    job.add_argument("--parts", action="store_true", help="write the real and the imaginary part, a line a symbol")
    job.set_defaults(run=read)
    job = jobs.add_parser("show", help="list the commands of a tape", allow_abbrev=False,
                          description="Lists the commands of a tape with their offsets, and says where and with which "
                          "number order_tape would refuse it. The status is 1 if it would.")
    job.set_defaults(run=show)
    given, others = parser.parse_known_args()
    if others:
        parser.error(f"not understood: {' '.join(others)}; a file comes on standard input: < FILE")
    return given


def main():
    """Does what the arguments say. What goes wrong is said in a line on error output."""
    for name in ("SIGPIPE", "SIGINT"):
        if hasattr(signal, name):
            signal.signal(getattr(signal, name), signal.SIG_DFL)
    given = arguments()
    try:
        status = given.run(given) or 0
    except Trouble as trouble:
        status = trouble.status
        if sys.stderr is not None:
            print(f"tape.py {given.job}: {trouble}", file=sys.stderr, flush=True)
    # What could not be flushed is not tried again.
    os._exit(status)


if __name__ == "__main__":
    main()
