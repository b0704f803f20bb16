#!/usr/bin/env python3
"""Runs order_tape over pipes and looks at what a user would see of it.

    python3 oracle/order_tape_pipes.py [GIGABYTES]
    python3 oracle/order_tape_pipes.py example > crates/order_tape/stdin

The first feeds the compiled program tapes that come in pieces, live, cut, wrong, or very long (a gigabyte, if no
number is given; 0 leaves this out). It looks at what is written, when, how much was read and how much memory was
taken. It prints what it checked; the status is 1 if something was not so. The second writes the tape that the gate
plays. `make programs` must have built the programs; Linux is needed.
"""

import array
import fcntl
import io
import os
import random
import select
import signal
import struct
import subprocess
import sys
import termios
import threading
import time
from pathlib import Path

ROOT = Path(__file__).resolve().parent.parent
sys.path.insert(0, str(ROOT / "scripts"))
sys.dont_write_bytecode = True
import tape as tapes  # noqa: E402

PROGRAMS = ROOT / "target" / "bin"
PLAYER = str(PROGRAMS / "order_tape")
SCRIPT = [sys.executable, str(ROOT / "scripts" / "tape.py")]
RECORDING = ROOT / "crates" / "make_recording" / "stdout"
# How long an answer may take, and how long the program is watched that must wait, in seconds.
PATIENCE, WATCH = 20.0, 0.05
SEED = 1

# ---- Tapes

QPSK = tapes.carrier_command(1, 0.02, 1.0, 0.05)
GARDNER = tapes.timing_command(0, 4.0, 0.01, 1.0, 0.01, 6.28)
SET_UPS = GARDNER + QPSK


def recorded(start, end):
    """Samples of the sample recording, as bytes."""
    return RECORDING.read_bytes()[8 * start:8 * end]


def brought(start, end):
    """The command that brings them."""
    return tapes.samples_command(recorded(start, end))


def accepted():
    """Commands of all kinds, with odd samples among them."""
    odd = struct.pack("<8I", 0x7F800001, 0xFFC12345, 0x7F800000, 0xFF800000, 0x80000000, 0, 0x00000001, 0x7F7FFFFF)
    return b"".join((
        QPSK, GARDNER, brought(0, 100), brought(100, 101), brought(0, 0), brought(101, 230),
        tapes.carrier_command(2, 0.05, 0.7071, 0.1), brought(230, 290),
        tapes.timing_command(1, 4.0, 0.02, 0.7071, 0.02, 1.5), brought(290, 350), tapes.reset_command(),
        brought(350, 410), tapes.carrier_command(0, 0.02, 1.0, 0.05), tapes.samples_command(odd), brought(410, 430)))


def example():
    """The tape that the gate plays: behind these a count of 2,049, which is refused, and samples."""
    return accepted() + bytes((3, 1, 8)) + brought(430, 440)


# ---- Running the program


def left_in(pipe):
    """How many bytes wait in a pipe."""
    count = array.array("i", [0])
    fcntl.ioctl(pipe, termios.FIONREAD, count)
    return count[0]


class Player:
    """The program with a pipe at each end. The parent keeps the tape's reading end to see what is left in it."""

    def __init__(self, **streams):
        self.source, self.sink = os.pipe()
        streams = {"stdout": subprocess.PIPE, "stderr": subprocess.PIPE, **streams}
        self.process = subprocess.Popen([PLAYER], stdin=self.source, bufsize=0, **streams)

    def __enter__(self):
        return self

    def __exit__(self, *_):
        self.process.kill()
        self.process.wait()
        for stream in (self.process.stdout, self.process.stderr):
            if stream:
                stream.close()
        for end in (self.source, self.sink):
            if end is not None:
                os.close(end)

    def send(self, data):
        """Puts bytes on the tape."""
        while data:
            data = data[os.write(self.sink, data):]

    def taken(self):
        """Waits until the program has read all that was sent."""
        deadline = time.monotonic() + PATIENCE
        while left_in(self.source):
            if time.monotonic() > deadline:
                raise TimeoutError("the tape is not read")
            time.sleep(0)

    def let_go(self):
        """Gives the tape's reading end to the program alone: what is sent to one that has ended is then an error."""
        os.close(self.source)
        self.source = None

    def end(self):
        """Ends the tape."""
        os.close(self.sink)
        self.sink = None

    def symbols(self, count):
        """So many bytes of symbols, as soon as they are there."""
        got = b""
        while len(got) < count:
            if not select.select([self.process.stdout], [], [], PATIENCE)[0]:
                raise TimeoutError("no symbols")
            got += os.read(self.process.stdout.fileno(), count - len(got))
        return got

    def waits(self):
        """Whether it is still running, and silent, after a while."""
        streams = [self.process.stdout, self.process.stderr]
        return not select.select(streams, [], [], WATCH)[0] and self.process.poll() is None

    def finished(self):
        """What it has written when it has ended: symbols, error output, status."""
        out, err = self.process.communicate(timeout=PATIENCE)
        return out, err, self.process.returncode


def played(tape):
    """What a tape gives that comes as a file: symbols, error output, status."""
    run = subprocess.run([PLAYER], input=tape, capture_output=True, timeout=PATIENCE, check=False)
    return run.stdout, run.stderr, run.returncode


def refused(number):
    """Error output for a refusal."""
    return b"%d\n" % number


# ---- Checks: each answers what it saw, and raises AssertionError if something is not so.


def check_gate():
    """The tape that the gate plays is the example, and gives what the gate expects."""
    folder = ROOT / "crates" / "order_tape"
    assert (folder / "stdin").read_bytes() == example(), "crates/order_tape/stdin is not the example"
    symbols = (folder / "stdout").read_bytes()
    assert played(example()) == (symbols, refused(9), 0), "its symbols are not those of crates/order_tape/stdout"
    return f"{len(example())} bytes of tape, {len(symbols) // 8} symbols"


def check_digits():
    """The sample recording, by the script and this program, gives the digits of receive_recording."""
    recording = RECORDING.read_bytes()
    said = subprocess.run([PROGRAMS / "receive_recording"], input=recording, capture_output=True, check=True).stdout
    digits = b"".join(line + b"\n" for line in said.split(b"\n") if line and not line.strip(b"0123-"))
    for block in (2048, 1000, 7, 1):
        written = subprocess.run(SCRIPT + ["write", "--sps", "4", "--block", str(block)], input=recording,
                                 capture_output=True, check=True).stdout
        symbols, err, _ = played(written)
        read = subprocess.run(SCRIPT + ["read"], input=symbols, capture_output=True, check=True).stdout
        assert (read, err) == (digits, b""), f"other digits with commands of {block} samples"
    return f"{len(digits.replace(bytes((10,)), b''))} digits, in commands of 2048, 1000, 7 and 1 samples"


def check_empty():
    """An empty tape gives nothing."""
    assert played(b"") == (b"", b"", 0)
    return "no symbols, nothing on error output"


def in_pieces(tape, pieces):
    """What a tape gives that comes in pieces, each sent when the one before is read."""
    with Player() as player:
        for piece in pieces(tape):
            player.send(piece)
            player.taken()
        player.end()
        return player.finished()


def single_bytes(tape):
    """A tape byte by byte."""
    return (tape[at:at + 1] for at in range(len(tape)))


def random_pieces(chance):
    """Cuts a tape at random."""
    def pieces(tape):
        at = 0
        while at < len(tape):
            size = chance.choice((1, 2, 3, 8, 26, 100, 5000))
            yield tape[at:at + size]
            at += size
    return pieces


def check_short_reads():
    """Fields that come in pieces give the same symbols."""
    long = SET_UPS + brought(0, 2048) + brought(2048, 4000)
    chance = random.Random(SEED)
    cuts = [single_bytes] + [random_pieces(chance) for _ in range(20)]
    for tape in (long, accepted()):
        expected = played(tape)
        for pieces in cuts:
            assert in_pieces(tape, pieces) == expected, "other symbols in pieces"
    return f"{len(long)} and {len(accepted())} bytes, a byte at a time and in 20 random cuts"


def check_live():
    """The symbols of a command come before the next command is sent."""
    commands = [SET_UPS, *(brought(at, at + 200) for at in range(0, 1000, 200)), tapes.reset_command(), brought(0, 50)]
    before, count = b"", 0
    with Player() as player:
        for number, command in enumerate(commands):
            player.send(command)
            now = played(b"".join(commands[:number + 1]))[0]
            assert player.symbols(len(now) - len(before)) == now[len(before):], "other symbols live"
            assert player.waits(), "it does not wait for the next command"
            before, count = now, count + 1
        player.end()
        assert player.finished() == (b"", b"", 0)
    return f"{count} pieces of a tape, {len(before) // 8} symbols"


# For each refusal a tape that has it as its last field, and what must stand before.
REFUSALS = {
    "1 pace": (1, b"", tapes.timing_command(0, 1.9, 0.01, 1.0, 0.01, 6.28)),
    "1 pace NaN, other values wrong too": (1, QPSK, tapes.timing_command(1, float("nan"), 9.0, 9.0, 9.0, -1.0)),
    "2 timing width": (2, SET_UPS, tapes.timing_command(0, 4.0, 0.11, 1.0, 0.01, 6.28)),
    "2 carrier width": (2, b"", tapes.carrier_command(2, 0.21, 9.0, 9.0)),
    "3 timing damping": (3, QPSK, tapes.timing_command(0, 4.0, 0.01, 0.09, 0.01, 6.28)),
    "3 carrier damping": (3, GARDNER, tapes.carrier_command(0, 0.02, 4.1, 0.05)),
    "4 deviation": (4, b"", tapes.timing_command(0, 4.0, 0.01, 1.0, 0.06, 6.28)),
    "4 offset": (4, SET_UPS, tapes.carrier_command(1, 0.02, 1.0, 0.26)),
    "5 slope": (5, b"", tapes.timing_command(0, 4.0, 0.01, 1.0, 0.01, 0.0)),
    "5 slope infinite": (5, b"", tapes.timing_command(0, 4.0, 0.01, 1.0, 0.01, float("inf"))),
    "6 gains": (6, SET_UPS, tapes.timing_command(0, 4.0, 0.01, 1.0, 0.01, 5e-324)),
    "9 command 00": (9, b"", b"\x00"),
    "9 command 05": (9, SET_UPS, b"\x05"),
    "9 command ff": (9, QPSK, b"\xff"),
    "9 constellation": (9, b"", b"\x01\x03"),
    "9 detector": (9, SET_UPS, b"\x02\x02"),
    "9 count before any set-up": (9, b"", b"\x03\x01\x08"),
    "9 count": (9, SET_UPS, b"\x03\xff\xff"),
    "11 reset": (11, b"", b"\x04"),
    "11 reset, carrier alone": (11, QPSK, b"\x04"),
    "11 samples, timing alone": (11, GARDNER, b"\x03\x00\x08"),
    "11 no samples": (11, b"", b"\x03\x00\x00"),
}


def check_refusals():
    """A refusal is seen as soon as its field is read, with the tape still open, and nothing more is read."""
    for name, (number, before, field) in REFUSALS.items():
        samples = brought(0, 300) if before == SET_UPS else b""
        symbols = played(before + samples)[0]
        with Player() as player:
            player.send(before + samples + field[:-1])
            assert player.symbols(len(symbols)) == symbols, f"{name}: the symbols before it are missing"
            assert player.waits(), f"{name}: it does not wait for the last byte of the field"
            player.send(field[-1:])
            assert player.finished() == (b"", refused(number), 0), f"{name}: not refused while the tape is open"
        with Player() as player:
            player.send(before + samples + field + SET_UPS + brought(0, 300))
            assert player.finished() == (symbols, refused(number), 0), f"{name}: not refused with more behind"
            assert left_in(player.source) == len(SET_UPS + brought(0, 300)), f"{name}: read beyond the field"
    return f"{len(REFUSALS)} tapes: numbers {', '.join(map(str, sorted({row[0] for row in REFUSALS.values()})))}"


def check_cuts():
    """A tape that ends anywhere: between commands silently, inside one with 10, or with what was seen before."""
    tape = QPSK + GARDNER + brought(0, 40) + tapes.reset_command() + brought(40, 60)
    ends, at = {0}, 0
    for command in (QPSK, GARDNER, brought(0, 40), tapes.reset_command(), brought(40, 60)):
        at += len(command)
        ends.add(at)
    for end in range(len(tape) + 1):
        expected = b"" if end in ends else refused(10)
        assert played(tape[:end])[1:] == (expected, 0), f"a tape that ends behind byte {end}"
    assert played(b"\x01\x03")[1] == refused(9) and played(b"\x03\x00\x08")[1] == refused(11)
    return f"a tape of {len(tape)} bytes, cut at each"


def random_tape(chance):
    """A tape that is mostly right, with a few bytes changed or cut off."""
    def value(*usual):
        return chance.choice(usual * 3 + (0.0, -1.0, 1e9, float("nan"), 5e-324))

    def code():
        return chance.choice((0, 0, 1, 1, 2, 3))

    makers = (
        lambda: tapes.carrier_command(code(), value(0.02, 0.1), value(1.0, 0.5), value(0.05, 0.0)),
        lambda: tapes.timing_command(code(), value(4.0, 2.0), value(0.01), value(1.0), value(0.01, 0.0), value(6.28)),
        lambda: brought(0, chance.randrange(20)), lambda: brought(0, 3), tapes.reset_command)
    tape = bytearray(chance.choice((b"", QPSK, GARDNER, SET_UPS, SET_UPS)))
    for _ in range(chance.randrange(6)):
        tape += chance.choice(makers)()
    for _ in range(chance.choice((0, 0, 1, 2))):
        if tape:
            tape[chance.randrange(len(tape))] = chance.randrange(256)
    return bytes(tape[:chance.choice((len(tape), len(tape), chance.randrange(len(tape) + 1)))])


def shown(tape):
    """What the script says of a tape: the number of its refusal or 0, and how many bytes are read then."""
    source = io.BytesIO(tape)
    reader = tapes.Tape(source)
    while True:
        first = source.read(1)
        if not first:
            return 0, reader.at
        reader.at += 1
        try:
            tapes.shown(reader, first[0])
        except tapes.Refused as stop:
            return stop.args[0], reader.at


def check_random():
    """On random tapes the program's number and stopping place are those of tape.py."""
    chance, numbers, count = random.Random(SEED), {}, 3000
    for _ in range(count):
        tape = random_tape(chance)
        number, place = shown(tape)
        with Player() as player:
            player.send(tape)
            player.end()
            _, err, status = player.finished()
            said = (err, status, len(tape) - left_in(player.source))
        assert said == (refused(number) if number else b"", 0, place), f"{tape.hex()}: {said}, not {number}, {place}"
        numbers[number] = numbers.get(number, 0) + 1
    counts = ", ".join(f"{number}: {numbers[number]}" for number in sorted(numbers) if number)
    return f"{count} tapes; not refused: {numbers.get(0, 0)}; refused with {counts}"


def check_closed_output():
    """If the reader of the symbols goes, the program stops, silently."""
    with Player() as player:
        player.send(SET_UPS + brought(0, 400))
        player.symbols(8)
        player.process.stdout.close()
        player.process.stdout = None
        player.send(brought(400, 800))
        _, err, status = player.finished()
        assert (err, status) == (b"", 0), f"{err}, status {status}"
    return "ended, nothing on error output"


def check_errors():
    """Reads and writes that fail, and arguments, are said in words."""
    tape = SET_UPS + brought(0, 400)
    said = []

    def saw(beginning, shell, data=b""):
        run = subprocess.run(["sh", "-c", shell, PLAYER], input=data, capture_output=True, timeout=PATIENCE,
                             check=False)
        text = run.stderr.decode()
        assert (run.stdout, run.returncode) == (b"", 0), f"{shell}: {run.stdout}, status {run.returncode}"
        assert text.startswith(beginning) and text.count("\n") == 1 and text.endswith("\n"), f"{shell}: {text}"
        said.append(text.strip())

    saw("order_tape: standard input cannot be read: ", 'exec "$0" < /')
    saw("order_tape: standard input cannot be read: ", 'exec "$0" <&-')
    saw("order_tape: standard output cannot be written: ", 'exec "$0" > /dev/full', tape)
    saw("order_tape: standard output cannot be written: ", 'exec "$0" >&-', tape)
    saw("order_tape takes no arguments", 'exec "$0" tape')
    return "; ".join(said)


def check_stopped():
    """A program that is stopped inside a field and goes on reads on."""
    tape = SET_UPS + brought(0, 400)
    with Player() as player:
        player.send(tape[:500])
        player.taken()
        player.process.send_signal(signal.SIGSTOP)
        time.sleep(WATCH)
        player.process.send_signal(signal.SIGCONT)
        player.send(tape[500:])
        player.end()
        assert player.finished() == played(tape), "other symbols"
    return "stopped and continued inside the samples"


def script(job, data, *words):
    """What the script makes of an input: output, error output, status."""
    run = subprocess.run(SCRIPT + [job, *words], input=data, capture_output=True, timeout=PATIENCE, check=False)
    return run.stdout, run.stderr.decode(), run.returncode


def check_script():
    """The script says in a line what is wrong with its input, and loses nothing silently."""
    out, err, status = script("write", recorded(0, 2500) + b"abc")
    assert out == SET_UPS + brought(0, 2048) + brought(2048, 2500), "not all whole samples are on the tape"
    assert status == 1 and "ends inside a sample" in err and "3 bytes" in err and err.count("\n") == 1, err
    for words, number in ((("--sps", "1"), 1), (("--gain", "nan"), 5), (("--offset", "0.3"), 4)):
        out, err, status = script("write", b"", *words)
        assert (out, status) == (b"", 2) and f"refuse with {number})" in err and err.count("\n") == 1, err
    for recording, said in ((b"", "no samples"), (bytes(80), "silent"), (b"\xff" * 80 + recorded(0, 10), "10 of the first 20")):
        out, err, status = script("write", recording)
        assert status == 0 and said in err and err.count("\n") == 1, err
    out, err, status = script("read", struct.pack("<4f", -1.0, 0.5, 0.0, -0.0) + b"abc")
    assert (out, status) == (b"1-\n", 1) and err.count("\n") == 1, err
    parts = struct.pack("<4f", 0.1, -3.0, float("nan"), float("inf"))
    assert script("read", parts, "--parts") == (b"0.100000001 -3\nnan inf\n", "", 0)
    assert script("show", example())[2] == 1 and script("show", accepted())[2] == 0
    process = subprocess.Popen(SCRIPT + ["read"], stdin=subprocess.PIPE, stdout=subprocess.PIPE, stderr=subprocess.PIPE)
    process.stdout.close()
    process.stdout = None
    _, err = process.communicate(bytes(8 * 2**16), timeout=PATIENCE)
    assert (err, process.returncode) == (b"", -signal.SIGPIPE), err.decode()
    return "a cut, an empty, a silent and an odd recording, settings out of range, a cut output, NaN, a reader that goes"


# ---- A very long tape


def peak(process):
    """The most memory that a process has had, in kB."""
    for line in Path(f"/proc/{process.pid}/status").read_text().splitlines():
        if line.startswith("VmHWM:"):
            return int(line.split()[1])
    raise ValueError("no VmHWM")


def compare(stream, expected, count, seen):
    """Reads symbols and counts the cycles up to the first that is not as expected."""
    right = True
    for _ in range(count):
        right = right and stream.read(len(expected)) == expected
        seen[0] += right
    while not right and stream.read(len(expected)):
        pass


def check_long(gigabytes):
    """Memory does not grow with the tape: the sample recording again and again, a reset before each."""
    cycle = tapes.reset_command() + brought(0, 2048) + brought(2048, 4000)
    symbols = played(SET_UPS + cycle)[0]
    count, seen = gigabytes * 2**30 // len(cycle) + 1, [0]
    start = time.monotonic()
    with Player() as player, os.fdopen(os.dup(player.process.stdout.fileno()), "rb") as output:
        player.let_go()
        reader = threading.Thread(target=compare, args=(output, symbols, count, seen), daemon=True)
        reader.start()
        player.send(SET_UPS)
        early = 0
        for number in range(count):
            player.send(cycle)
            if number == 99:
                early = peak(player.process)
        reader.join(PATIENCE)
        seconds = time.monotonic() - start
        assert seen[0] == count, f"cycle {seen[0]} differs or is missing"
        late = peak(player.process)
        player.end()
        assert player.finished() == (b"", b"", 0)
    assert late == early, f"VmHWM was {early} kB after 100 cycles and is {late} kB"
    return (f"{len(SET_UPS) + count * len(cycle)} bytes, {count * len(symbols) // 8} symbols, each as expected, in "
            f"{seconds:.1f} s; VmHWM {early} kB after {100 * len(cycle)} bytes, {late} kB at the end")


CHECKS = (check_gate, check_digits, check_empty, check_short_reads, check_live, check_refusals, check_cuts,
          check_random, check_closed_output, check_errors, check_stopped, check_script)


def main(gigabytes):
    """Makes all checks."""
    for program in ("make_recording", "receive_recording", "order_tape"):
        if not (PROGRAMS / program).exists():
            sys.exit(f"order_tape_pipes: {program} is not built: make programs")
    checks = [(check, ()) for check in CHECKS] + ([(check_long, (gigabytes,))] if gigabytes else [])
    faults = 0
    for check, words in checks:
        try:
            said = check(*words)
            print(f"ok     {check.__doc__}\n       ({said})", flush=True)
        except (AssertionError, OSError, subprocess.SubprocessError) as fault:
            faults += 1
            print(f"FAULT  {check.__doc__}\n       ({fault})", flush=True)
    print(f"{len(checks)} checks, {faults} faults")
    return 1 if faults else 0


if __name__ == "__main__":
    if sys.argv[1:] == ["example"]:
        sys.stdout.buffer.write(example())
    elif len(sys.argv) == 1 or (len(sys.argv) == 2 and sys.argv[1].isdecimal()):
        sys.exit(main(int(sys.argv[1]) if len(sys.argv) == 2 else 1))
    else:
        sys.exit(__doc__)
