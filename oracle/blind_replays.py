#!/usr/bin/env python3
"""Makes each replay blind in one place, and shows that its output says so.

    python3 blind_replays.py

A replay counts the recorded answers that differ. If one of its comparisons were dropped, that count
would stay 0. So each line is played damaged too, and `damaged_seen` counts what was seen. This drops
one comparison at a time, in a copy of the repository, runs the program unproved (`rt try`) and prints
what it writes instead. The status is 1 if one writes what it should.
"""

import shutil
import subprocess
import sys
import tempfile
from pathlib import Path

ROOT = Path(__file__).resolve().parent.parent
# the program, its file, the comparison, what stands in its place, and what is no longer looked at
BLIND = [
    ("timing_replay", "calls.rt", "line, agrees);", "line, true);", "every line"),
    ("operations_replay", "judge.rt", "answers::same(computed.c, answers::high(answer))",
     "answers::same(computed.c, computed.c)", "the cosine of a pair"),
    ("receiver_replay", "second.rt", "lent && records_turned", "records_turned", "the buffers of a turned run"),
    ("receiver_replay", "second.rt", "records_turned(first.r, self.r, turns.phase)", "true",
     "the record after a turned run"),
    ("receiver_replay", "first.rt", "receiver::locked(r) == (flags % 2 == 1)", "true", "the lock reading"),
    ("receiver_replay", "first.rt", "plain::constellation_code(receiver::constellation(r)) as u64 == flags / 2", "true",
     "the constellation reading"),
    ("receiver_replay", "convert.rt", "words_agree(old.count as u64, 0, 0, op)", "words_agree(op.x, 0, 0, op)",
     "the count of a converted record"),
    ("library_replay", "convert.rt", "narrowed.number as u64", "op.answer", "the number of a conversion"),
    ("library_replay", "run.rt", "counts.consumed as u64 == op.y % 0x1_0000_0000", "true", "what a call consumed"),
    ("library_replay", "readings.rt", "c.locked == (flags % 2 == 1)", "true", "the library's lock reading"),
    ("tape_replay", "compare.rt", "ending.number == recorded.number", "ending.number == ending.number",
     "the number of a tape"),
    ("tape_replay", "compare.rt", "same_bytes(&played.output[..ending.output], &self.bytes[from..to])",
     "ending.output == to - from", "the bytes of a tape's output"),
    ("tape_replay", "compare.rt", "by_field: self.agrees(&twice.by_field)", "by_field: true",
     "how a tape ends that is handed field by field"),
    ("tape_replay", "play.rt", "self.by_field.play(tape, |_| 0)", "self.by_field.play(tape, |left| left)",
     "fields, since all is handed at once"),
]


def written(copy, program):
    """The first line of the program's file that it does not write, or none."""
    crate = copy / "crates" / program
    with open(crate / "stdin", "rb") as stdin:
        run = subprocess.run(["rt", "try"], cwd=crate, stdin=stdin, capture_output=True)
    said = (run.stdout + run.stderr).decode("utf-8", "replace")
    if "run=ended" not in said:
        sys.exit(f"{program} was not run: {said}")
    lines = said.splitlines()
    wanted = (crate / "stdout").read_text(encoding="utf-8").splitlines()
    return next((f"not '{line}'" for line in wanted if line not in lines), None)


def main():
    seen = True
    with tempfile.TemporaryDirectory() as folder:
        copy = Path(folder) / "copy"
        shutil.copytree(ROOT, copy, ignore=shutil.ignore_patterns("target", "out", ".git", "oracle"))
        for program, name, old, new, what in BLIND:
            source = copy / "crates" / program / "src" / name
            right = source.read_text(encoding="utf-8")
            if right.count(old) != 1:
                sys.exit(f"not once in {program}/src/{name}: {old}")
            source.write_text(right.replace(old, new), encoding="utf-8")
            told = written(copy, program)
            source.write_text(right, encoding="utf-8")
            seen = seen and told is not None
            print(f"{program}, blind for {what}: {told or 'NOT SEEN'}")
    return 0 if seen else 1


if __name__ == "__main__":
    if len(sys.argv) != 1:
        sys.exit(__doc__)
    sys.exit(main())
