#!/usr/bin/env python3
"""Compares the speed of two landings, in turns.

    python3 compare_speed.py EARLIER [TURNS [own]]     as: ../../earlier 12

EARLIER is the root of another checkout of this repository. In both checkouts `make
library` must have been run. The benchmark of this one is built with each library (and that
checkout's bindings/rust) and run TURNS times, in the order earlier, later, later, earlier, and so
on, so that a slow drift of the machine's pace meets both alike. Nothing else should run beside it.
With `own` each library is measured by its own checkout's benchmark: for a landing that moves a record.
For each row of the first table it prints by how many per cent the later one is behind (a minus: ahead):

    fastest   the fastest run of the ported library, later against earlier. This one decides.
    median    the median run of it
    ratio     the median of the ratio to the original in the same run
    original  the fastest run of the original, whose code is the same in both: what chance does

The status is 1 if a row is more than 2 per cent behind in its fastest run.
"""

import os
import shutil
import subprocess
import sys
import tempfile
from pathlib import Path
from statistics import median

HERE = Path(__file__).resolve().parent
BLOCKS = ["64", "2,048", "65,536"]
BEHIND = 2.0
# Where the original may lie, as in build.rs.
USUAL_SOURCES = ["../../sdrk", "../../shared/docs/src"]


def built(root, oracle, folder):
    """A benchmark, with the library of a checkout in it."""
    library = root / "target" / "staticlib"
    if not (library / "libtrain_receiver.a").exists():
        sys.exit(f"{library} has no library: run `make library` in {root}")
    ignore = shutil.ignore_patterns("target")
    shutil.copytree(oracle, folder / "oracle", ignore=ignore)
    shutil.copytree(root / "bindings", folder / "bindings", ignore=ignore)
    usual = next((place for place in USUAL_SOURCES if (HERE / place).is_dir()), USUAL_SOURCES[0])
    source = HERE / os.environ.get("SDRK_SRC", usual)
    settings = dict(os.environ, TRAIN_RECEIVER_LIB=str(library), SDRK_SRC=str(source))
    subprocess.run(["cargo", "build", "--quiet", "--offline", "--profile", "speed", "--features", "ported",
                    "--target-dir", "target"], cwd=folder / "oracle", env=settings, check=True)
    return folder / "oracle" / "target" / "speed" / "oracle"


def measured(program):
    """One run: for each row and block length the original's time and the ported one's. The rows of the first
    table are those of ten cells."""
    said = subprocess.run([program, "speed", "--fine"], capture_output=True, text=True, check=True).stdout
    times = {}
    for line in said.splitlines():
        cells = [cell.strip() for cell in line.strip("|").split("|")]
        if len(cells) == 10 and cells[1].replace(".", "").isdigit():
            for place, block in enumerate(BLOCKS):
                original, ported = cells[1 + 3 * place:3 + 3 * place]
                times[f"{cells[0]}, {block}"] = (float(original), float(ported))
    return times


def per_cent(earlier, later):
    return 100 * (later / earlier - 1)


def compared(earlier, later):
    """The four numbers of a row, from the pairs of each run."""
    originals = [[pair[0] for pair in runs] for runs in (earlier, later)]
    ported = [[pair[1] for pair in runs] for runs in (earlier, later)]
    ratios = [[pair[1] / pair[0] for pair in runs] for runs in (earlier, later)]
    return (per_cent(*map(min, ported)), per_cent(*map(median, ported)),
            per_cent(*map(median, ratios)), per_cent(*map(min, originals)))


def main(earlier, turns, own):
    with tempfile.TemporaryDirectory() as folder:
        roots = (earlier, HERE.parent)
        programs = [built(root, root / "oracle" if own else HERE, Path(folder) / str(place))
                    for place, root in enumerate(roots)]
        runs = ([], [])
        for turn in range(turns):
            for which in ((0, 1), (1, 0))[turn % 2]:
                runs[which].append(measured(programs[which]))
    print(f"{turns} turns; per cent that the later is behind\n")
    print("| row | fastest | median | ratio | original |\n|---|---:|---:|---:|---:|")
    behind = 0
    for row in runs[0][0]:
        numbers = compared(*[[run[row] for run in side] for side in runs])
        behind += numbers[0] > BEHIND
        print(f"| {row} | " + " | ".join(f"{number:.1f}" for number in numbers) + " |")
    print(f"\n{behind} rows are more than {BEHIND:g} per cent behind in their fastest run")
    return 1 if behind else 0


if __name__ == "__main__":
    if len(sys.argv) not in (2, 3, 4) or sys.argv[3:] not in ([], ["own"]):
        sys.exit(__doc__)
    sys.exit(main(Path(sys.argv[1]).resolve(), int(sys.argv[2]) if len(sys.argv) > 2 else 12, len(sys.argv) == 4))
