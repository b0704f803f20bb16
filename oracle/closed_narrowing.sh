#!/bin/sh
# The table of the command `speed` with a closed narrowing in the place of the recursive one.
#
# closed_narrowing.patch has it, proved against the same contract: it rounds inside the bits by one sum. It is
# applied to a copy of the repository, which is proved and built there. Needs git, cargo and the Rattle toolchain.
set -eu

here=$(cd "$(dirname "$0")" && pwd)
copy=$(mktemp -d)
trap 'rm -rf "$copy"' EXIT

cp -r "$here/../crates" "$here/../crates.txt" "$copy"
# What is proved already need not be proved again.
if [ -d "$here/../target" ]; then
    cp -r "$here/../target" "$copy"
fi
cd "$copy"
git apply "$here/closed_narrowing.patch"
if ! make library >proved.txt 2>&1; then
    cat proved.txt
    exit 1
fi
cd "$here"
TRAIN_RECEIVER_LIB="$copy/target/staticlib" cargo run --profile speed --features ported -- speed
