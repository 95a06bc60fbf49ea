#!/bin/sh
# Compares the proved calls, behind their C boundary, with the reference model on generated inputs: answers, every byte and
# word of each lent buffer, and the guards beside them. Works from a clean clone. The model's side is plain Rust.
set -eu
root=$(cd "$(dirname "$0")/.." && pwd -P)
. "$root/tools/c.sh"

command -v rustc >/dev/null || { echo "differential: the Rust compiler 'rustc' is not on the PATH: nothing was compared"; exit 1; }
work=$(mktemp -d)
trap 'rm -rf "$work"' EXIT

archive
link_kit "$work/harness" "$root/tests/differential/harness.c"
MORE=-DSPOILED
link_kit "$work/spoiled" "$root/tests/differential/harness.c"
rustc -O --edition 2021 -o "$work/driver" "$root/tests/differential/main.rs"

"$work/driver" "$work/harness"

# The comparison itself: a planner with one wrong byte is found out.
if "$work/driver" "$work/spoiled" >"$work/spoiled.out"; then
    echo "differential: a wrong byte in a lent buffer went unnoticed"
    exit 1
fi
grep -q 'the smallest input found' "$work/spoiled.out" || { echo "differential: a wrong byte was found out, but not told:"; cat "$work/spoiled.out"; exit 1; }
echo "ok: a wrong byte is found out"
