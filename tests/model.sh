#!/bin/sh
# Builds the reference model of document 01 with rustc alone, runs its own checks, lists every stored sheet of
# tests/sheets/ against its stored listing, and holds what the program `trials` reads and has to print to the model.
set -eu
cd "$(dirname "$0")/.."

command -v rustc >/dev/null || { echo "model: the Rust compiler 'rustc' is not on the PATH: nothing was checked"; exit 1; }
dir=$(mktemp -d)
trap 'rm -rf "$dir"' EXIT
rustc -O --edition 2021 -o "$dir/model" tests/model/main.rs
"$dir/model" self

listed=0
failed=0
for sheet in tests/sheets/*.sheet; do
    "$dir/model" list <"$sheet" >"$dir/listing"
    if cmp -s "$dir/listing" "${sheet%.sheet}.listing"; then
        listed=$((listed + 1))
    else
        echo "FAILED: $sheet"
        failed=$((failed + 1))
    fi
done
echo "model: $listed stored sheets listed, $failed failed"

"$dir/model" trials-in >"$dir/stdin"
"$dir/model" trials-out >"$dir/stdout"
for side in stdin stdout; do
    cmp "$dir/$side" "crates/trials/$side" || failed=$((failed + 1))
done
[ "$listed" -gt 0 ] && [ "$failed" -eq 0 ]
