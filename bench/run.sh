#!/bin/sh
# Measures the proved build against plain C of document 01's rounds: the same inputs, one process, both compiled by the kit's LLVM
# for x86-64. Prints a table for docs/SPEED.md. Not a part of the gate.
set -eu
root=$(cd "$(dirname "$0")/.." && pwd -P)
. "$root/tools/c.sh"

work=$(mktemp -d)
trap 'rm -rf "$work"' EXIT
archive
MORE=-fbuiltin # plain C may use the compiler's own memset and the like
link_kit "$work/bench" "$root/bench/main.c" "$root/bench/plain.c"
echo "$(date -u +%Y-%m-%d), $(sed -n 's/^model name[^:]*: //p' /proc/cpuinfo | head -n 1), $(rt version)"
"$work/bench"
