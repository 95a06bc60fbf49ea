#!/bin/sh
# Builds the planner's archive and the example, and runs it on a sheet: examples/c/build.sh [SHEET].
# By any C compiler ($CC, or cc), and where there is none by the kit's own clang and linker. For x86-64.
set -eu
root=$(cd "$(dirname "$0")/../.." && pwd -P)
. "$root/tools/c.sh"

archive
program=$root/target/list_sheet
link_any "$program" "$root/examples/c/list_sheet.c"
echo "built target/list_sheet" >&2
exec "$program" "${1:-$root/tests/sheets/example.sheet}"
