#!/bin/sh
# Builds the C example as examples/c/build.sh does, and runs it on every stored sheet: what it prints must go with the stored listing.
set -eu
root=$(cd "$(dirname "$0")/.." && pwd -P)
. "$root/tools/c.sh"

work=$(mktemp -d)
trap 'rm -rf "$work"' EXIT
archive
link_any "$work/list_sheet" "$root/examples/c/list_sheet.c"
right=0
for sheet in "$root"/tests/sheets/*.sheet; do
    "$work/list_sheet" "$sheet" >"$work/printed" || :
    # A refusal is told in words after its number; a listing is the stored one.
    told=$(sed 's/^refused \([0-9]*\):.*/refused \1/' "$work/printed")
    wanted=$(awk -F '\t' '{ print $1 == "refused" ? $1 " " $2 : $0 }' "${sheet%.sheet}.listing")
    if [ "$told" != "$wanted" ]; then
        echo "FAILED: $sheet: the example printed '$(cat "$work/printed")', wanted '$wanted'"
        exit 1
    fi
    right=$((right + 1))
done
[ "$right" -gt 0 ]
echo "ok: the C example on $right stored sheets"
