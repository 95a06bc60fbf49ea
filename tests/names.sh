#!/bin/sh
# Sees that the names in the pages stand where they say: names "in crate/File" among the definitions and theorems, names after a
# file of code among its items, and edits among the must-fail edits; and that each public function or method has its theorem NAME-settled
# in crates/promises, and desk_c's calls the clauses of desk's. It says what is amiss, and how many names it has looked up.
#   tests/names.sh [PAGE..]     docs/MAP.md and docs/PROMISES.md without one
set -eu
cd "$(dirname "$0")/.."
[ $# -gt 0 ] || set -- docs/MAP.md docs/PROMISES.md

list='(`[^`]+`(, | and )?)+'

# Whether a file of definitions or proofs declares the name.
declares() {
    [ -e "$1" ] && awk -v name="$2" '
        { i = 1; while ($i ~ /^(pub|abbrev|unfoldable|record|data)$/) i++ }
        $i == name && / :( |$)/ { found = 1 }
        END { exit !found }' "$1"
}

# The lines "PLACE NAME" of a page.
wanted() {
    grep -oE "$list in [a-z_]+/[A-Z][A-Za-z]*" "$1" | awk '{ place = $NF; n = split($0, part, "`"); for (i = 2; i < n; i += 2) print place, part[i] }'
    grep -oE "[a-z_]+/src/[a-z]+\.rt, $list" "$1" | awk '{ place = $1; sub(/,$/, "", place); n = split($0, part, "`"); for (i = 2; i < n; i += 2) print place, part[i] }'
    grep -oE '[a-z]+/must-fail/[a-z0-9_]+' "$1" | awk '{ print $1, "edit" }'
}

seen=0
amiss=0
for page in "$@"; do
    wanted "$page" >"${TMPDIR:-/tmp}/names.$$"
    while read -r place name; do
        seen=$((seen + 1))
        base=${name##*.}
        case $place in
        */must-fail/*) [ -e "crates/$place.edit" ] && continue ;;
        */src/*) grep -qE "(fn|struct|enum|const) $base\b" "crates/$place" && continue ;;
        *)
            crate=${place%%/*}
            file=${place##*/}
            declares "crates/$crate/specs/$file.antt" "$base" && continue
            declares "crates/$crate/proofs/$file.antt" "$base" && continue
            ;;
        esac
        echo "$page: '$name' does not stand in $place"
        amiss=$((amiss + 1))
    done <"${TMPDIR:-/tmp}/names.$$"
    rm -f "${TMPDIR:-/tmp}/names.$$"
done
# The theorem of each public function of a file: f-settled for a function f, t-m-settled for a method m of a type T, of a trait's impl too, its words parted by dashes.
theorems() {
    awk '
        /^(unsafe )?impl[ <]/ {
            trait = / for /
            sub(/^(unsafe )?impl */, ""); gsub(/->/, "")
            if (/^</) {
                depth = 0
                for (i = 1; i <= length($0); i++) {
                    c = substr($0, i, 1)
                    depth += (c == "<") - (c == ">")
                    if (depth == 0) break
                }
                $0 = substr($0, i + 1)
            }
            sub(/^.* for /, ""); sub(/^[ &]*/, ""); sub(/[^A-Za-z0-9_].*$/, "")
            type = $0
            while (match(type, /[a-z0-9][A-Z]/)) type = substr(type, 1, RSTART) "-" substr(type, RSTART + 1)
            type = tolower(type) "-"
        }
        /^}/ { type = ""; trait = 0 }
        /^ *pub ((const|unsafe) )*(extern "C" )?fn / || (trait && /^ +((const|unsafe) )*fn /) {
            sub(/^ *(pub )?((const|unsafe) )*(extern "C" )?fn /, ""); sub(/[^a-z0-9_].*$/, ""); gsub(/_/, "-")
            print type $0 "-settled"
        }' "$@"
}

# printer is left out: it reads and writes, and promises does not stand on it
for theorem in $(find crates/*/src -name '*.rt' ! -path 'crates/printer/*' | while read -r file; do theorems "$file"; done); do
    seen=$((seen + 1))
    grep -q "^pub $theorem :" crates/promises/proofs/*.antt && continue
    echo "crates/promises: no theorem $theorem"
    amiss=$((amiss + 1))
done
# The theorems are of desk's calls, and C links desk_c's, each under its own name: the two have the same parameters and the same clauses, to the letter.
calls() { sed -nE '/^pub (extern "C" )?fn /,/^\{/p' "crates/$1/src/lib.rt" | sed 's/^pub extern "C" fn /pub fn /'; }
[ "$(calls desk | grep -c '^    ensures')" -gt 0 ]
if [ "$(grep -c '^pub extern "C" fn ' crates/desk_c/src/lib.rt)" -ne "$(calls desk_c | grep -c '^pub fn ')" ]; then
    echo "crates/desk_c: a call is not exported to C"
    amiss=$((amiss + 1))
fi
if [ "$(calls desk)" != "$(calls desk_c)" ]; then
    echo "crates/desk_c: its calls do not promise what desk's promise"
    amiss=$((amiss + 1))
fi
echo "names: $seen looked up, $amiss amiss"
[ "$amiss" -eq 0 ]
