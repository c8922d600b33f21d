#!/bin/sh
# Builds and runs the benchmark of closed terminals, the choir's call beside the publisher's: closed.sh [ARCHIVE]
# ARCHIVE is libparser_c.a, by default target/staticlib/libparser_c.a of the repository. It is linked at PLACES places in
# memory (6), since the place alone changes a time by 1 to 3 %; printed are the means over them of the least of ROUNDS
# rounds (100), in ns a terminal, and their ratio, and at the end the largest ratio of each kind of input (closed.c).
# LENGTHS sets the lengths of the inputs (10 to 60000 terminals). Needs rustc, gcc and awk.
# Exit status 0: both calls answer the same, whatever the ratios are; 1: they do not; 2: trouble.
set -e
root=$(cd "$(dirname "$0")/../.." && pwd)
archive=${1:-$root/target/staticlib/libparser_c.a}
out=$root/target/bench/closed
[ -f "$archive" ] || { echo "no archive $archive" >&2; exit 2; }
rm -rf "$out"
mkdir -p "$out"
rustc --edition 2021 -O -o "$out/gen" "$root/bench/reader/gen.rs" || exit 2
"$out/gen" "$out" "$root"/bench/reader/grammars/*.txt || exit 2
place=0
while [ $place -lt "${PLACES:-6}" ]; do
    printf '.text\n.skip %d\n.section .note.GNU-stack,"",@progbits\n' $((1 + 16 * place)) >"$out/place.s"
    gcc -O2 -Wall -Wextra -I"$root/bindings/c" -I"$out" "$root/bench/reader/closed.c" "$out/place.s" "$archive" \
        -lpthread -ldl -lm -o "$out/closed" || exit 2
    "$out/closed" "${ROUNDS:-100}" ${LENGTHS:-10 100 1000 10000 60000} >>"$out/times"
    place=$((place + 1))
done
awk '
    { at = $1 " " $2 " " $3; if (!(at in n)) rows[++many] = at; n[at]++; publisher[at] += $4; choir[at] += $5 }
    END {
        printf "%-11s %-6s %9s %9s %9s  ratio\n", "grammar", "closed", "terminals", "publisher", "choir"
        for (r = 1; r <= many; r++) {
            split(rows[r], part, " ")
            p = publisher[rows[r]] / n[rows[r]]
            c = choir[rows[r]] / n[rows[r]]
            printf "%-11s %-6s %9d %9.2f %9.2f %6.3f\n", part[1], part[2], part[3], p, c, c / p
            if (c / p > largest[part[2]]) largest[part[2]] = c / p
        }
        printf "largest ratios: none %.3f, unmet %.3f, last %.3f\n", largest["none"], largest["unmet"], largest["last"]
    }' "$out/times"
