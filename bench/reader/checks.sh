#!/bin/sh
# Times calls with no terminal and with one, which is mostly the check of the table: checks.sh [ARCHIVE..]
# ARCHIVEs are libparser_c.a, such as one from before a change and one from after it, also with tables of another form
# (checks.c); old=ARCHIVE is one whose call has no second area. By default target/staticlib/libparser_c.a of the
# repository. Needs gcc and awk.
# They run in turn, RUNS times (5), and the least times are taken.
set -e
root=$(cd "$(dirname "$0")/../.." && pwd)
out=$root/target/bench/checks
[ $# -gt 0 ] || set -- "$root/target/staticlib/libparser_c.a"
for archive; do
    [ -f "${archive#old=}" ] || { echo "no archive $archive" >&2; exit 2; }
done
mkdir -p "$out"
number=0
for archive; do
    number=$((number + 1))
    echo "archive $number: $archive"
    without=
    [ "$archive" = "${archive#old=}" ] || without=-DWITHOUT_SECOND
    gcc -O2 -Wall -Wextra $without -I"$root/bindings/c" "$root/bench/reader/checks.c" "$root/bindings/c/sidumza_table.c" \
        "${archive#old=}" -o "$out/checks-$number"
done
run=0
: >"$out/times"
while [ $run -lt "${RUNS:-5}" ]; do
    run=$((run + 1))
    number=0
    for archive; do
        number=$((number + 1))
        "$out/checks-$number" "$root/examples/a.table" "$root/examples/json.table" >"$out/log" ||
            { cat "$out/log" >&2; exit 2; }
        sed "s/^/$number /" "$out/log" >>"$out/times"
    done
done
awk -v archives=$# '
    function kept(input, ns) {
        at = $1 " " $2 " " input
        if (!(at in least) || ns < least[at]) least[at] = ns
    }
    !($2 in cells) { names[++rows] = $2; cells[$2] = $4 }
    { kept("none", $5); kept("one", $6) }
    END {
        printf "%-16s %6s %-9s", "table", "cells", "terminals"
        for (a = 1; a <= archives; a++) printf " %9s %8s%s", a " ns", "ns/cell", (a > 1 ? "  ratio" : "")
        print ""
        for (r = 1; r <= rows; r++) for (i = 0; i < 2; i++) {
            input = i ? "one" : "none"; name = names[r]; first = least["1 " name " " input]
            printf "%-16s %6d %-9s", name, cells[name], input
            for (a = 1; a <= archives; a++) {
                ns = least[a " " name " " input]
                printf " %9.1f %8.3f%s", ns, ns / cells[name], (a > 1 ? sprintf(" %6.2f", ns / first) : "")
            }
            print ""
        }
    }' "$out/times"
