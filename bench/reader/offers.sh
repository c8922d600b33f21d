#!/bin/sh
# Builds and runs the benchmark of what can follow (31) on long inputs: offers.sh [ARCHIVE]
# ARCHIVE is libparser_c.a, by default target/staticlib/libparser_c.a of the repository. Needs rustc, gcc and bison (Debian:
# apt-get install -y bison); without Bison its column and the comparison of the sets are left out.
# LENGTHS sets the lengths of the inputs (10 to 60000 terminals), ROUNDS how often each is timed (20).
# Exit status 0: the sets are those that Bison expects, whatever the ratios are; 1: one is not; 2: trouble.
set -e
root=$(cd "$(dirname "$0")/../.." && pwd)
archive=${1:-$root/target/staticlib/libparser_c.a}
out=$root/target/bench/offers
[ -f "$archive" ] || { echo "no archive $archive" >&2; exit 2; }
mkdir -p "$out"
command -v bison >/dev/null || apt-get install -y bison >/dev/null 2>&1 || echo "Bison cannot be installed here"
rustc --edition 2021 -O -o "$out/gen" "$root/bench/reader/gen.rs"
"$out/gen" "$out" "$root"/bench/reader/grammars/*.txt
objects=
bison=
if command -v bison >/dev/null; then
    bison=-DBISON
    for y in "$out"/*_lac.y "$out"/*_all.y; do
        bison -o "${y%.y}.c" "$y"
        gcc -O2 -c "${y%.y}.c" -o "${y%.y}.o"
        objects="$objects ${y%.y}.o"
    done
    bison --version | head -1
fi
gcc -O2 -Wall -Wextra $bison -I"$root/bindings/c" -I"$out" "$root/bench/reader/offers.c" $objects "$archive" \
    -lpthread -ldl -lm -o "$out/offers"
exec "$out/offers" "${ROUNDS:-20}" ${LENGTHS:-10 100 1000 3000 10000 30000 60000}
