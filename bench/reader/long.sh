#!/bin/sh
# Builds and runs the benchmark of one input that takes more than 2^32 steps: long.sh [ARCHIVE [GENERATOR_ARCHIVE]]
# ARCHIVE is libparser_c.a, GENERATOR_ARCHIVE libgenerator_c.a; by default those of target/staticlib of the repository.
# NONTERMINALS sets how many of them double each other (32: 2^32 + 3 steps, nine times; each more takes twice as long).
# Needs gcc, 10 GB of addresses and 100 MB of memory (a page that is mapped many times is counted as often by some tools).
# Exit status 0: every end and count is the one that long.c computes; 1: one is not.
root=$(cd "$(dirname "$0")/../.." && pwd)
out=$root/target/bench
parser=${1:-$root/target/staticlib/libparser_c.a}
generator=${2:-$root/target/staticlib/libgenerator_c.a}
for archive in "$parser" "$generator"; do
    [ -f "$archive" ] || { echo "no archive $archive" >&2; exit 2; }
done
mkdir -p "$out" &&
    gcc -O2 -Wall -Wextra -I"$root/bindings/c" "$root/bench/reader/long.c" "$root/bench/reader/loop.c" "$parser" "$generator" \
        -lpthread -ldl -lm -o "$out/long" || exit 2
exec "$out/long" "${NONTERMINALS:-32}"
