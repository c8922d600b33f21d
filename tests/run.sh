#!/bin/sh
# All tests from outside, as the gate runs them: makes the archives and the programs, gets Bison
# where it is missing and can be had, then tests the reader and the maker at the same time.
# Exit status 0: all passed.
set -eu
cd "$(dirname "$0")/.."
sh tools/build.sh parser_c generator_c merge_c maketable pagetable
command -v bison >/dev/null || { apt-get install -y bison || { apt-get update && apt-get install -y bison; }; } >/dev/null 2>&1 ||
    echo "Bison cannot be installed here"
# the reader's proofs with limits and counts of 32 bits, and its tests; what they say is shown behind the maker's
{ sh tests/width/run.sh && sh tests/reader/run.sh; } >target/reader.log 2>&1 &
reader=$!
trap 'kill $reader 2>/dev/null; exit 1' INT TERM
maker_failed=0
MAKETABLE=target/bin/maketable PAGETABLE=target/bin/pagetable sh tests/generator/run.sh || maker_failed=1
reader_failed=0
wait $reader || reader_failed=1
cat target/reader.log
[ $maker_failed$reader_failed = 00 ] || { echo "tests: the maker's failed: $maker_failed, the reader's: $reader_failed"; exit 1; }
# the benchmark of long counts, with 4099 steps in place of 2^32 + 3
NONTERMINALS=12 sh bench/reader/long.sh
# the benchmark of what can follow, with short inputs: the sets are those that Bison expects
ROUNDS=1 LENGTHS="10 100 1000" sh bench/reader/offers.sh
# the benchmark of closed terminals, with short inputs: the choir's call answers as the publisher's where it must
ROUNDS=1 PLACES=1 LENGTHS="10 100 1000" sh bench/reader/closed.sh
# the scripts and the tool beside the proofs; the first call builds it
./explain <examples/a.card >/dev/null
python3 tests/scripts/scripts.py target/bin/maketable target/bin/pagetable target/cargo/release/explain
sh tests/explain/run.sh
# the examples' tables and pages, and what the documents say
for example in a json nested pair hymnal; do
    ./maketable <examples/$example.card | cmp - examples/$example.table
    ./pagetable <examples/$example.card | cmp - examples/$example.pages
done
echo "1 1 1 0 1 0" | ./maketable | cmp - examples/empty.table
python3 tests/docs/check.py
