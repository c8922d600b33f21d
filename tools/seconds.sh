#!/bin/sh
# How many seconds each crate's own proofs take from nothing, on one core, the crates below it being proved: a line for
# each, as tools/layers.py reads them. It takes a checkout on a machine that keeps nothing of these crates, since rt begins
# with what it finds there.
set -eu
cd "$(dirname "$0")/.."
log=$PWD/target/seconds.log
mkdir -p target
for crate in $(sed -n 's/#.*//; s/^\([a-z0-9_]*\)[^:]*:.*/\1/p' crates.txt); do
    rm -rf "crates/$crate/out"
    began=$(date +%s)
    (cd "crates/$crate" && exec rt check --jobs 1) >"$log" 2>&1 || { echo "seconds: $crate is not proved: see $log" >&2; exit 1; }
    ! grep "begins with what a check kept" "$log" >&2 || { echo "seconds: $crate does not begin with nothing" >&2; exit 1; }
    echo "rt: $crate proved ($(($(date +%s) - began)) s)"
done
