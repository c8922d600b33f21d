#!/bin/sh
# "One proof serves either width": proves the steps, the exploration and the reader again with limits and counts of 32 bits. Only types
# in the code change, and count_bits, which names their width to the contracts; no other definition and no proof does.
# What rt keeps of the crates is not proved again. The copy stands elsewhere, since `rt ci` refuses sources that are of no crate.
set -eu
cd "$(dirname "$0")/../.."
log=$PWD/target/width.log
mkdir -p target
out=$(mktemp -d)
trap 'rm -rf "$out"' EXIT
trap 'exit 1' INT TERM
needed="sets tables machine cell_checks entry_checks table_checks steps unlisted_steps exploration scans parser"
for crate in $needed; do
    grep "^$crate:" crates.txt >>"$out/crates.txt"
    mkdir -p "$out/crates/$crate"
    for part in src specs proofs; do
        [ ! -d "crates/$crate/$part" ] || cp -r "crates/$crate/$part" "$out/crates/$crate/"
    done
done
for crate in steps unlisted_steps exploration parser; do
    sed -i 's/\b\(left\|steps\|step_limit\): u64/\1: u32/; s/) as u64,$/) as u32,/; s/^\(fn portion.*\) -> u64$/\1 -> u32/; s/^ *depth as u64$/depth as u32/' "$out/crates/$crate/src/lib.rt"
done
sed -i 's/^count_bits = 64$/count_bits = 32/' "$out/crates/parser/specs/Phases.antt"
changed=$(diff -r crates "$out/crates" | grep -c '^> ') || true
[ "$changed" = 23 ] || { echo "width: $changed lines changed, not 23"; exit 1; }
check() { (cd "$out/crates/parser" && exec rt check) >"$log" 2>&1; }
check || { grep -m 3 error "$log" || true; echo "width: not proved with counts of 32 bits: see $log"; exit 1; }
# a planted fault: contracts that name another width than the code has
sed -i 's/^count_bits = 32$/count_bits = 33/' "$out/crates/parser/specs/Phases.antt"
! check || { echo "width: counts of 33 bits are proved to fit 32"; exit 1; }
grep -q "it is not proved that the value fits the type that it is cast to" "$log" || { echo "width: the planted fault fails elsewhere: see $log"; exit 1; }
echo "width: steps, exploration and reader proved with counts of 32 bits; 1 planted fault, 0 not found"
