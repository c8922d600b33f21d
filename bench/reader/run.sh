#!/bin/sh
# Builds and runs the benchmark of the parser: run.sh [ARCHIVE]
# ARCHIVE is libparser_c.a, by default target/staticlib/libparser_c.a of the repository.
# Needs rustc, gcc and bison (Debian: apt-get install -y bison). C is compiled with -O2.
set -e
cd "$(dirname "$0")"
root=$(cd ../.. && pwd)
archive=${1:-$root/target/staticlib/libparser_c.a}
out=$root/target/bench
mkdir -p "$out"
command -v bison >/dev/null || apt-get install -y bison >/dev/null

rustc --edition 2021 -O -o "$out/gen" gen.rs
"$out/gen" "$out" grammars/*.txt
objects=
for f in grammars/*.txt; do
    g=$(basename "$f" .txt)
    bison -o "$out/$g.c" "$out/$g.y"
    gcc -O2 -c "$out/$g.c" -o "$out/$g.o"
    objects="$objects $out/$g.o"
done
gcc -O2 -Wall -Wextra -c loop.c -o "$out/loop.o"
gcc -O2 -Wall -Wextra -I"$root/bindings/c" -I"$out" bench.c "$out/loop.o" $objects "$archive" -o "$out/bench"
bison --version | head -1
gcc --version | head -1
"$out/bench"
# what a call costs beside its steps; the numbers stand in bindings/c/sidumza.h
gcc -O2 -Wall -Wextra -I"$root/bindings/c" calls.c "$root/bindings/c/sidumza_table.c" "$archive" -o "$out/calls"
"$out/calls" "$root/examples/a.table" 2 1 1 1
"$out/calls" "$root/examples/json.table" 1 7 6 3 8 5 9 4 2
