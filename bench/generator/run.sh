#!/bin/sh
# Builds and runs the benchmark of the generator: run.sh [ARCHIVE [NAME..]]
# ARCHIVE is libgenerator_c.a, by default target/staticlib/libgenerator_c.a of the repository. NAMEs are
# cards of tests/bison/data, or files of it without .txt for their cards of 150 to 256 states; by default
# published settled languages large shapes slow.
# Needs gcc, make, python3 and Debian's byacc, bison, m4 and valgrind, which it installs where they are missing.
# Byacc and Bison are also built from Debian's sources (the first time, some minutes), since the installed
# programs have no symbols and what their functions do can be counted with symbols only. SYMBOLS= skips that.
set -e
root=$(cd "$(dirname "$0")/../.." && pwd)
archive=$(realpath -m "${1:-$root/target/staticlib/libgenerator_c.a}")
[ -f "$archive" ] || { echo "no archive $archive"; exit 2; }
[ $# -eq 0 ] || shift
cd "$root/bench/generator"
out=$root/target/bench/generator
mkdir -p "$out"
for program in byacc bison m4 valgrind; do
    command -v $program >/dev/null || apt-get install -y $program >/dev/null
done

# fetched PACKAGE: unpacks its source into $out/source/PACKAGE and goes there
fetched() {
    mkdir -p "$out/source/$1" &&
        tar=$(python3 "$root/tests/bison/published.py" fetch "$out/source" "$1") &&
        tar xf "$tar" -C "$out/source/$1" --strip-components=1 && cd "$out/source/$1"
}
build_byacc() (
    fetched byacc && ./configure --enable-btyacc CFLAGS='-O2 -g' && make yacc && cp yacc "$out/byacc-symbols"
)
# `all` makes the headers and then wants the manual, which Debian's source lacks.
build_bison() (
    fetched bison && ./configure --disable-nls CFLAGS='-O2 -g' &&
        { make -k all MAKEINFO=true HELP2MAN=true || make src/bison; } && cp src/bison "$out/bison-symbols"
)
for program in ${SYMBOLS-byacc bison}; do
    [ ! -x "$out/$program-symbols" ] || continue
    echo "building $program with symbols"
    "build_$program" >"$out/$program.log" 2>&1 || echo "no $program with symbols, see $out/$program.log"
done

gcc -O2 -Wall -Wextra -I"$root/bindings/c" calls.c "$archive" -o "$out/calls" -Wl,-z,now -lpthread -ldl -lm
byacc -V
bison --version | head -1
valgrind --version
python3 bench.py "$out" "$@"
