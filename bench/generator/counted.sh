#!/bin/sh
# Counts the instructions of calls: counted.sh PROGRAM [ARCHIVE..]
# PROGRAM says which (checks.py, tables.py). ARCHIVEs are libgenerator_c.a, such as one from before a change and
# one from after it; by default target/staticlib/libgenerator_c.a of the repository. Needs gcc, python3 and
# Debian's valgrind, which it installs where it is missing.
set -e
root=$(cd "$(dirname "$0")/../.." && pwd)
out=$root/target/bench/generator
program=$1
shift
[ $# -gt 0 ] || set -- "$root/target/staticlib/libgenerator_c.a"
for archive; do
    [ -f "$archive" ] || { echo "no archive $archive" >&2; exit 2; }
done
command -v valgrind >/dev/null || apt-get install -y valgrind >/dev/null || { echo "no valgrind" >&2; exit 2; }
mkdir -p "$out"
number=0
for archive; do
    number=$((number + 1))
    gcc -O2 -Wall -Wextra -I"$root/bindings/c" "$root/bench/generator/calls.c" "$archive" -o "$out/calls-$number" \
        -Wl,-z,now -lpthread -ldl -lm
done
python3 "$root/bench/generator/$program" "$out" "$@"
