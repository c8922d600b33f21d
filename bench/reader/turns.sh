#!/bin/sh
# Times two archives of the parser over long inputs, in turn in one process: turns.sh FIRST SECOND
# FIRST and SECOND are libparser_c.a, such as one from before a change and one from after it; old=ARCHIVE is one whose
# call has no second area. Each is linked at six places in memory, since the place alone changes a time by 1 to 3 %;
# printed is the mean over them of the least of ROUNDS rounds (200), in ns a terminal, and the ratio. Needs rustc, gcc,
# binutils and awk.
set -e
[ $# -eq 2 ] && [ -f "${1#old=}" ] && [ -f "${2#old=}" ] || { echo "turns.sh FIRST SECOND: two archives" >&2; exit 2; }
root=$(cd "$(dirname "$0")/../.." && pwd)
out=$root/target/bench/turns
rm -rf "$out"
mkdir -p "$out"
rustc --edition 2021 -O -o "$out/gen" "$root/bench/reader/gen.rs"
"$out/gen" "$out" "$root"/bench/reader/grammars/*.txt
without=
[ "$1" = "${1#old=}" ] || without=-DFIRST_WITHOUT
[ "$2" = "${2#old=}" ] || without="$without -DSECOND_WITHOUT"
for who in first second; do
    ld -r --whole-archive "${1#old=}" -o "$out/all.o"
    objcopy --redefine-sym sidumza_parse=${who}_parse "$out/all.o" "$out/$who.o"
    objcopy --keep-global-symbol=${who}_parse "$out/$who.o"
    shift
done
for place in 1 16 32 48 64 96; do
    printf '.text\n.skip %d\n.section .note.GNU-stack,"",@progbits\n' $place >"$out/place.s"
    gcc -O2 -Wall -Wextra $without -I"$root/bench/reader" -I"$out" "$root/bench/reader/turns.c" "$out/place.s" "$out/first.o" \
        "$out/second.o" -o "$out/turns"
    "$out/turns" "${ROUNDS:-200}" >>"$out/times"
done
awk '
    { if (!($1 in n)) names[++rows] = $1; n[$1]++; first[$1] += $2; second[$1] += $3 }
    END {
        printf "%-12s %8s %8s  ratio\n", "grammar", "first", "second"
        for (r = 1; r <= rows; r++) {
            g = names[r]
            printf "%-12s %8.2f %8.2f %6.3f\n", g, first[g] / n[g], second[g] / n[g], second[g] / first[g]
        }
    }' "$out/times"
