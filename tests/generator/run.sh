#!/bin/sh
# Tests of the generator from outside: the archives' symbols, the reference's own
# tests, planted faults, random cards, sums of completed sets, shortest lengths, tables
# on pages, merged cards with the example programs that merge, the comparison with Bison,
# the table of cases and the programs maketable and pagetable.
#
#     tests/generator/run.sh
#
# GENERATOR_ARCHIVE, PARSER_ARCHIVE and MERGE_ARCHIVE name the archives, MAKETABLE and
# PAGETABLE the programs (all made by tools/build.sh); without them those of target/ are
# taken, and a missing program is skipped. LENGTHS_ARCHIVE and PAGES_ARCHIVE name those of the
# lengths and of the pages; without them lengths.sh and pages.sh make them. STAND_IN=1
# runs all of it with the reference, and for lengths, pages and merged cards a second way,
# in their place. SEED and CARDS are those of the random tests. Exit status 0: all passed.

set -u
tests=$(cd "$(dirname "$0")/.." && pwd)
root=$(cd "$tests/.." && pwd)
built=${TEST_TARGET:-$root/target/tests}
mkdir -p "$built" || exit 2
export CARGO_TARGET_DIR="$built"
failed=
# the archives of lengths and pages, where they need not be made
lengths=${LENGTHS_ARCHIVE:-}
pages=${PAGES_ARCHIVE:-}

reference="$built/release/libreference_c.a"
if [ -n "${STAND_IN:-}" ]; then
    unset GENERATOR_ARCHIVE PARSER_ARCHIVE MERGE_ARCHIVE LENGTHS_ARCHIVE PAGES_ARCHIVE
    generator=$reference
    parser=
    merge=$reference
    MAKETABLE="$built/release/maketable"
    PAGETABLE="$built/release/pagetable"
else
    GENERATOR_ARCHIVE=$(realpath -m "${GENERATOR_ARCHIVE:-$root/target/staticlib/libgenerator_c.a}")
    PARSER_ARCHIVE=$(realpath -m "${PARSER_ARCHIVE:-$root/target/staticlib/libparser_c.a}")
    MERGE_ARCHIVE=$(realpath -m "${MERGE_ARCHIVE:-$root/target/staticlib/libmerge_c.a}")
    for archive in "$GENERATOR_ARCHIVE" "$PARSER_ARCHIVE" "$MERGE_ARCHIVE"; do
        [ -f "$archive" ] || { echo "no archive $archive"; exit 2; }
    done
    LENGTHS_ARCHIVE=$(realpath -m "${lengths:-$root/target/lengths/liblengths_c.a}")
    PAGES_ARCHIVE=$(realpath -m "${pages:-$root/target/pages_archive/libpages_c.a}")
    export GENERATOR_ARCHIVE PARSER_ARCHIVE MERGE_ARCHIVE LENGTHS_ARCHIVE PAGES_ARCHIVE
    generator=$GENERATOR_ARCHIVE
    parser=$PARSER_ARCHIVE
    merge=$MERGE_ARCHIVE
    [ -n "${MAKETABLE:-}" ] || [ ! -x "$root/target/bin/maketable" ] || MAKETABLE="$root/target/bin/maketable"
    [ -n "${PAGETABLE:-}" ] || [ ! -x "$root/target/bin/pagetable" ] || PAGETABLE="$root/target/bin/pagetable"
fi

# Runs a step, its output into a file; prints its seconds and the last line of it.
step() {
    name=$1
    shift
    start=$(date +%s)
    if "$@" >"$built/$name.out" 2>&1; then
        echo "ok      $name ($(($(date +%s) - start)) s): $(grep . "$built/$name.out" | tail -n 1)"
    else
        failed="$failed $name"
        echo "FAILED  $name:"
        tail -n 20 "$built/$name.out"
    fi
}

# A C program of the tests with the archives or with the reference.
program() {
    cc -O2 -Wall -Wextra -Werror -I"$root/bindings/c" -o "$built/$1" "$2" "$3" ${4:+"$4"} -lpthread -ldl -lm
}

# exports FUNCTION ARCHIVE: the archive exports the function and leans on nothing but the memory functions.
exports() {
    nm -g --defined-only "$2" | awk 'NF == 3 { print $3 }' | sort -u >"$built/defined"
    grep -qx "$1" "$built/defined" || { echo "no $1"; return 1; }
    nm -u "$2" | awk 'NF == 2 { print $2 }' | sort -u | comm -23 - "$built/defined" >"$built/needed"
    ! grep -vxE 'memset|memcpy|memmove' "$built/needed"
}

symbols() {
    exports sidumza_generate "$generator" && exports sidumza_merge "$merge"
}

# The tests of the Rust binding, with the archives in one folder.
binding() {
    mkdir -p "$built/archives" && cp "$generator" "$parser" "$merge" "$built/archives" || return 1
    SIDUMZA_LIB="$built/archives" cargo test --offline --release --tests --features generator,merge \
        --manifest-path "$root/bindings/rust/Cargo.toml"
}

# Each header by itself, as C and, where there is a compiler for it, as C++.
header() {
    for file in sidumza_generator.h sidumza_merge.h; do
        cc -std=c99 -Wall -Wextra -Wpedantic -Werror -fsyntax-only -x c "$root/bindings/c/$file" || return 1
        ! command -v g++ >/dev/null ||
            g++ -Wall -Wextra -Wpedantic -Werror -fsyntax-only -x c++ "$root/bindings/c/$file" || return 1
    done
}

# refused EDIT FILE PROGRAM..: the program, given the file with one number changed, must fail.
refused() {
    sed "$1" "$2" >"$built/changed.txt"
    ! cmp -s "$2" "$built/changed.txt" || { echo "nothing changed by $1"; return 1; }
    shift 2
    ! "$@" "$built/changed.txt"
}

# program_refused NAME: the program's script, with the reference's program, finds a changed cell, transition and refusal.
program_refused() {
    refused "$cell" "$tests/bison/data/small.txt" python3 "$tests/cases/$1.py" "$built/release/$1" &&
        refused "$transition" "$tests/bison/data/small.txt" python3 "$tests/cases/$1.py" "$built/release/$1" &&
        refused "$refusal" "$tests/bison/data/slow.txt" python3 "$tests/cases/$1.py" "$built/release/$1"
}

# The programs that compare find a changed cell, transition, entering symbol, refusal, answer and word of closed terminals.
comparisons_fail() {
    cell='0,/^row 1 /s/:1025$/:1024/'
    transition='0,/^row 0 /s/ 2:1 / 1:1 /'
    refusal='0,/^refused 13/s/^refused 13 /refused 13 9/'
    refused "$cell" "$tests/bison/data/small.txt" "$built/compare" &&
        refused "$transition" "$tests/bison/data/small.txt" "$built/compare" &&
        refused "$refusal" "$tests/bison/data/slow.txt" "$built/compare" &&
        refused '0,/^answer 0 5/s/^answer 0 5/answer 0 6/' "$tests/cases/cases.txt" "$built/cases" &&
        refused '0,/^entered 0/s/^entered 0 1/entered 0 2/' "$tests/cases/cases.txt" "$built/cases" &&
        refused '0,/^answer 31 3 3 1 2 6 2/s/6 2$/4 1/' "$tests/cases/cases.txt" "$built/cases" &&
        refused '0,/^closed 2$/s/^closed 2$/closed 4/' "$tests/cases/cases.txt" "$built/cases" &&
        program_refused maketable && program_refused pagetable &&
        echo "13 changed files found"
}

# with_stack KIB COMMAND..: with so much stack; the reference, which needs more, has what there is.
with_stack() (
    [ -n "${STAND_IN:-}" ] || ulimit -s "$1" || exit 1
    shift
    exec "$@"
)

# printing NAME VARIABLE PROGRAM: what a program over cards prints, and what it says of failing calls.
printing() {
    if [ -n "$3" ]; then
        step "$1" with_stack 1024 python3 "$tests/cases/$1.py" "$3" "$tests"/bison/data/*.txt
        [ -n "${STAND_IN:-}" ] || step "$1-failures" sh "$tests/cases/failures.sh" "$3"
    else
        echo "skipped $1: $2 names no program"
    fi
}

all() {
    step reference-tests cargo test --offline --release --tests --manifest-path "$tests/reference/Cargo.toml"
    step build-reference cargo build --offline --release --manifest-path "$tests/reference/c/Cargo.toml"
    step build-programs cargo build --offline --release --manifest-path "$tests/reference/Cargo.toml"
    [ -n "${STAND_IN:-}$lengths" ] || step build-lengths sh "$tests/generator/lengths.sh"
    [ -n "${STAND_IN:-}$pages" ] || step build-pages sh "$tests/generator/pages.sh"
    step build-random cargo build --offline --release --manifest-path "$tests/generator/Cargo.toml"
    [ -n "${STAND_IN:-}" ] || step symbols symbols
    [ -n "${STAND_IN:-}" ] || step binding binding
    step header header
    step build-compare program compare "$tests/bison/compare.c" "$generator"
    step build-compare-reference program compare-reference "$tests/bison/compare.c" "$reference"
    step build-cases program cases "$tests/cases/cases.c" "$generator" "$parser"
    step build-stack program stack "$tests/cases/stack.c" "$generator"
    step build-cases-reference program cases-reference "$tests/cases/cases.c" "$reference"
    step build-merge program merge "$tests/generator/merge.c" "$merge"
    step build-merge-reference program merge-reference "$tests/generator/merge.c" "$reference"
    step build-merge-example program merge-example "$root/examples/merge.c" "$merge"
    [ -n "${STAND_IN:-}" ] || step build-merge-rust env SIDUMZA_LIB="$(dirname "$merge")" cargo build --offline --release \
        --no-default-features --features merge --example merge --manifest-path "$root/bindings/rust/Cargo.toml"
    [ -z "$failed" ] || return

    step self-check "$built/release/generator-tests" self-check
    step comparisons-fail comparisons_fail
    step random "$built/release/generator-tests" random
    step sums "$built/release/generator-tests" sums
    step lengths "$built/release/generator-tests" lengths
    step pages "$built/release/generator-tests" pages
    step merges "$built/release/generator-tests" merges
    step merge-reference "$built/merge-reference"
    step merge "$built/merge"
    step merge-example sh "$root/examples/merge_test.sh" "$built/merge-example"
    [ -n "${STAND_IN:-}" ] || step merge-rust sh "$root/examples/merge_test.sh" "$built/release/examples/merge"
    if command -v bison >/dev/null; then
        step bison python3 "$tests/bison/bison.py" check
    else
        echo "skipped bison: not installed, so its stored answers are taken as they are"
    fi
    step compare-reference "$built/compare-reference" "$tests"/bison/data/*.txt
    step compare "$built/compare" "$tests"/bison/data/*.txt
    step cases-reference "$built/cases-reference" "$tests/cases/cases.txt"
    step cases "$built/cases" "$tests/cases/cases.txt"
    [ -n "${STAND_IN:-}" ] || step stack "$built/stack" "$tests"/bison/data/*.txt
    printing maketable MAKETABLE "${MAKETABLE:-}"
    printing pagetable PAGETABLE "${PAGETABLE:-}"
}

all
if [ -n "$failed" ]; then
    echo "FAILED:$failed"
    exit 1
fi
echo "all passed"
