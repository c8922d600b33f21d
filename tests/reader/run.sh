#!/bin/sh
# Builds and runs the tests and examples of the parser: run.sh [ARCHIVE]
# ARCHIVE is libparser_c.a, by default target/staticlib/libparser_c.a of the repository (tools/build.sh parser_c).
# STAND_IN=1 takes the reference of the generator's tests in its place, without the look at its symbols.
# SEED and CASES set the differential test's seed and number of cases. Exit status 0: all passed.
cd "$(dirname "$0")/../.." || exit 1
if [ -n "${STAND_IN:-}" ]; then
    CARGO_TARGET_DIR="$PWD/target/tests" cargo build --quiet --offline --release --manifest-path tests/reference/c/Cargo.toml || exit 1
    mkdir -p target/stand-in
    cp target/tests/release/libreference_c.a target/stand-in/libparser_c.a || exit 1
    set -- target/stand-in/libparser_c.a
fi
archive=$(readlink -f "${1:-target/staticlib/libparser_c.a}")
[ -f "$archive" ] || { echo "reader: no archive '$1': run sh tools/build.sh parser_c first"; exit 1; }
export SIDUMZA_LIB="${archive%/*}" CARGO_TARGET_DIR="$PWD/target/cargo"
out=target/reader
mkdir -p "$out"
failed=

# part NAME COMMAND...: runs a part and says what came of it
part() {
    name=$1
    shift
    start=$(date +%s)
    if "$@" >"$out/log" 2>&1; then
        echo "reader: $name: ok ($(($(date +%s) - start)) s)"
    else
        echo "reader: $name: FAILED (exit status $?)"
        failed="$failed, $name"
    fi
    sed 's/^/    /' "$out/log"
}

# The archive exports its functions and leans on nothing but the memory functions.
symbols() {
    nm -g --defined-only "$archive" | awk 'NF == 3 { print $3 }' | sort -u >"$out/defined"
    for f in sidumza_parse sidumza_parse_restricted sidumza_lowest sidumza_terminals; do
        grep -qx $f "$out/defined" || { echo "no $f"; return 1; }
    done
    nm -u "$archive" | awk 'NF == 2 { print $2 }' | sort -u | comm -23 - "$out/defined" >"$out/needed"
    ! grep -vxE 'memset|memcpy|memmove' "$out/needed"
}

# The headers by themselves, as C and, where there is a compiler for it, as C++.
header() {
    for h in sidumza sidumza_table; do
        gcc -std=c99 -Wall -Wextra -Wpedantic -Werror -fsyntax-only -x c bindings/c/$h.h || return 1
        ! command -v g++ >/dev/null ||
            g++ -Wall -Wextra -Wpedantic -Werror -fsyntax-only -x c++ bindings/c/$h.h || return 1
    done
}

build_c() {
    gcc -std=c11 -D_POSIX_C_SOURCE=200809L -O2 -Wall -Wextra -Wpedantic -Werror -Ibindings/c examples/page.c bindings/c/sidumza_table.c "$archive" -o "$out/page"
}

build_rust() {
    cargo build --quiet --offline --release --manifest-path bindings/rust/Cargo.toml --lib --example page &&
        cargo build --quiet --offline --release --manifest-path tests/reader/Cargo.toml
}

# Without its archive the Rust crate does not build, and says what makes it.
no_archive() {
    if SIDUMZA_LIB="$PWD/$out/nothing" CARGO_TARGET_DIR="$PWD/$out/cargo" cargo build --offline \
        --manifest-path bindings/rust/Cargo.toml --features generator --lib >"$out/refused" 2>&1; then
        echo "built without an archive"
        return 1
    fi
    grep "There is no $PWD/$out/nothing/libparser_c.a: make it with .sh tools/build.sh parser_c. in the repository" "$out/refused"
}

[ -n "${STAND_IN:-}" ] || part "symbols of the archive" symbols
part "header" header
part "build in C" build_c
part "build in Rust" build_rust
part "build in Rust without the archive" no_archive
if [ -z "$failed" ]; then
    part "page program in C" sh examples/test.sh "$out/page"
    part "page program in Rust" sh examples/test.sh target/cargo/release/examples/page
    part "tables read back" python3 tests/table/table.py
    part "self-check of the differential test" target/cargo/release/reader_test self-check
    part "differential test" target/cargo/release/reader_test
    part "lengths that are enough" target/cargo/release/reader_test enough
fi
[ -z "$failed" ] || { echo "reader: FAILED: ${failed#, }"; exit 1; }
echo "reader: all passed"
