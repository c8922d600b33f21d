#!/bin/sh
# Builds and runs the tests of the tool explain against the reference. SEED and CARDS set the seed and the number of
# cards; SIDUMZA_LIB is the folder of libgenerator_c.a, by default target/staticlib. Exit status 0: all passed.
set -eu
cd "$(dirname "$0")/../.."
export SIDUMZA_LIB="${SIDUMZA_LIB:-$PWD/target/staticlib}" CARGO_TARGET_DIR="$PWD/target/tests"
cargo build --quiet --offline --release --manifest-path tests/explain/Cargo.toml
target/tests/release/explain-tests tests/bison/data/*.txt
