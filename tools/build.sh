#!/bin/sh
# Proves crates of crates/ with the kit's `rt` and puts what it makes of them where the scripts, the tests and the
# documents take it from: a program as target/bin/NAME, a static library as target/staticlib/libNAME.a.
#
#     build.sh NAME..
#
# A crate without src/main.rt is a static library. What is proved already is not proved again.
set -eu
cd "$(dirname "$0")/.."

# A copy is whole or not there.
put() { # FILE FOLDER
    mkdir -p "$2"
    cp "$1" "$2/.${1##*/}"
    mv "$2/.${1##*/}" "$2/${1##*/}"
}

for crate in "$@"; do
    if [ -f "crates/$crate/src/main.rt" ]; then
        # rt builds a program in order to run it
        (cd "crates/$crate" && exec rt run </dev/null >/dev/null)
        put "crates/$crate/out/$crate" target/bin
    else
        (cd "crates/$crate" && exec rt lib)
        put "crates/$crate/out/lib$crate.a" target/staticlib
    fi
done
