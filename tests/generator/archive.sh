#!/bin/sh
# Makes an archive through which the tests see a function that has no C function of its own:
#
#     archive.sh FOLDER CRATE ON.. <SOURCE
#
# A copy of the crates ON and of all that they are built on gets the tests' own CRATE on them, whose source comes from
# standard input. It is proved, too: it calls only as it may. What rt keeps of the copied crates is not proved again. The
# archive is FOLDER/libCRATE.a; the copy stands elsewhere, since `rt ci` refuses sources that are of no crate.
set -eu
cd "$(dirname "$0")/../.."
out=$1
own=$2
shift 2
copy=$(mktemp -d)
trap 'rm -rf "$copy"' EXIT
trap 'exit 1' INT TERM
mkdir -p "$copy/crates/$own/src" "$out"
rm -f "$out/lib$own.a"
cat >"$copy/crates/$own/src/lib.rt"
echo "$own staticlib: $*" >"$copy/crates.txt"

# Copies crates, each once, and what they are built on.
copy() {
    for crate in "$@"; do
        ! grep -q "^$crate:" "$copy/crates.txt" || continue
        grep "^$crate:" crates.txt >>"$copy/crates.txt" || { echo "no crate $crate"; exit 1; }
        mkdir -p "$copy/crates/$crate"
        for part in src specs proofs; do
            [ ! -d "crates/$crate/$part" ] || cp -r "crates/$crate/$part" "$copy/crates/$crate/"
        done
        copy $(sed -n "s/^$crate://p" crates.txt)
    done
}
copy "$@"
(cd "$copy/crates/$own" && rt lib)
cp "$copy/crates/$own/out/lib$own.a" "$out/"
