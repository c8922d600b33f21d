#!/usr/bin/env python3
"""What a change of each crate makes rt prove again, and how long that takes.

    sh tools/seconds.sh | python3 tools/layers.py

Reads what tools/seconds.sh says from standard input, and crates.txt; prints a row for each crate: the seconds of its own proof, how
many crates are proved again when it changes (itself and all above it), and the seconds of all of these one after the
other. Status 2 for trouble: a read or write that fails, or a crate whose seconds are not there."""

import pathlib
import re
import sys


def fail(why):
    print(f"layers: {why}", file=sys.stderr)
    sys.exit(2)


def above(crates, name):
    """The crate and all that stand on it."""
    found = {name}
    while True:
        more = {crate for crate, below in crates.items() if found & set(below)} - found
        if not more:
            return found
        found |= more


def rows(text, said):
    """The table for what crates.txt and tools/seconds.sh say."""
    crates = {}
    for line in text.splitlines():
        name, colon, below = line.partition("#")[0].partition(":")
        if colon:
            # behind the name may stand that it is a static library
            crates[name.split()[0]] = below.split()
    seconds = {name: int(took) for name, took in re.findall(r"^rt: (\w+) proved \((\d+) s\)$", said, re.M)}
    missing = [name for name in crates if name not in seconds]
    if missing or not crates:
        fail(f"no seconds of {', '.join(missing) or 'any crate'}: give it what tools/seconds.sh says")
    out = "| crate | its own seconds | proved again | seconds of all |\n|---|---|---|---|\n"
    for name in crates:
        again = above(crates, name)
        out += f"| {name} | {seconds[name]} | {len(again)} | {sum(seconds[crate] for crate in again)} |\n"
    return out


def main():
    if len(sys.argv) > 1:
        fail("it takes no argument; what tools/seconds.sh says comes on standard input")
    try:
        text = (pathlib.Path(__file__).resolve().parents[1] / "crates.txt").read_text()
        with open(0, "rb", closefd=False) as given:
            said = given.read().decode(errors="replace")
        with open(1, "wb", buffering=0, closefd=False) as out:
            out.write(rows(text, said).encode())
    except OSError as error:
        fail(error.strerror)


if __name__ == "__main__":
    main()
