#!/usr/bin/env python3
"""Instructions of calls that end in a check of the card: of cards with P 128, up to
L 512, and of the published grammars with their last symbol made bad. checks.sh
builds what it needs and calls it.

    checks.py FOLDER ARCHIVE..

FOLDER holds calls-1 for the first ARCHIVE, calls-2 for the second, and so on. A
count behind the first is followed by its ratio to the first.
"""

import os
import sys
import tempfile

sys.dont_write_bytecode = True
import bench  # noqa: E402

T, N, P = 64, 60, 128
BAD = T + N
PUBLISHED = "published"


def card(name, answer, lengths, first_symbol=1, last_symbol=1, last_left=T, symbols=None):
    """L is what the lengths add up to, unless `symbols` says otherwise."""
    found = bench.Card("checks", name)
    size = symbols or sum(lengths)
    right_sides = [first_symbol] + [1] * (size - 2) + [last_symbol]
    found.numbers = [T, N, P, size] + [T] * (P - 1) + [last_left] + lengths + right_sides
    found.answer = [answer, 0, 0, 0, 0]
    return found


# Where the last symbol is bad, all lengths and symbols have to be looked at.
CARDS = [
    card("last-left-side-bad", 7, [4] * P, last_left=0),
    card("128-of-4,last-symbol-bad", 9, [4] * P, last_symbol=BAD),
    card("128-of-2,last-symbol-bad", 9, [2] * P, last_symbol=BAD),
    card("128-of-1,last-symbol-bad", 9, [1] * P, last_symbol=BAD),
    card("512-then-127-empty,last-bad", 9, [512] + [0] * (P - 1), last_symbol=BAD),
    card("127-empty-then-512,last-bad", 9, [0] * (P - 1) + [512], last_symbol=BAD),
    card("128-of-4,first-symbol-bad", 9, [4] * P, first_symbol=BAD),
    card("128-of-4,last-length-5", 8, [4] * (P - 1) + [5], symbols=512),
    card("128-of-4,both-faults", 8, [4] * (P - 1) + [5], last_symbol=BAD, symbols=512),
]


def published():
    """The cards of published grammars, each with its last symbol made bad."""
    found = [stored for stored in bench.stored() if stored.family == PUBLISHED and stored.numbers[3]]
    for stored in found:
        stored.numbers[-1] = stored.numbers[0] + stored.numbers[1]
        stored.answer = [9, 0, 0, 0, 0]
    return found


def counted(program, cards):
    """Instructions by card; the answers must be those expected."""
    with tempfile.TemporaryDirectory() as folder:
        bench.called(program, 1, cards, folder)
        return bench.counted_calls(program, cards, folder)


def main():
    if len(sys.argv) < 3:
        sys.exit(__doc__)
    folder, archives = sys.argv[1], sys.argv[2:]
    columns, in_use = [], published()
    whole = f"{PUBLISHED}({len(in_use)}),last-bad"
    for number, archive in enumerate(archives, 1):
        print(f"archive {number}: {archive}")
        column = counted(os.path.join(folder, f"calls-{number}"), CARDS + in_use)
        columns.append({**column, whole: sum(column[stored.name] for stored in in_use)})
    print(f"{'instructions of a call':28} answer"
          + "".join(f" {number:>8}" + (" ratio" if number > 1 else "") for number in range(1, len(columns) + 1)))
    for name, answer in [(row.name, row.answer[0]) for row in CARDS] + [(whole, 9)]:
        first, *others = (column[name] for column in columns)
        print(f"{name:28} {answer:6} {first:8}"
              + "".join(f" {other:8} {bench.ratio(other, first)}" for other in others))


if __name__ == "__main__":
    main()
