#!/usr/bin/env python3
"""Instructions of whole calls for all stored cards, by family, and for chains of 60
nonterminals, whose shortest lengths take most rounds in one order of the productions.
tables.sh builds what it needs and calls it.

    tables.py FOLDER ARCHIVE..

FOLDER holds calls-1 for the first ARCHIVE, calls-2 for the second, and so on. For each
behind the first come its ratio to the first, and the least and the highest of one card.
"""

import os
import sys
import tempfile

sys.dont_write_bytecode = True
import bench  # noqa: E402

T, N = 3, 60


def card(name, rules):
    found = bench.Card("chains", name)
    rights = [symbol for _, right in rules for symbol in right]
    lefts, lengths = [left for left, _ in rules], [len(right) for _, right in rules]
    found.numbers = [T, max(lefts) - T + 1, len(rules), len(rights)] + lefts + lengths + rights
    return found


def chain(name, more, own, order):
    """Each nonterminal is the next and `more` terminals, or `own` terminals, if any; the last is one terminal."""
    rules = [(T + j, [T + j + 1] + [1] * more) for j in range(N - 1)] + [(T + N - 1, [2])]
    return card(name, order(rules + [(T + j, [2] * own) for j in range(N) if own]))


def fan(n):
    """The start is any of the others, so that all are reached at once; of these each is the next, which stands before it."""
    rules = [(T, [T + j]) for j in range(1, n)] + [(T + n - 1, [2])]
    return card(f"fan-{n}", rules + [(T + j, [T + j + 1]) for j in range(n - 2, 0, -1)])


# The next nonterminal's production stands behind; or before, where a round from the last
# production on finds one length; or either.
ORDERS = {"behind": list, "before": lambda rules: rules[N - 1::-1] + rules[N:],
          "either": lambda rules: rules[::2] + rules[::-2]}
CHAINS = [chain(f"next-{name}-{more}-{own}", more, own, order)
          for name, order in ORDERS.items() for more, own in [(0, 0), (3, 0), (0, 7)]]
CHAINS += [fan(30), fan(N)]


def counted(program, cards):
    """Instructions by card."""
    with tempfile.TemporaryDirectory() as folder:
        return bench.counted_calls(program, cards, folder)


def row(name, cards, columns):
    """The sum of the first column, and the ratios of the others to it."""
    sums = [sum(column[card.name] for card in cards) for column in columns]
    text = f"{name:16} {len(cards):5} {sums[0]:13}"
    for column, whole in zip(columns[1:], sums[1:]):
        ratios = sorted((column[card.name] / columns[0][card.name], card.name) for card in cards)
        (least, _), (most, where) = ratios[0], ratios[-1]
        text += f" {whole / sums[0]:7.4f} {least:7.4f} {most:7.4f} ({where})"
    return text


def main():
    if len(sys.argv) < 3:
        sys.exit(__doc__)
    folder, archives = sys.argv[1], sys.argv[2:]
    stored, columns = bench.stored(), []
    for number, archive in enumerate(archives, 1):
        print(f"archive {number}: {archive}")
        columns.append(counted(os.path.join(folder, f"calls-{number}"), stored + CHAINS))
    print(f"{'family':16} {'cards':>5} {'instructions':>13}" + len(archives[1:]) * "   ratio   least    most")
    for family in sorted({card.family for card in stored}):
        print(row(family, [card for card in stored if card.family == family], columns))
    print(row("all stored", stored, columns))
    for card in CHAINS:
        print(row(card.name, [card], columns))


if __name__ == "__main__":
    main()
