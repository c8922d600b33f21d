#!/usr/bin/env python3
"""The generator beside Byacc and Bison, on cards of 150 to 256 states, and its
slowest cards. run.sh builds what it needs and calls it.

    bench.py FOLDER [NAME..]

FOLDER holds `calls` and, where they could be built, `byacc-symbols` and
`bison-symbols`. ROUNDS is the number of calls (100) of which the least time is
taken; a tenth as many runs of the other programs.
"""

import os
import re
import statistics
import subprocess
import sys
import tempfile

sys.dont_write_bytecode = True
HERE = os.path.dirname(os.path.abspath(__file__))
TESTS = os.path.join(HERE, "..", "..", "tests", "bison")
sys.path.insert(0, TESTS)
import bison  # noqa: E402
import cards  # noqa: E402

# Grammars in use, then constructed ones.
FAMILIES = ["published", "settled", "languages", "large", "shapes", "slow"]
SHAPES = ["shapes", "slow"]
GOAL = 0.5
# What makes the tables once the grammar is read; Bison's functions also pack
# them, Byacc packs while it writes.
BYACC_TABLES = ["lr0", "lalr", "make_parser"]
BISON_TABLES = ["reduce_grammar", "derives_compute", "nullable_compute", "generate_states", "ielr",
                "conflicts_solve", "tables_generate"]
PROGRAMS = ["calls", "byacc-symbols", "bison-symbols"]
QUIET = {"stdout": subprocess.DEVNULL, "stderr": subprocess.DEVNULL}


class Card:
    def __init__(self, family, name):
        self.family, self.name = family, name
        self.numbers, self.answer, self.states = [], [], 0

    def sizes(self):
        return "/".join(map(str, self.numbers[:4]))


def stored():
    """The cards of the data files with Bison's answers."""
    found = []
    for file_name in sorted(os.listdir(os.path.join(TESTS, "data"))):
        with open(os.path.join(TESTS, "data", file_name)) as file:
            for line in file:
                word, _, rest = line.partition(" ")
                if word == "grammar":
                    found.append(Card(file_name[:-4], rest.strip()))
                elif word == "card":
                    found[-1].numbers = [int(number) for number in rest.split()]
                elif word == "table":
                    found[-1].answer, found[-1].states = [0, 0, 0, 0, 0], int(rest)
                elif word == "refused":
                    answer = [int(number) for number in rest.split()]
                    found[-1].answer = answer + [0] * (5 - len(answer))
    return found


def chosen(all_cards, names, folder):
    """The cards named, and those of families with 150 to 256 states."""
    found = []
    families = [name for name in FAMILIES if name in names or not names]
    for family in FAMILIES + sorted({card.family for card in all_cards} - set(FAMILIES)):
        for card in all_cards:
            named = card.name in names
            if card.family != family or not (named or family in families):
                continue
            if card.answer[0] == 13:
                card.states = len(bison.report(cards.of_card(card.numbers), folder)) - 1
            if card.answer[0] in (0, 13) and (named or 150 <= card.states <= 256):
                found.append(card)
    return found


def write_cards(some, path):
    with open(path, "w") as file:
        for card in some:
            file.write(f"grammar {card.name}\ncard {' '.join(map(str, card.numbers))}\n")


def write_grammar(card, path):
    """The card as Byacc and Bison read it."""
    grammar = cards.of_card(card.numbers)
    t = grammar.terminals
    word = lambda s: f"t{s}" if s < t else f"n{s}"
    lines = [f"%token {word(m)}" for m in range(1, t)] + [f"%start {word(t)}", "%%"]
    lines += [f"{word(left)}: {' '.join(map(word, right))};" for left, right in grammar.productions]
    with open(path, "w") as file:
        file.write("\n".join(lines) + "\n")


def called(program, rounds, some, folder):
    """Calls the generator: nanoseconds by card. The answers must be those of the cards."""
    path = os.path.join(folder, "cards")
    write_cards(some, path)
    done = subprocess.run([program, str(rounds), path], capture_output=True, text=True, check=True)
    found = {}
    for card, line in zip(some, done.stdout.splitlines(), strict=True):
        name, *numbers = line.split()
        *answer, states, ns = map(int, numbers)
        if name != card.name or answer != card.answer or (answer[0] == 0 and states != card.states):
            sys.exit(f"{card.name}: answer {answer}, expected {card.answer}")
        found[name] = ns
    return found


def counted_calls(program, some, folder):
    """Instructions inside the call of the generator, by card."""
    path, dumps = os.path.join(folder, "cards"), os.path.join(folder, "dumps")
    write_cards(some, path)
    command = ["valgrind", "--tool=callgrind", "--toggle-collect=sidumza_generate",
               f"--callgrind-out-file={dumps}", program, "1", path]
    subprocess.run(command, check=True, **QUIET)
    found = {}
    for file_name in os.listdir(folder):
        if file_name.startswith("dumps."):
            with open(os.path.join(folder, file_name)) as file:
                text = file.read()
            name = re.search(r"^desc: Trigger: Client Request: (\S+)$", text, re.M)
            if name:
                found[name[1]] = int(re.search(r"^totals: (\d+)$", text, re.M)[1])
    assert set(found) == {card.name for card in some}
    return found


def counted(command, functions=()):
    """Instructions of a process, or inside some of its functions; None where it fails."""
    toggles = [f"--toggle-collect={function}" for function in functions]
    done = subprocess.run(["valgrind", "--tool=callgrind", "--callgrind-out-file=/dev/null"]
                          + toggles + command, capture_output=True, text=True,
                          env={**os.environ, "LC_ALL": "C"})
    if done.returncode != 0:
        return None
    return int(re.search(r"Collected : (\d+)", done.stderr)[1])


def timed(command, rounds):
    """Least CPU time of a process, in nanoseconds; None where it fails."""
    best = float("inf")
    for _ in range(rounds):
        process = subprocess.Popen(command, **QUIET)
        _, status, used = os.wait4(process.pid, 0)
        process.returncode = status
        if status != 0:
            return None
        best = min(best, used.ru_utime + used.ru_stime)
    return best * 1e9


def compare(folder, some, rounds, work):
    """Counts and times of the three, card by card."""
    calls, byacc, bison_ = (os.path.join(folder, name) for name in PROGRAMS)
    instructions, times = counted_calls(calls, some, work), called(calls, rounds, some, work)
    for card in some:
        path = os.path.join(work, "g.y")
        write_grammar(card, path)
        to_null, no_output = ["-o", "/dev/null", path], ["-Wnone", "-fsyntax-only", path]
        yield {
            "card": card,
            "generator": instructions[card.name],
            "byacc tables": counted([byacc] + to_null, BYACC_TABLES) if os.path.exists(byacc) else None,
            "byacc": counted(["byacc"] + to_null),
            "bison tables": (counted([bison_] + no_output, BISON_TABLES) if os.path.exists(bison_)
                             else counted(["bison"] + no_output)),
            "bison": counted(["bison", "-Wnone"] + to_null),
            "generator ns": times[card.name],
            "byacc ns": timed(["byacc"] + to_null, max(1, rounds // 10)),
            "bison ns": timed(["bison", "-Wnone"] + to_null, max(1, rounds // 10)),
        }


def ratio(a, b):
    return f"{a / b:5.2f}" if b else "    -"


def thousands(n):
    return f"{n / 1e3:8.0f}" if n else "       -"


def shown(card):
    return "table" if card.answer[0] == 0 else "refused " + str(card.answer[0])


def print_instructions(rows, folder):
    """Prints the rows as they come, and gives them."""
    byacc, bison_ = (os.path.exists(os.path.join(folder, name)) for name in PROGRAMS[1:])
    print("\nthousands of instructions, and the generator's as a part of them")
    print("Byacc's tables:", f"inside {', '.join(BYACC_TABLES)}" if byacc else "not counted, no symbols")
    print("Bison's tables:", f"inside {', '.join(BISON_TABLES)}" if bison_
          else "no symbols, so the process that reads the grammar and makes the tables (-fsyntax-only)")
    print("whole: the process with output to /dev/null, Bison's without its m4; - where a process fails")
    print(f"{'':32} {'':14} {'':6} {'':10} {'':9} |{'Byacc':^31}|{'Bison':^31}")
    print(f"{'card':32} {'T/N/P/L':14} {'states':6} {'answer':10} {'generator':>9}"
          + f" |{'tables':>9} {'':5} {'whole':>8} {'':6}" * 2, flush=True)
    found = []
    for row in rows:
        card, ours = row["card"], row["generator"]
        others = ["".join(f" {thousands(row[key])} {ratio(ours, row[key])}" for key in keys) + " "
                  for keys in (("byacc tables", "byacc"), ("bison tables", "bison"))]
        print(f"{card.name:32} {card.sizes():14} {card.states:6} {shown(card):10} {thousands(ours):>9} |"
              + "|".join(others), flush=True)
        found.append(row)
    return found


def print_times(rows):
    print("\nleast microseconds: a call of the generator, CPU time of the other processes (- where one fails)")
    print(f"{'card':32} {'generator':>9} {'Byacc':>9} {'ratio':>5} {'Bison':>9} {'ratio':>5}")
    for row in rows:
        ours = row["generator ns"]
        print(f"{row['card'].name:32} {ours / 1e3:9.1f}"
              + "".join(f" {thousands(row[key]):>9} {ratio(ours, row[key])}" for key in ("byacc ns", "bison ns")))


def print_summary(rows):
    groups = {"in use": [row for row in rows if row["card"].family not in SHAPES + ["large"]],
              "constructed": [row for row in rows if row["card"].family in SHAPES + ["large"]]}
    print(f"\ninstructions of the generator as a part of the others', goal {GOAL} of Byacc's: least, median,"
          " most, of the sums; cards within the goal")
    for group, members in groups.items():
        for key in ("byacc tables", "byacc", "bison tables", "bison"):
            there = [row for row in members if row[key]]
            if not there:
                continue
            ratios = [row["generator"] / row[key] for row in there]
            total = sum(row["generator"] for row in there) / sum(row[key] for row in there)
            name = key if " " in key else key + " whole"
            print(f"{group:12} {name:13} {min(ratios):6.2f} {statistics.median(ratios):6.2f} {max(ratios):6.2f}"
                  f" {total:6.2f}   {sum(r <= GOAL for r in ratios)} of {len(ratios)}")


def print_slowest(all_cards, times):
    for what, some in (("shapes and slow", [c for c in all_cards if c.family in SHAPES]),
                       ("the other files", [c for c in all_cards if c.family not in SHAPES])):
        print(f"\nslowest of tests/bison/data, {what}: milliseconds of a call")
        for card in sorted(some, key=lambda card: -times[card.name])[:15]:
            print(f"{card.name:32} {card.sizes():14} {shown(card):10} {times[card.name] / 1e6:9.3f}")


def main():
    if len(sys.argv) < 2:
        sys.exit(__doc__)
    folder, names = sys.argv[1], sys.argv[2:]
    rounds = int(os.environ.get("ROUNDS", "100"))
    all_cards = stored()
    with tempfile.TemporaryDirectory() as work:
        some = chosen(all_cards, names, work)
        if not some:
            sys.exit("no such cards")
        rows = print_instructions(compare(folder, some, rounds, work), folder)
        print_times(rows)
        print_summary(rows)
        if not names:
            print_slowest(all_cards, called(os.path.join(folder, "calls"), 10, all_cards, work))


if __name__ == "__main__":
    main()
