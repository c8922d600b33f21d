#!/usr/bin/env python3
"""What Bison makes of the cards, in terms of the generator's answers.

    bison.py make     writes data/FAMILY.txt
    bison.py check    makes all of it again and compares with those files

A block of a data file:

    grammar NAME
    card NUMBERS
    table Q                 or: refused 11 | refused 12 | refused 13 STATE TERMINAL LOW HIGH
    row STATE : CELLS       column:value or first-last:value; other cells are 0
"""

import os
import subprocess
import sys
import tempfile
import xml.etree.ElementTree as ElementTree

sys.dont_write_bytecode = True
import cards  # noqa: E402

DATA = os.path.join(cards.HERE, "data")


def source(grammar):
    """The grammar as Bison reads it."""
    t = grammar.terminals
    word = lambda s: f"t{s}" if s < t else f"n{s}"
    lines = ["%define lr.type lalr",
             "%define lr.default-reduction accepting",
             "%define lr.keep-unreachable-state true"]
    lines += [f"%token t{m} {1000 + m}" for m in range(1, t)]
    lines += [f"%start n{t}", "%%"]
    for left, right in grammar.productions:
        lines.append(f"{word(left)}: {' '.join(map(word, right)) or '%empty'};")
    return "\n".join(lines + ["%%", ""])


def report(grammar, folder):
    """Bison's automaton: transitions by symbol, and the lookaheads of the
    complete productions, for each of Bison's states."""
    path, xml = os.path.join(folder, "g.y"), os.path.join(folder, "g.xml")
    with open(path, "w") as file:
        file.write(source(grammar))
    command = ["bison", "-Wnone", f"--xml={xml}", "-o", os.path.join(folder, "g.c"), path]
    subprocess.run(command, check=True, stdout=subprocess.DEVNULL, stderr=subprocess.DEVNULL)
    root = ElementTree.parse(xml).getroot()

    # Bison's rule 0 is its own; the others are our productions, in order.
    rules = root.findall("./grammar/rules/rule")
    assert len(rules) == 1 + len(grammar.productions)
    assert all(rule.get("usefulness") != "useless-in-grammar" for rule in rules)
    number = lambda word: 0 if word == "$end" else int(word[1:])
    for rule, (left, right) in zip(rules[1:], grammar.productions):
        assert number(rule.find("lhs").text) == left
        assert [number(s.text) for s in rule.findall("./rhs/symbol")] == right

    states = []
    for at, state in enumerate(root.findall("./automaton/state")):
        assert int(state.get("number")) == at
        go = {number(t.get("symbol")): int(t.get("state"))
              for t in state.findall("./actions/transitions/transition")}
        complete = {}
        for item in state.findall("./itemset/item"):
            rule = int(item.get("rule-number")) - 1
            if rule >= 0 and int(item.get("dot")) == len(grammar.productions[rule][1]):
                complete[rule] = {number(s.text) for s in item.findall("./lookaheads/symbol")}
                assert complete[rule]
        # The same, as Bison's table has it: enabled or lost to a conflict.
        listed = {(int(r.get("rule")) - 1, number(r.get("symbol")))
                  for r in state.findall("./actions/reductions/reduction")
                  if r.get("rule") != "accept"}
        assert listed == {(rule, m) for rule, terminals in complete.items() for m in terminals}
        states.append((go, complete))
    return states


def renumbered(states):
    """States in number order, symbols ascending; Bison's last state behind the
    end marker is left out, and its transition says accept."""
    order, number, rows = [0], {0: 0}, []
    for state in order:
        go, complete = states[state]
        row = {}
        for symbol in sorted(go):
            if symbol == 0:
                row[0] = 4096
                continue
            if go[symbol] not in number:
                number[go[symbol]] = len(order)
                order.append(go[symbol])
            row[symbol] = number[go[symbol]]
        rows.append((row, complete))
    assert len(order) == len(states) - 1
    return rows


def answer(grammar, states):
    """The lines behind `card`."""
    rows = renumbered(states)
    t = grammar.terminals
    if len(rows) > 256:
        return ["refused 11"]
    if sum(symbol >= t for row, _ in rows for symbol in row) > 2048:
        return ["refused 12"]
    cells = []
    for state, (row, complete) in enumerate(rows):
        line = dict(row)
        for m in range(t):
            met = [row[m]] if m in row else []
            met += [1024 + rule for rule, terminals in complete.items() if m in terminals]
            if len(met) > 1:
                low, high = sorted(met)[:2]
                return [f"refused 13 {state} {m} {low} {high}"]
            if met:
                line[m] = met[0]
        cells.append(line)
    return [f"table {len(rows)}"] + [f"row {state} : {runs(line)}"
                                     for state, line in enumerate(cells)]


def runs(line):
    """Cells of a row, equal neighbours together."""
    found = []
    for column in sorted(line):
        if found and found[-1][1] == column - 1 and found[-1][2] == line[column]:
            found[-1][1] = column
        else:
            found.append([column, column, line[column]])
    return " ".join(f"{a}:{v}" if a == b else f"{a}-{b}:{v}" for a, b, v in found)


def blocks(family):
    lines = []
    with tempfile.TemporaryDirectory() as folder:
        for name, numbers in family.items():
            grammar = cards.of_card(numbers)
            assert grammar.fits() and not grammar.useless(), name
            lines += [f"grammar {name}", "card " + " ".join(map(str, numbers))]
            lines += answer(grammar, report(grammar, folder))
    return "".join(line + "\n" for line in lines)


def main():
    mode = sys.argv[1] if len(sys.argv) == 2 else ""
    if mode not in ("make", "check"):
        sys.exit(__doc__)
    version = subprocess.run(["bison", "--version"], capture_output=True, text=True, check=True)
    print(version.stdout.splitlines()[0])
    total, bad = 0, []
    families = cards.all_cards()
    if mode == "check" and sorted(os.listdir(DATA)) != sorted(f + ".txt" for f in families):
        bad.append("files")
    for family, members in families.items():
        text, path = blocks(members), os.path.join(DATA, family + ".txt")
        total += len(members)
        if mode == "make":
            os.makedirs(DATA, exist_ok=True)
            with open(path, "w") as file:
                file.write(text)
        else:
            with open(path) as file:
                if file.read() != text:
                    bad.append(family)
        heads = [line.split()[:2] for line in text.splitlines()]
        count = lambda *words: sum(head[:len(words)] == list(words) for head in heads)
        print(f"{family}: {len(members)} grammars, {count('table')} tables, refused "
              + ", ".join(f"{n}: {count('refused', str(n))}" for n in (11, 12, 13)))
    print(f"{total} grammars")
    if bad:
        sys.exit("differs from the stored data: " + ", ".join(bad))


if __name__ == "__main__":
    main()
