#!/usr/bin/env python3
"""Runs the program `maketable` and compares what it prints.

    maketable.py PROGRAM [DATA..]

The cases below are of the form of input and output; from the data files of
tests/bison every table and refusal is compared as printed."""

import subprocess
import sys

A = "3 1 2 3 3 3 2 1 3 1 2"
TABLE_A = """table 4 3 1 2
left 3 3
length 2 1
entered 0 2 3 1
row 0 : 0 0 1 2
row 1 : 1025 1025 0 0
row 2 : 4096 3 0 0
row 3 : 1024 1024 0 0
"""
NOT = "not a card\n"


def refused(*numbers):
    return "refused " + " ".join(map(str, numbers)) + "\n"


CASES = [
    # the form of the input
    ("card A", A, TABLE_A),
    ("card A, line feed behind", A + "\n", TABLE_A),
    ("card A, a number a line", A.replace(" ", "\n"), TABLE_A),
    ("card A, blanks and line feeds", "\n\n  " + A.replace(" ", " \n \n  ") + "  \n\n", TABLE_A),
    ("card A, leading zeros", "0003 01 00000002 3 3 3 2 1 3 1 2", TABLE_A),
    ("card A, 3,000 leading zeros", "0" * 3000 + A, TABLE_A),
    ("card A, 70,000 blanks before", " " * 70000 + A, TABLE_A),
    ("card A, 70,000 line feeds between", A.replace(" ", "\n" * 70000, 1), TABLE_A),
    ("card A, 300,000 blanks behind", A + " " * 300000, TABLE_A),
    ("blanks at the edges of chunks", A.replace(" ", " " * 4096), TABLE_A),
    ("empty", "", refused(4)),
    ("one line feed", "\n", refused(4)),
    ("blanks only", " " * 5000 + "\n\n", refused(4)),
    ("one number", "7", refused(4)),
    ("zero", "0", refused(4)),
    ("three numbers", "3 1 2", refused(4)),
    ("largest number", "65535 65535 65535 65535", refused(5)),
    ("65,536", "65536", NOT),
    ("65,536 at the end", A + " 65536", NOT),
    ("65,536 + 3", A.replace("3", "65539", 1), NOT),
    ("2^32 + 3", A.replace("3", str(2**32 + 3), 1), NOT),
    ("2^64 + 3", A.replace("3", str(2**64 + 3), 1), NOT),
    ("100,000", "100000 1 2 3", NOT),
    ("a thousand nines", "9" * 1000, NOT),
    ("zeros before 65,535", "0" * 100 + "65535", refused(4)),
    ("zeros before 65,536", "0" * 100 + "65536", NOT),
    ("a letter", A + " x", NOT),
    ("a letter first", "x " + A, NOT),
    ("a letter in a number", A + "x", NOT),
    ("a letter only", "x", NOT),
    ("minus", "-" + A, NOT),
    ("plus", "+" + A, NOT),
    ("a comma", A.replace(" ", ", ", 1), NOT),
    ("a point", A.replace(" ", ". ", 1), NOT),
    ("a tab", A.replace(" ", "\t", 1), NOT),
    ("a carriage return", A + "\r\n", NOT),
    ("a zero byte", A + "\0", NOT),
    ("a zero byte only", "\0", NOT),
    ("a form feed", A + "\f", NOT),
    ("byte 128", A + "\x80", NOT),
    ("byte 255", A + "\xff", NOT),
    ("slash, the byte before the digits", A + "/", NOT),
    ("colon, the byte behind the digits", A + ":", NOT),
    ("bad form behind many blanks", A + " " * 70000 + "x", NOT),
    ("772 numbers", "1 " * 772, refused(6)),
    ("772 numbers, blanks behind", "1 " * 772 + "\n" * 9000, refused(6)),
    ("773 numbers", "1 " * 773, NOT),
    ("773 numbers, no blank behind", " ".join(["1"] * 773), NOT),
    ("773 numbers, bad form before", "x " + "1 " * 773, NOT),
    ("774 numbers, bad form behind", "1 " * 774 + "x", NOT),
    ("100,000 numbers", "1 " * 100000, NOT),
    ("772 zeros", "0 " * 772, refused(5)),
    # the form of refusals
    ("4", "1 1 1", refused(4)),
    ("5", "65 1 1 1 65 1 64", refused(5)),
    ("6", A + " 1", refused(6)),
    ("7", "3 1 2 3 3 2 2 1 3 1 2", refused(7)),
    ("8", "2 1 2 0 2 2 65535 1", refused(8)),
    ("9", "3 1 2 3 3 3 2 1 0 1 2", refused(9)),
    ("10", "2 1 1 1 2 1 2", refused(10, 2)),
    ("11", "2 1 1 255 2 255 " + "1 " * 255, refused(11)),
    ("13", "2 1 2 3 2 2 2 1 2 2 1", refused(13, 3, 1, 1, 1024)),
    ("13 with accept", "2 1 2 2 2 2 1 1 2 1", refused(13, 2, 0, 1024, 4096)),
    ("the smallest card", "1 1 1 0 1 0",
     "table 2 1 1 1\nleft 1\nlength 0\nentered 0 1\nrow 0 : 1024 1\nrow 1 : 4096 0\n"),
]


def blocks(paths):
    """Card and printed answer of each block of data files."""
    for path in paths:
        name, card, rows, answer = None, None, [], None
        with open(path) as file:
            lines = file.read().splitlines() + ["grammar end"]
        for line in lines:
            word, _, rest = line.partition(" ")
            if word == "grammar":
                if name is not None:
                    yield name, card, answer or table(card, rows)
                name, rows, answer = rest, [], None
            elif word == "card":
                card = rest
            elif word == "refused":
                answer = line + "\n"
            elif word == "row":
                rows.append(rest.partition(" :")[2].split())


def table(card, rows):
    """As printed. A state's entering symbol is the column of the transitions to it."""
    numbers = card.split()
    t, n, p = map(int, numbers[:3])
    lines, entered = [], {0: 0}
    text = f"table {len(rows)} {t} {n} {p}\n"
    text += "left " + " ".join(numbers[4:4 + p]) + "\n"
    text += "length " + " ".join(numbers[4 + p:4 + 2 * p]) + "\n"
    for row in rows:
        cells = ["0"] * (t + n)
        for cell in row:
            columns, value = cell.split(":")
            first, _, last = columns.partition("-")
            for column in range(int(first), int(last or first) + 1):
                cells[column] = value
                if int(value) < len(rows):
                    assert entered.setdefault(int(value), column) == column
        lines.append(" ".join(cells))
    text += "entered " + " ".join(str(entered[state]) for state in range(len(rows))) + "\n"
    return text + "".join(f"row {state} : {line}\n" for state, line in enumerate(lines))


def main():
    if len(sys.argv) < 2:
        sys.exit(__doc__)
    failures = total = 0
    for name, text, want in CASES + list(blocks(sys.argv[2:])):
        ran = subprocess.run([sys.argv[1]], input=text.encode("latin-1"), stdout=subprocess.PIPE)
        total += 1
        if ran.stdout != want.encode():
            failures += 1
            print(f"{name}: printed {ran.stdout[:80]!r}, expected {want[:80]!r}")
    print(f"{total} inputs, {failures} failures")
    sys.exit(failures != 0)


if __name__ == "__main__":
    main()
