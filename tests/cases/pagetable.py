#!/usr/bin/env python3
"""Runs the program `pagetable`, compares the pages that it prints, and reads every cell back from them.

    pagetable.py PROGRAM [DATA..]

The inputs are those of maketable.py, with the same data files, and cards whose rows and pages are at a limit. Then
wrong pages, made of right tables, must be found: by the comparison, and where a cell is not read back also by the
readers alone."""

import subprocess
import sys

from maketable import CASES, blocks, table


def chain(t, n, length):
    """A card whose start is the next nonterminal, and so on, the last one `length` times terminal T-1; its table."""
    left, right = list(range(t, t + n)), list(range(t + 1, t + n)) + [t - 1] * length
    card = " ".join(map(str, [t, n, n, len(right)] + left + [1] * (n - 1) + [length] + right))
    # the states behind the terminals, where the first has number 1, and behind the nonterminals
    behind = [0] + [1] * (length > 0) + [n + which for which in range(2, length + 1)]
    first = 1 + (length > 0)
    rows = [[] for _ in range(1 + n + length)]
    for which in range(n):
        rows[0].append(f"{t + which}:{first + which}")
        rows[first + which].append(f"0:{1023 + which if which else 4096}")
    for state, to in zip(behind, behind[1:]):
        rows[state].append(f"{t - 1}:{to}")
    rows[behind[-1]].append(f"0:{1023 + n}")
    return card, table(card, rows)


# T, N and length of such cards, with the width of their rows, their states and the lines of all rows
LIMITS = [
    ((1, 1, 0), 2, 2, 2),
    ((1, 2, 0), 3, 3, 3),
    ((2, 1, 1), 3, 3, 3),
    ((9, 1, 7), 10, 9, 9),
    ((10, 1, 3), 11, 5, 5),
    ((4, 7, 2), 11, 10, 10),
    ((11, 1, 3), 12, 5, 10),
    ((6, 6, 1), 12, 8, 16),
    ((21, 1, 2), 22, 4, 8),
    ((22, 1, 2), 23, 4, 12),
    ((13, 10, 4), 23, 15, 45),
    ((64, 60, 0), 124, 61, 732),
    # whole pages, and a line more or less
    ((2, 1, 57), 3, 59, 59),
    ((2, 1, 58), 3, 60, 60),
    ((2, 1, 59), 3, 61, 61),
    ((10, 1, 58), 11, 60, 60),
    ((10, 1, 59), 11, 61, 61),
    ((11, 1, 28), 12, 30, 60),
    ((11, 1, 29), 12, 31, 62),
    ((25, 1, 18), 26, 20, 60),
    ((40, 1, 13), 41, 15, 60),
    ((50, 1, 10), 51, 12, 60),
    ((64, 1, 8), 65, 10, 60),
    ((64, 1, 9), 65, 11, 66),
    ((3, 1, 117), 4, 119, 119),
    ((3, 1, 118), 4, 120, 120),
    ((3, 1, 119), 4, 121, 121),
    ((12, 10, 49), 22, 60, 120),
    ((64, 60, 4), 124, 65, 780),
    # rows that are broken by the end of a page
    ((50, 3, 30), 53, 34, 170),
    ((64, 13, 60), 77, 74, 518),
    # as many states and lines as there can be
    ((2, 1, 254), 3, 256, 256),
    ((64, 60, 195), 124, 256, 3072),
]


def limits():
    """These cards with their tables."""
    for sizes, width, states, lines in LIMITS:
        card, answer = chain(*sizes)
        rows = rows_of(answer)
        got = len(rows[0]), len(rows), len(list(lines_of(rows)))
        assert got == (width, states, lines), f"{sizes}: width, states and lines {got}"
        yield f"T, N and length {sizes}", card, answer


def rows_of(answer):
    """The cells of a printed table, None if it is a refusal."""
    lines = [line.partition(" : ")[2].split() for line in answer.splitlines() if line.startswith("row ")]
    return [[int(word) for word in words] for words in lines] if answer.startswith("table") else None


def lines_of(rows, per=11, first="{:>4}", further="    ", cell="{:>6}"):
    """The lines of all rows, without the blanks behind them."""
    for state, row in enumerate(rows):
        for at in range(0, len(row), per):
            opening = further if at else first
            yield opening.format(state) + "".join(cell.format(value) for value in row[at:at + per])


def paged(lines, columns=72, length=60, end="\n"):
    """Lines on pages."""
    lines = list(lines)
    lines += [""] * (-len(lines) % length)
    return "".join(line.ljust(columns) + end for line in lines)


def wanted(answer):
    """What the program must print where `maketable` prints this answer."""
    rows = rows_of(answer)
    return answer if rows is None else paged(lines_of(rows))


def number(text):
    """The number at the right edge of some columns, None if there is none."""
    digits = text.lstrip(" ")
    return int(digits) if digits.isdecimal() and digits.isascii() else None


def cell(line, which):
    return number(line[4 + 6 * which:10 + 6 * which])


def counted(pages, width):
    """Finds a cell with the pages and the width of the rows: by counting lines."""
    height = -(-width // 11)

    def find(state, symbol):
        at = 73 * (state * height + symbol // 11)
        line = pages[at:at + 73]
        return cell(line, symbol % 11) if line.find("\n") == 72 else None
    return find


def seen(pages):
    """Finds a cell by eye: down from the only line that opens with the state, past lines that open with none."""
    lines = pages.split("\n")
    opened = [number(line[:4]) for line in lines]
    where = {}
    for at, state in enumerate(opened):
        where.setdefault(state, []).append(at)

    def find(state, symbol):
        first = where.get(state, [])
        at = first[0] + symbol // 11 if len(first) == 1 else len(lines)
        good = at < len(lines) and all(line[:4] == "    " for line in lines[first[0] + 1:at + 1])
        return cell(lines[at], symbol % 11) if good else None
    return find


def unread(pages, rows):
    """The first cell that a reader does not find, None if all are found."""
    for name, find in [("counting lines", counted(pages, len(rows[0]))), ("looking", seen(pages))]:
        for state, row in enumerate(rows):
            for symbol, value in enumerate(row):
                found = find(state, symbol)
                if found != value:
                    return f"state {state}, symbol {symbol}: {value} is read as {found} by {name}"
    return None


def differs(printed, want):
    """Where a text is not the one that is wanted, None if it is."""
    if printed == want:
        return None
    at = next((at for at, (one, two) in enumerate(zip(printed, want)) if one != two), min(len(printed), len(want)))
    return f"{len(printed)} bytes of {len(want)}, at byte {at} {printed[at:at + 80]!r}, expected {want[at:at + 80]!r}"


def unbroken(rows):
    """Lines of rows of which none is broken by the end of a page that could hold it."""
    lines = []
    for state, row in enumerate(rows):
        own = [line if at else f"{state:>4}" + line[4:] for at, line in enumerate(lines_of([row]))]
        lines += [""] * (-len(lines) % 60 if len(lines) % 60 + len(own) > 60 else 0) + own
    return lines


def reopened(rows):
    """Lines of rows; a page that begins within one opens with its state."""
    height = -(-len(rows[0]) // 11)
    for at, line in enumerate(lines_of(rows)):
        yield line if at % 60 else f"{at // height:>4}" + line[4:]


def swapped(rows):
    """The rows with the second in place of the first."""
    return [rows[1], rows[0]] + rows[2:]


def between(mark):
    """The pages with something between them."""
    def wrong(rows):
        text = paged(lines_of(rows))
        return mark.join(text[at:at + 60 * 73] for at in range(0, len(text), 60 * 73))
    return wrong


def each(change):
    """The pages with a change of every line, before it is padded."""
    return lambda rows: paged(change(line) for line in lines_of(rows))


def values(change):
    """The pages of the table with a change of every cell."""
    return lambda rows: paged(lines_of([[change(value) for value in row] for row in rows]))


def parts(count):
    """The pages with so many lines for each row; the width is given."""
    def wrong(rows):
        height, lines = -(-len(rows[0]) // 11), list(lines_of(rows))
        own = [lines[at:at + height] for at in range(0, len(lines), height)]
        return paged(line for row in own for line in (row + [""])[:count(len(rows[0]))])
    return wrong


def one_cell_more(row):
    """A row with a cell more where its last line has room."""
    return row + [0] * (len(row) % 11 > 0)


def header(rows):
    """A line with sizes before the rows."""
    return paged([f"table {len(rows)} {len(rows[0])}"] + list(lines_of(rows)))


def blank_first(rows):
    """The blank lines in front of the rows."""
    lines = list(lines_of(rows))
    return paged([""] * (-len(lines) % 60) + lines)


def one_more(rows):
    """A page of blank lines behind a full one."""
    text = paged(lines_of(rows))
    return text + paged([""]) * (len(list(lines_of(rows))) % 60 == 0)


# Wrong pages of a table's rows: whether a cell is then not read back, their name, and how they are made.
WRONG_PAGES = [
    (True, "ten cells a line", lambda rows: paged(lines_of(rows, per=10))),
    (True, "twelve cells a line", lambda rows: paged(lines_of(rows, per=12))),
    (True, "cells at the left of their columns", lambda rows: paged(lines_of(rows, cell="{:<6}"))),
    (True, "cells of five columns", lambda rows: paged(lines_of(rows, cell="{:>5}"))),
    (True, "cells of seven columns", lambda rows: paged(lines_of(rows, cell="{:>7}"))),
    (True, "a blank behind each cell", lambda rows: paged(lines_of(rows, cell="{:>5} "))),
    (False, "cells with zeros before them", lambda rows: paged(lines_of(rows, cell="{:06}"))),
    (True, "states at the left of their columns", lambda rows: paged(lines_of(rows, first="{:<4}"))),
    (False, "states with zeros before them", lambda rows: paged(lines_of(rows, first="{:04}"))),
    (True, "states in five columns", lambda rows: paged(lines_of(rows, first="{:>5}", further="     "))),
    (True, "states in three columns", lambda rows: paged(lines_of(rows, first="{:>3}", further="   "))),
    (True, "the state on every line of its row", lambda rows: paged(lines_of(rows, further="{:>4}"))),
    (True, "further lines not indented", lambda rows: paged(lines_of(rows, further=""))),
    (True, "no states", lambda rows: paged(lines_of(rows, first="    "))),
    (True, "states from 1", lambda rows: paged(list(lines_of(rows[:1] + rows))[-(-len(rows[0]) // 11):])),
    (True, "the last two digits of the states", each(lambda line: "  " + line[2:])),
    (True, "two blanks before the cells", each(lambda line: line[:4] + "  " + line[4:])),
    (True, "blanks before the state", each(lambda line: line.rjust(72))),
    (True, "a tab before the cells", each(lambda line: line[:4] + "\t" + line[4:])),
    (True, "the lower 8 bits of the cells", values(lambda value: value % 256)),
    (True, "the lower 10 bits of the cells", values(lambda value: value % 1024)),
    (True, "the lower 12 bits of the cells", values(lambda value: value % 4096)),
    (True, "no cell where it is 0", values(lambda value: value or "")),
    (True, "cells one more", values(lambda value: value + 1)),
    (True, "two rows exchanged", lambda rows: paged(lines_of(swapped(rows)))),
    (True, "each row from its end", lambda rows: paged(lines_of([row[::-1] for row in rows]))),
    (True, "the last state left out", lambda rows: paged(lines_of(rows[:-1]))),
    (True, "the last cell of each row left out", lambda rows: paged(lines_of([row[:-1] for row in rows]))),
    (False, "a cell too many on the last line", lambda rows: paged(lines_of(map(one_cell_more, rows)))),
    (True, "the first line of each row only", parts(lambda width: 1)),
    (True, "full lines of rows only", parts(lambda width: width // 11)),
    (True, "a blank line behind rows of full lines", parts(lambda width: width // 11 + 1)),
    (True, "a row not broken by the end of a page", lambda rows: paged(unbroken(rows))),
    (True, "the state again at the head of a page", lambda rows: paged(reopened(rows))),
    (True, "71 columns", lambda rows: paged(lines_of(rows), columns=71)),
    (True, "73 columns", lambda rows: paged(lines_of(rows), columns=73)),
    (True, "80 columns", lambda rows: paged(lines_of(rows), columns=80)),
    (True, "lines not padded", lambda rows: paged(lines_of(rows), columns=0)),
    (False, "blank lines not padded", lambda rows: paged(lines_of(rows)).replace(" " * 72, "")),
    (True, "a carriage return before the line feed", lambda rows: paged(lines_of(rows), end="\r\n")),
    (False, "a carriage return in column 72", lambda rows: paged(lines_of(rows), columns=71, end="\r\n")),
    (True, "no line feeds", lambda rows: paged(lines_of(rows), end=" ")),
    (True, "two line feeds", lambda rows: paged(lines_of(rows), end="\n\n")),
    (True, "no line feed at the end", lambda rows: paged(lines_of(rows))[:-1]),
    (True, "a form feed between pages", between("\f")),
    (True, "a blank line between pages", between(" " * 72 + "\n")),
    (True, "a line feed between pages", between("\n")),
    (False, "a form feed behind the last page", lambda rows: paged(lines_of(rows)) + "\f"),
    (False, "the last page not filled", lambda rows: paged(lines_of(rows), length=1)),
    (False, "pages of 59 lines", lambda rows: paged(lines_of(rows), length=59)),
    (False, "pages of 61 lines", lambda rows: paged(lines_of(rows), length=61)),
    (False, "pages of 66 lines", lambda rows: paged(lines_of(rows), length=66)),
    (False, "pages of 120 lines", lambda rows: paged(lines_of(rows), length=120)),
    (False, "a page behind a full one", one_more),
    (False, "a page behind the last", lambda rows: paged(lines_of(rows)) + paged([""])),
    (True, "the blank lines first", blank_first),
    (True, "a line with sizes first", header),
    (True, "the first page only", lambda rows: paged(lines_of(rows))[:60 * 73]),
    (True, "the pages twice", lambda rows: 2 * paged(lines_of(rows))),
    (True, "nothing", lambda rows: ""),
]

# Wrong lines for refusals and `not a card`.
WRONG_LINES = [
    ("a refusal of 72 columns", lambda line: line.rstrip("\n").ljust(72) + "\n"),
    ("a refusal at the right edge", lambda line: line.rstrip("\n").rjust(72) + "\n"),
    ("a refusal on a page", lambda line: paged([line.rstrip("\n")])),
    ("a page behind a refusal", lambda line: line + paged([""])),
    ("a refusal without a line feed", lambda line: line.rstrip("\n")),
    ("a carriage return behind a refusal", lambda line: line.replace("\n", "\r\n")),
    ("a refusal without its values", lambda line: " ".join(line.split()[:2]) + "\n"),
    ("nothing in place of a refusal", lambda line: ""),
    ("a blank page in place of a refusal", lambda line: paged([""])),
    ("`refused` in place of `not a card`", lambda line: line.replace("not a card", "refused 4")),
]


def missed(inputs):
    """The planted faults that are not found with these inputs, and those that readers find or miss unexpectedly."""
    answers = [answer for _, _, answer in inputs]
    tables = [rows for rows in map(rows_of, answers) if rows]
    for unreadable, name, wrong in WRONG_PAGES:
        made = [(wrong(rows), rows) for rows in tables]
        if not any(differs(pages, paged(lines_of(rows))) for pages, rows in made):
            yield name
        if any(unread(pages, rows) for pages, rows in made) != unreadable:
            yield f"{name}: cells " + ("are read back" if unreadable else "are not read back")
    for name, wrong in WRONG_LINES:
        if not any(differs(wrong(answer), answer) for answer in answers if rows_of(answer) is None):
            yield name


def main():
    if len(sys.argv) < 2:
        sys.exit(__doc__)
    own = CASES + list(limits())
    failures = pages = cells = 0
    inputs = own + list(blocks(sys.argv[2:]))
    for name, text, answer in inputs:
        ran = subprocess.run([sys.argv[1]], input=text.encode("latin-1"), stdout=subprocess.PIPE)
        printed, rows = ran.stdout.decode("latin-1"), rows_of(answer)
        found = [differs(printed, wanted(answer)), rows and unread(printed, rows)]
        for what in filter(None, found):
            print(f"{name}: {what}")
        failures += any(found)
        pages += len(printed) // (60 * 73) if rows else 0
        cells += len(rows) * len(rows[0]) if rows else 0
    if failures:
        sys.exit(f"{len(inputs)} inputs, {failures} failures; planted faults not looked for")
    not_found = list(missed(own))
    for name in not_found:
        print(f"NOT FOUND: {name}")
    print(f"{len(inputs)} inputs, {pages} pages, {cells} cells read back twice, 0 failures; "
          f"{len(WRONG_PAGES) + len(WRONG_LINES)} planted faults, {len(not_found)} not found")
    sys.exit(bool(not_found))


if __name__ == "__main__":
    main()
