#!/usr/bin/env python3
"""Reading printed tables back, in C and in Rust, against a reading of its own: the answer's numbers, or line, column and
words of the first fault, on good texts and on texts with changes. Then faults are planted in both sources, and each
must be found. SEED sets the seed."""

import os
import pathlib
import random
import re
import subprocess
import sys

ROOT = pathlib.Path(__file__).resolve().parents[2]
HERE = ROOT / "tests/table"
OUT = ROOT / "target/table"
C = ROOT / "bindings/c/sidumza_table.c"
RUST = ROOT / "bindings/rust/src/table.rs"


def expected(text):
    """The line that both programs must print for a text."""
    words = [(match.start(), match.group()) for match in re.finditer(rb"[^ \t\r\n]+", text)] + [(len(text), b"")]
    at = 0

    def fault(what):
        start, found = words[at]
        line = text.count(b"\n", 0, start) + 1
        column = start - (text.rfind(b"\n", 0, start) + 1) + 1
        shown = "".join(chr(b) if 33 <= b <= 126 else "?" for b in found[:16])
        return f"line {line}, column {column}: expected {what}, found " + (f"`{shown}`" if found else "the end")

    table = []
    sizes = {"the number of states": 256, "the number of terminals": 64, "the number of nonterminals": 60,
             "the number of productions": 128}
    plan = ["`table`"] + [(name, 1, most) for name, most in sizes.items()]
    step = 0
    while step < len(plan):
        want = plan[step]
        found = words[at][1]
        if isinstance(want, str):
            if found.decode("latin-1") != want.strip("`"):
                return fault(want)
        else:
            name, low, high = want
            good = re.fullmatch(rb"[0-9]+", found) and low <= int(found) <= high
            if not good:
                return fault(f"{name} {low}" if low == high else f"{name}, {low} to {high}")
            if name != "state":
                table.append(int(found))
        at += 1
        step += 1
        if step == 5:
            q, t, n, p = table
            plan += ["`left`"] + [("a left side", 0, 65535)] * p + ["`length`"] + [("a length", 0, 65535)] * p
            plan += ["`entered`"] + [("an entering symbol", 0, 65535)] * q
            for state in range(q):
                plan += ["`row`", ("state", state, state), "`:`"] + [("a cell", 0, 65535)] * (t + n)
    return fault("the end") if words[at][1] else numbers(table)


def numbers(table):
    """The line for a table: its numbers, the entering symbols of its states and of one more, and the least length that
    has that of the last state; the whole where it is 0."""
    states, end = table[0], 4 + 2 * table[3] + table[0]
    entered = table[end - states:end] + [0]
    return f"{' '.join(map(str, table))}, entered {' '.join(map(str, entered))} by {end if entered[-2] else len(table)}"


def texts(chance):
    """Printed tables of the examples and of stored cards, and texts with one to three changes."""
    sys.path.insert(0, str(ROOT / "tests/cases"))
    import maketable
    good = [(ROOT / "examples/a.table").read_bytes(), (ROOT / "examples/empty.table").read_bytes()]
    stored = [answer for _, _, answer in maketable.blocks([str(ROOT / "tests/bison/data/small.txt")]) if answer[0] == "t"]
    good += [text.encode() for text in stored if len(text) < 4000]
    large = [answer for _, _, answer in maketable.blocks([str(ROOT / "tests/bison/data/large.txt")]) if answer[0] == "t"]
    yield from good
    yield max(large, key=len).encode()
    # the largest sizes, and each behind its limit
    for sizes in [(256, 64, 60, 128), (257, 1, 1, 1), (1, 65, 1, 1), (1, 1, 61, 1), (1, 1, 1, 129), (1, 1, 1, 1)]:
        q, t, n, p = sizes
        rows = "".join(f"row {s} :" + " 0" * (t + n) + "\n" for s in range(q))
        entered = "\nentered" + " 0" * (q - 1) + " 123\n"
        yield (f"table {q} {t} {n} {p}\nleft" + " 1" * p + "\nlength" + " 1" * p + entered + rows).encode()
    # tables without entering symbols, and with the line at another place
    for text in good[:12]:
        lines = text.splitlines(keepends=True)
        yield b"".join(lines[:3] + lines[4:])
        yield b"".join(lines[:2] + [lines[3], lines[2]] + lines[4:])
        yield b"".join(lines[:3] + lines[4:] + [lines[3]])
    pieces = [b"", b" ", b"\n", b"\t", b"\r\n", b"0", b"00", b"7", b"65535", b"65536", b"4294967297", b"18446744073709551617",
              b"-1", b"+1", b"x", b"\0", b"\xff", b"\x7f", b"row", b"row 0 :", b"table", b"left", b":", b"a word that is long",
              b"averylongwordthatiscut", b"\f", b"1.0", b"0x1", b"1e1", b"length", b"entered"]
    for _ in range(4000):
        text = bytearray(chance.choice(good))
        for _ in range(chance.randint(1, 3)):
            kind = chance.random()
            if kind < 0.2:
                del text[chance.randrange(len(text) + 1):]
            elif kind < 0.5:
                at = chance.randrange(len(text) + 1)
                text[at:at + chance.choice([0, 0, 1, 2, 5])] = chance.choice(pieces)
            else:
                words = [match.span() for match in re.finditer(rb"\S+", bytes(text))] or [(0, 0)]
                start, end = chance.choice(words)
                text[start:end] = chance.choice(pieces)
        yield bytes(text)


def build(c=C, rust=RUST, name="read"):
    """Both programs."""
    paths = [OUT / f"{name}-c", OUT / f"{name}-rust"]
    flags = ["-std=c99", "-O1", "-g", "-Wall", "-Wextra", "-Wpedantic", "-Werror"]
    if c:
        subprocess.run(["gcc", *flags, "-fsanitize=address,undefined", "-fno-sanitize-recover=all", f"-I{C.parent}",
                        HERE / "read.c", c, "-o", paths[0]], check=True)
    if rust:
        source = (HERE / "read.rs").read_text().replace("../../bindings/rust/src/table.rs", str(rust))
        (OUT / f"{name}.rs").write_text(source)
        subprocess.run(["rustc", "--edition", "2021", "-A", "warnings", "-O", "-C", "overflow-checks=on", "-o", paths[1], OUT / f"{name}.rs"],
                       check=True)
    return [path for path, source in zip(paths, [c, rust]) if source]


def differs(program, given, wanted):
    """The first text for which a program prints something else."""
    ran = subprocess.run([program], input=b"".join(b"%d\n%b" % (len(text), text) for text in given), capture_output=True)
    lines = ran.stdout.decode("latin-1").split("\n")
    for text, line, want in zip(given, lines, wanted):
        if line != want:
            return f"{text[-60:]!r}: {line[:120]!r}, expected {want[:120]!r}"
    if ran.returncode != 0 or len(lines) != len(wanted) + 1:
        return f"status {ran.returncode}, {len(lines) - 1} lines of {len(wanted)}: {ran.stderr[-300:].decode()}"
    return None


FAULTS = [
    (C, "p->column = 1;", "p->column = 0;"),
    (C, "p->line++;", "p->line += p->line < 4;"),
    (C, "|| c == '\\r'", ""),
    (C, "x <= 65535; i++", "1; i++"),
    (C, "x >= low && x <= high", "x <= high"),
    (C, '"the number of states", 1, 256', '"the number of states", 1, 257'),
    (C, "i == p->len && ", ""),
    (C, "p->len < 16 ? p->len : 16", "p->len < 15 ? p->len : 15"),
    (C, "p->word[i] > ' ' && ", ""),
    (C, '"state", q, q', '"state", 0, 255'),
    (C, "if (p.len > 0)", "if (0)"),
    (C, "p->at < p->end && blank(*p->at)", "blank(*p->at)"),
    (C, "p->len == strlen(w) && ", ""),
    (C, '!word(&p, "entered")', "0"),
    (C, '"an entering symbol", size[0], &to', '"an entering symbol", size[0] - 1, &to'),
    (C, "size[0] + size[0] * width", "size[0] * width"),
    (C, "state >= table[0]", "state > table[0]"),
    (C, "first = 4 + 2 * (size_t)table[3]", "first = 4 + (size_t)table[3]"),
    (C, "first + table[0] <= table_len", "first + table[0] < table_len"),
    (RUST, "self.column = 1;", "self.column = 0;"),
    (RUST, r" | b'\r'", ""),
    (RUST, "digits && ", ""),
    (RUST, ".min(1 << 16)", ""),
    (RUST, '"the number of productions", 1, 128', '"the number of productions", 1, 129'),
    (RUST, "if place.word.is_empty()", "if true"),
    (RUST, 'place.word("entered")?;', ""),
    (RUST, '"an entering symbol", states', '"an entering symbol", states - 1'),
    (RUST, "first + usize::from(*states)", "first + usize::from(*states) - 1"),
    (RUST, "let first = 4 + 2 *", "let first = 4 +"),
    (RUST, "place.number(\"state\", state, state)?", "place.number(\"state\", 0, 255)?"),
]


def main():
    OUT.mkdir(parents=True, exist_ok=True)
    chance = random.Random(int(os.environ.get("SEED", "1")))
    given = list(texts(chance))
    wanted = [expected(text) for text in given]
    good = sum(want[0].isdigit() for want in wanted)
    kinds = {re.sub(r"found .*", "", want.split(": ", 1)[1]) for want in wanted if not want[0].isdigit()}
    bad = 0
    for program in build():
        found = differs(program, given, wanted)
        if found:
            bad += 1
            print(f"{program.name}: {found}")
    # an area that is too short for the table
    subprocess.run(["gcc", "-DREAD_AREA=27", "-fsanitize=address,undefined", "-fno-sanitize-recover=all", f"-I{C.parent}",
                    HERE / "read.c", C, "-o", OUT / "short-c"], check=True)
    text = (ROOT / "examples/a.table").read_bytes()
    found = differs(OUT / "short-c", [text], ["line 2, column 1: the table has 28 numbers, the area only 27"])
    if found:
        bad += 1
        print(f"short-c: {found}")
    missed = 0
    for source, old, new in FAULTS if not bad else []:
        text = source.read_text()
        assert text.count(old) == 1, f"{text.count(old)} times in {source.name}: {old}"
        changed = OUT / f"wrong{source.suffix}"
        changed.write_text(text.replace(old, new))
        program = build(changed if source == C else None, changed if source == RUST else None, "wrong-read")[0]
        if not differs(program, given, wanted):
            missed += 1
            print(f"NOT FOUND in {source.name}: {new or old}")
    print(f"{len(given)} texts, {good} of them tables, {len(kinds)} kinds of faults; {bad} programs differ; "
          f"{len(FAULTS)} planted faults, {missed} not found")
    sys.exit(bool(bad or missed or good < 20 or len(kinds) < 12))


if __name__ == "__main__":
    main()
