#!/usr/bin/env python3
"""Checks README.md and the documents in docs.

    check.py

- Each relative link points to a file of the repository, and where it has a `#part`, to a heading of it.
- In docs/CLAIMS.md a link whose text is a `name` in backquotes points to a file in which that name stands as a word; of
  a `Record.field` each part does.
- A block marked `console` is what the commands in it print: those behind `$ ` are run at the root, and standard output
  and standard error are compared.
- The table in docs/CONTRIBUTING.md of what a change proves again is what tools/layers.py makes of crates.txt and of the
  seconds in the table.

Then faults are planted in copies, and each must be found."""

import importlib.util
import os
import pathlib
import re
import subprocess
import sys
import tempfile

ROOT = pathlib.Path(__file__).resolve().parents[2]


def documents(root):
    return [root / "README.md", *sorted((root / "docs").rglob("*.md"))]


def without_code(text):
    """The text with blocks of code blanked, line by line."""
    out, inside = [], False
    for line in text.split("\n"):
        if line.startswith("```"):
            inside = not inside
            line = ""
        out.append("" if inside or line.startswith("    ") else line)
    return "\n".join(out)


def anchors(text):
    """The names by which headings are linked."""
    found = set()
    for title in re.findall(r"^#+ (.*)$", without_code(text), re.M):
        found.add(re.sub(r"[^\w\- ]", "", title.lower()).replace(" ", "-"))
    return found


def occurs(name, text):
    """The name stands in the text as a word; words are what Rattle and antt have for names."""
    edge = r"[\w·'′⁺⁻\-]"
    return re.search(rf"(?<!{edge}){re.escape(name)}(?!{edge})", text) is not None


def links(root):
    """The faults of links, and how many links there are."""
    faults, count = [], 0
    for path in documents(root):
        text = without_code(path.read_text())
        for match in re.finditer(r"\[((?:[^\[\]]|\[[^\]]*\])*)\]\(([^()\s]+)\)", text):
            label, target = match.groups()
            if re.match(r"[a-z]+:", target):
                continue
            count += 1
            line = text.count("\n", 0, match.start()) + 1
            where = f"{path.relative_to(root)}:{line}"
            name, _, part = target.partition("#")
            file = pathlib.Path(os.path.normpath(path.parent / name)) if name else path
            if not file.is_relative_to(root) or not file.exists():
                faults.append(f"{where}: no file {target}")
                continue
            if part and part not in anchors(file.read_text()):
                faults.append(f"{where}: no heading {target}")
            if path.name == "CLAIMS.md":
                for word in re.findall(r"`([^`]+)`", label):
                    # an edit that must be refused is named by its file
                    if file.suffix == ".edit" and file.stem == word:
                        continue
                    if not file.is_file() or not all(occurs(part, file.read_text()) for part in word.split(".")):
                        faults.append(f"{where}: {word} does not stand in {target}")
    return faults, count


def blocks(text):
    """Commands with what must come out, from the blocks marked `console`."""
    for block in re.findall(r"^```console\n(.*?)^```$", text, re.M | re.S):
        for part in re.split(r"^\$ ", block, flags=re.M)[1:]:
            command, _, wanted = part.partition("\n")
            yield command, wanted


def commands(root, only=""):
    """The faults of the blocks, and how many commands with the text `only` there are."""
    faults, count = [], 0
    environment = dict(os.environ, CARGO_TARGET_DIR=str(ROOT / "target/cargo"), SIDUMZA_LIB=str(ROOT / "target/staticlib"))
    for path in documents(root):
        for command, wanted in blocks(path.read_text()):
            if only not in command:
                continue
            count += 1
            ran = subprocess.run(["sh", "-c", command], cwd=ROOT, env=environment, stdin=subprocess.DEVNULL,
                                 stdout=subprocess.PIPE, stderr=subprocess.STDOUT, timeout=600)
            if ran.stdout.decode(errors="replace") != wanted:
                faults.append(f"{path.relative_to(root)}: $ {command}\n{ran.stdout.decode(errors='replace')[:600]}")
    return faults, count


def layers(root):
    """The faults of the table of what a change proves again, and how many rows it has."""
    spec = importlib.util.spec_from_file_location("layers", root / "tools/layers.py")
    tool = importlib.util.module_from_spec(spec)
    spec.loader.exec_module(tool)
    text = (root / "docs/CONTRIBUTING.md").read_text()
    table = re.search(r"^\| crate \| its own seconds (.*\n)+?(?=\n)", text, re.M).group()
    seconds = re.findall(r"^\| (\w+) \| (\d+) \|", table, re.M)
    crates = (root / "crates.txt").read_text()
    missing = set(re.findall(r"^(\w+):", crates, re.M)) - {name for name, _ in seconds}
    if missing:
        return [f"docs/CONTRIBUTING.md: no row for {', '.join(sorted(missing))}"], len(seconds)
    said = "".join(f"rt: {name} proved ({took} s)\n" for name, took in seconds)
    if tool.rows(crates, said) != table:
        return ["docs/CONTRIBUTING.md: the table is not what tools/layers.py makes of its seconds"], len(seconds)
    return [], len(seconds)


def append(file, text):
    """A fault: a text behind a file's."""
    return lambda root: (root / file).write_text((root / file).read_text() + "\n" + text + "\n")


def replace(file, old, new):
    """A fault: another text in a file."""
    def plant(root):
        text = (root / file).read_text()
        assert old in text, f"{file} has no {old}"
        (root / file).write_text(text.replace(old, new, 1))
    return plant


def row(name, change):
    """A fault: another row of the table of what a change proves again."""
    def plant(root):
        file = root / "docs/CONTRIBUTING.md"
        text, count = re.subn(rf"^\| {name} \|.*\n", change, file.read_text(), flags=re.M)
        assert count == 1, f"no row of {name}"
        file.write_text(text)
    return plant


PLANTED = [
    ("a link to no file", links, append("README.md", "[x](docs/NOWHERE.md)")),
    ("a link out of the repository", links, append("docs/GLOSSARY.md", "[x](../../../../etc/passwd)")),
    ("a link to no heading", links, append("README.md", "[x](docs/FORMATS.md#nowhere)")),
    ("a link to a file that is gone", links, lambda root: (root / "examples/json.lines").unlink()),
    ("a claim's file that is not there", links, append("docs/CLAIMS.md", "[`count-le`](../crates/planted/specs/No.antt)")),
    ("a claim's name that is not there", links, append("docs/CLAIMS.md", "| [`nowhere`](../crates/planted/specs/File.antt) |")),
    ("part of a claim's name", links, append("docs/CLAIMS.md", "[`count`](../crates/planted/specs/File.antt)")),
    ("a claim's second name", links, append("docs/CLAIMS.md", "[`count-le`, `nowhere`](../crates/planted/specs/File.antt)")),
    ("another output", commands, replace("docs/FORMATS.md", "$ echo three | ./maketable\nnot a card", "$ echo three | ./maketable\nnot a cart")),
    ("a crate without a row", layers, row("digraph", "")),
    ("a row of a crate that is gone", layers, row("digraph", lambda match: match.group() + "| gone | 1 | 1 | 1 |\n")),
    ("another count", layers, row("maketable", lambda match: match.group().replace("| 1 |", "| 2 |", 1))),
    ("an output cut off", commands, replace("docs/FORMATS.md", "row 3 : 1024 1024 0 0\n", "")),
]


def planted():
    """The faults that are not found, each in a copy with that fault and one claim that is right."""
    missed = []
    for name, check, plant in PLANTED:
        with tempfile.TemporaryDirectory() as folder:
            copy = pathlib.Path(folder)
            parts = [path for path in ROOT.iterdir() if path.name not in (".git", "target", "crates")]
            subprocess.run(["cp", "-r", *parts, folder], check=True)
            (copy / "crates/planted/specs").mkdir(parents=True)
            for crate in (ROOT / "crates").iterdir():
                (copy / "crates" / crate.name).symlink_to(crate)
            (copy / "crates/planted/specs/File.antt").write_text("theorem count-le : A → B\n")
            append("docs/CLAIMS.md", "[`count-le`](../crates/planted/specs/File.antt)")(copy)
            more = ["./maketable"] if check is commands else []
            before = check(copy, *more)[0]
            plant(copy)
            if before or len(check(copy, *more)[0]) != 1:
                missed.append(name)
    return missed


def main():
    faults, linked = links(ROOT)
    uneven, rows = layers(ROOT)
    faults += uneven
    # the first call of a script builds its program, and says so
    for script in ["./maketable", "./pagetable", "./explain"]:
        subprocess.run([script], cwd=ROOT, stdin=subprocess.DEVNULL, stdout=subprocess.DEVNULL, timeout=3600)
    wrong, run = commands(ROOT)
    missed = planted() if not faults + wrong else []
    for fault in faults + wrong:
        print(fault)
    for name in missed:
        print(f"NOT FOUND: {name}")
    print(f"{linked} links, {run} commands, {rows} crates, {len(faults + wrong)} faults; {len(PLANTED)} planted faults, {len(missed)} not found")
    sys.exit(bool(faults or wrong or missed or not linked or not run))


if __name__ == "__main__":
    main()
