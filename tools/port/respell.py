#!/usr/bin/env python3
"""Spells the repository's own definitions and lemmas as the kit does: words in snake case, types in camel case.

usage: respell.py [--check] FOLDER      FOLDER is the top of the repository, after port.py ran there

A name turns that a file of specs/ or proofs/ declares (in a function's folder only what is no goal of the function),
that has a dash or, behind a small letter, a capital. It turns as a whole word in every .antt file, in the clauses and
`ghost use` items of every .rt file, and in the code spans of docs. With --check nothing is written; two names that
would fall together in one file are listed, and stay.
"""
import collections
import os
import re
import sys

NAME = r"[^\s(){}.;,@\"«»]+"
MODIFIERS = r"(?:(?:pub|unfoldable|abbrev|data|record|constructor) +)*"
DECLARED = re.compile(rf"(?m)^( *)({MODIFIERS})({NAME}(?: {NAME})*?)((?: \{{[^{{}}\n]*\}})*(?: \([^()\n]*(?:\([^()\n]*\)[^()\n]*)*\))*) :(?= |$)")
GOAL = re.compile(r"tie\.(?:Need-|invariant|decreases)|goal\.")
TURNS = re.compile(r"-|(?<=[a-z0-9])[A-Z]")
WORD = re.compile(r"[A-Za-z0-9_'₀-₉-]+")


# Where a word and a law of it would fall together, the law has another name.
OTHER = {
    "bit-and": "bit_of_and",
    "bit-or": "bit_of_or",
    "bit-xor": "bit_of_xor",
    "cell-ok": "cell_check_passed",
    "terminal-ok": "terminal_check_passed",
    "input_ok": "input_passed",
    "rest_in": "rest_in_is",
    "notACard": "not_a_card",
}
LAWS = """after-of answer-of card-answer card-text cell-back cell-ok cells-ok closed-ok entries-ok first-of left-of lefts-ok
masked-cell merged-symbols names-ok no-checkpoint occurring-of of-first of-second productions-ok reduced-to refusal-text
rest-at rights-ok row-at row-line size-of sizes-ok starts-with stop-number table-parts terminal-ok transition-count
unknown-at up-from useless-nonterminal wrong-at action-at at-end in-front nonterminals-of production-of refusal-number
rows-text symbols-at symbols-to useless-at""".split()


def new_name(old):
    if old in OTHER:
        return OTHER[old]
    if old in LAWS:
        words = old.replace("-", "_")
        return re.sub(r"_ok$", "_passed", words) if words.endswith("_ok") else words + "_is"
    if old[0].isupper():
        return "".join(p[:1].upper() + p[1:] for p in old.split("-"))
    words = re.sub(r"(?<=[a-z0-9])[A-Z]", lambda m: "_" + m[0].lower(), old)
    return words.replace("-", "_")


def files(root, *ends):
    for folder, dirs, names in os.walk(root):
        dirs[:] = sorted(d for d in dirs if d not in ("out", ".git") and (d != "target" or "/proofs" in folder))
        for n in sorted(names):
            if n.endswith(ends):
                yield os.path.join(folder, n)


def read(p):
    with open(p, encoding="utf-8") as f:
        return f.read()


def is_function(p):
    return re.search(r"/proofs/[^/]+/[^/]+$", p) is not None


def declared(root):
    """The names to turn; the fields and constructors among them may stand behind a dot."""
    names, labels = set(), set()
    for p in files(os.path.join(root, "crates"), ".antt"):
        for m in DECLARED.finditer(read(p)):
            if "--" in m[3] or m[3].startswith(("let ", "use ", "λ")):
                continue
            for n in m[3].split(" "):
                if WORD.fullmatch(n) and TURNS.search(n) and not n.startswith("-"):
                    tail = read(p)[m.end():m.end() + 12]
                    if is_function(p) and (GOAL.match(tail.strip()) or n.endswith("-spec")):
                        continue
                    names.add(n)
    for p in files(os.path.join(root, "crates"), ".antt", ".rt"):
        for m in re.finditer(rf"(?m)^ *(?:ghost )?use Rattle\.(?!std\b|core\b)[^;\n]*", read(p)):
            for a in re.finditer(rf"({NAME}) as ({NAME})", m[0]):
                if WORD.fullmatch(a[2]) and TURNS.search(a[2]):
                    names.add(a[2])
    return names


def imported(root):
    """What the texts import from the kit's libraries: those spellings are not ours."""
    out = set()
    for p in files(os.path.join(root, "crates"), ".antt", ".rt"):
        for m in re.finditer(r"(?m)^ *(?:pub )?(?:ghost )?use (?!Rattle\.(?!std\b|core\b))([^;{\n]*)\{([^}]*)\}", read(p)):
            for it in m[2].split(","):
                out.update(w for w in it.split() if w != "as")
    return out


def fields(root):
    """The fields of the repository's records."""
    out = set()
    for p in files(os.path.join(root, "crates"), ".antt"):
        depth = None
        for line in read(p).split("\n"):
            here = len(line) - len(line.lstrip())
            if re.match(r" *(?:pub )?record ", line):
                depth = here
            elif line.strip() and depth is not None and here <= depth:
                depth = None
            elif depth is not None:
                m = re.match(rf" *(?:pub )?({NAME}) :", line)
                if m:
                    out.add(m[1])
    return out


def labels(root):
    """What a goal's context calls a call of a function of src/, in the older spelling."""
    out = set()
    for p in files(os.path.join(root, "crates"), ".rt"):
        out.update(n.replace("_", "-") for n in re.findall(r"\bfn (\w+)", read(p)))
    return out


TOKEN = re.compile(r"(?<![A-Za-z0-9_'₀-₉-])[A-Za-z][A-Za-z0-9_'₀-₉-]*")


def turned(text, table, pieces, behind_dot=None, path=""):
    def one(m):
        w = m[0]
        if w in ("input_ok", "rest_in") and (m.string[:m.start()].endswith("proofs.") or "/table_checks/" in path):
            return w
        if behind_dot is not None and m.string[:m.start()].endswith(".") and w not in behind_dot:
            return w
        return table.get(w, w)

    if pieces is None:
        return TOKEN.sub(one, text)
    return pieces.sub(lambda m: TOKEN.sub(one, m[0]), text)


CLAUSES = re.compile(r"(?m)^ *ghost use [^;]*;|^ *(?:requires|ensures)\*?(?: \w+)? \{[^\n]*\}$|^ *(?:pub )?ghost [^\n]*")
SPANS = re.compile(r"`[^`\n]+`")


def main(argv):
    check = "--check" in argv
    root = [a for a in argv if not a.startswith("--")][0]
    names = declared(root) | {n for n in OTHER if "-" not in n}
    kit = imported(root)
    table = {n: new_name(n) for n in sorted(names - kit) if new_name(n) != n}
    if names & kit:
        print("stay, since the kit has them:", ", ".join(sorted(names & kit)))
    back = collections.defaultdict(set)
    for a, b in table.items():
        back[b].add(a)
    clash = {b for b, a in back.items() if len(a) > 1}
    texts = {p: read(p) for p in files(os.path.join(root, "crates"), ".antt", ".rt")}
    words = {p: set(re.findall(r"(?<![A-Za-z0-9_'₀-₉-])[A-Za-z][A-Za-z0-9_'₀-₉-]*", t)) for p, t in texts.items()}
    met = collections.defaultdict(list)
    for p, w in words.items():
        if p.endswith(".rt"):
            w = set(re.findall(r"(?<![A-Za-z0-9_'₀-₉-])[A-Za-z][A-Za-z0-9_'₀-₉-]*", " ".join(CLAUSES.findall(texts[p]))))
        for a in w & table.keys():
            b = table[a]
            if b in w or len([x for x in back[b] if x in w]) > 1:
                met[a].append(os.path.relpath(p, root))
    for a, where in sorted(met.items()):
        print(f"falls together: {a} -> {table[a]} in {len(where)} files, as {where[0]}")
    if check:
        print(len(table), "names turn")
        print("two of one:", sorted((b, sorted(back[b])) for b in clash))
        return 0
    own = fields(root) - labels(root)
    for p, t in texts.items():
        new = turned(t, table, CLAUSES if p.endswith(".rt") else None, own if is_function(p) else None, p)
        if new != t:
            with open(p, "w", encoding="utf-8") as f:
                f.write(new)
    for p in files(root, ".md"):
        t = read(p)
        new = turned(t, table, SPANS)
        if new != t:
            with open(p, "w", encoding="utf-8") as f:
                f.write(new)
    return 0


if __name__ == "__main__":
    raise SystemExit(main(sys.argv[1:]))
