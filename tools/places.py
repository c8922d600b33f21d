#!/usr/bin/env python3
"""Lists the places of each point of docs/DESIGN-PASS.md in the sources of the crates.

    python3 tools/places.py [--list] [POINT ..]

prints for each point how many places there are; with --list each of them.
"""
import collections
import glob
import os
import re
import sys

TOP = os.path.dirname(os.path.dirname(os.path.abspath(__file__)))


class Function:
    def __init__(self, file, line, head, body, comment):
        self.file, self.line, self.head, self.body, self.comment = file, line, head, body, comment
        self.name = re.search(r"fn (\w+)", head).group(1)
        self.where = "%s:%d %s" % (file, line, self.name)

    def parameters(self):
        """The parameters of the head as (name, type)."""
        text = self.head[self.head.index("(", self.head.index("fn ")) + 1 :]
        depth, inside = 1, ""
        for c in text:
            depth += c in "(<[" 
            depth -= c in ")>]"
            if depth == 0:
                break
            inside += c
        found = []
        for part in re.split(r",(?![^\[(<]*[\])>])", inside):
            m = re.match(r"\s*(mut )?(\w+):\s*(.*\S)", part, re.S)
            if m:
                found.append((m.group(2), " ".join(m.group(3).split())))
        return found

    def facts(self):
        """The facts of its `requires` clauses."""
        facts = []
        for clause in re.findall(r"^\s*requires(?: \w+)? \{ (.*?) \}$", self.head, re.M | re.S):
            depth, start = 0, 0
            for i, c in enumerate(clause):
                depth += c in "([{"
                depth -= c in ")]}"
                if depth == 0 and c == "×":
                    facts.append(clause[start:i])
                    start = i + 1
            facts.append(clause[start:])
        out = []
        for fact in facts:
            fact = fact.strip()
            while fact.startswith("(") and closes(fact) == len(fact) - 1:
                fact = fact[1:-1].strip()
            out.append(fact)
        return out


def closes(text):
    """Where the bracket that opens a text is closed."""
    depth = 0
    for i, c in enumerate(text):
        depth += c in "(["
        depth -= c in ")]"
        if depth == 0:
            return i
    return -1


def functions():
    found = []
    for path in sorted(glob.glob(os.path.join(TOP, "crates/*/src/**/*.rt"), recursive=True)):
        file = os.path.relpath(path, TOP)
        lines = open(path).read().split("\n")
        i = 0
        while i < len(lines):
            m = re.match(r"(\s*)(?:pub(?:\(\w+\))? )?(?:const )?(?:unsafe )?(?:extern \"C\" )?fn \w+", lines[i])
            if not m:
                i += 1
                continue
            indent, j = m.group(1), i
            while not (lines[j] in (indent + "{", indent + "}") or lines[j].endswith(" {") or lines[j].endswith(";")):
                j += 1
            start = j
            while lines[j] != indent + "}" and not (j == start and lines[j].endswith(";")):
                j += 1
            k = i
            while k > 0 and re.match(r"\s*(//|#\[)", lines[k - 1]):
                k -= 1
            found.append(
                Function(file, i + 1, "\n".join(lines[i : start + 1]), "\n".join(lines[start : j + 1]), "\n".join(lines[k:i]))
            )
            i = j + 1
    return found


FUNCTIONS = functions()


def lines(pattern):
    for path in sorted(glob.glob(os.path.join(TOP, "crates/*/src/**/*.rt"), recursive=True)):
        for n, line in enumerate(open(path), 1):
            if re.search(pattern, line):
                yield "%s:%d %s" % (os.path.relpath(path, TOP), n, line.strip())


def results():
    """1: enums, fields that are flags, and numbers that stand for `none` or for a refusal."""
    yield from lines(r"^\s*(pub(\(\w+\))? )?enum ")
    yield from lines(r"^\s+(pub )?\w+: bool,$")
    none = r"where there is none|; \d+ where|, \d+ where|\bor 0\b|or the limit|or n\b|or 128 where|; T \+ N\b|where there is no room"
    for f in FUNCTIONS:
        if re.search(r"-> (u8|u16|u32|u64|usize)\b", f.head) and re.search(none, f.comment):
            yield f.where


def normal(text):
    """A text without what twins differ in: its types, numbers and names."""
    text = re.sub(r"\b(u8|u16|u32|u64|usize)\b", "T", text)
    text = re.sub(r"\b\d[\d_]*\b", "N", text)
    return re.sub(r"\b(?!fn|let|mut|if|else|while|for|in|return|match|loop|as|T|N\b)[a-z_]\w*(::\w+)*", "x", text)


def twins():
    """2: functions and types that are the same but for types, numbers and names."""
    groups = collections.defaultdict(list)
    for f in FUNCTIONS:
        if len(f.body.split()) < 4:
            continue
        head = re.sub(r"\n\s*(requires|ensures).*", "", f.head)
        groups[" ".join(normal(head + f.body).split())].append(f.where)
    for path in sorted(glob.glob(os.path.join(TOP, "crates/*/src/**/*.rt"), recursive=True)):
        text = open(path).read()
        for m in re.finditer(r"^(pub )?(struct|enum) (\w+) \{.*?^\}", text, re.M | re.S):
            body = re.sub(r"//.*", "", m.group(0)).replace(m.group(3), "X").replace("pub ", "")
            groups[" ".join(body.split())].append("%s %s" % (os.path.relpath(path, TOP), m.group(3)))
    for where in groups.values():
        if len(where) > 1:
            yield " = ".join(where)


def loops():
    """3: loops that count an index by hand."""
    for f in FUNCTIONS:
        for m in re.finditer(r"^\s*(?:'\w+: )?while (.*) \{$", f.body, re.M):
            names = set(re.findall(r"\b[a-z_]\w*\b", m.group(1)))
            rest = f.body[m.end() :]
            if any(re.search(r"^\s*%s [+-]= \w+;" % n, rest, re.M) for n in names):
                yield "%s: while %s" % (f.where, m.group(1))


def by_hand():
    """4: conversions, orders, equalities and logic by functions of our own, and where they are called."""
    own = []
    for f in FUNCTIONS:
        body = " ".join(f.body.split())
        if re.fullmatch(r"\{ \w+ as \w+ \}", body) or re.fullmatch(r"\{ if (\w+) < (\w+) \{ \1 \} else \{ \2 \} \}", body):
            own.append(f)
        elif f.name in ("between", "both", "either") and "Page" not in f.head and "card: &mut" not in f.head:
            own.append(f)
    names = {f.name for f in own}
    for f in own:
        yield f.where
    for f in FUNCTIONS:
        for m in re.finditer(r"\b(?:card::|cell_checks::)?(%s)\(" % "|".join(sorted(names)) if names else r"\A\Z", f.body):
            yield "%s: %s" % (f.where, m.group(1))
    yield from lines(r"\w\[\d\] as \w+, \w+\[\d\] as|^\s+n\[\d\] as u64,")


def facts():
    """5: facts in the contracts of three or more functions; parameters that six or more functions take together."""
    of = collections.defaultdict(set)
    for f in FUNCTIONS:
        for fact in f.facts():
            if re.search(r"\b(now|old)\b", fact):
                of[(os.path.dirname(f.file) if len(fact) < 12 else "", fact)].add(f.where)
    for (_, fact), where in sorted(of.items(), key=lambda x: -len(x[1])):
        if len(where) >= 3:
            yield "%d: %s" % (len(where), fact)
    pairs = collections.defaultdict(set)
    for f in FUNCTIONS:
        p = f.parameters()
        for i, a in enumerate(p):
            for b in p[i + 1 :]:
                pairs[(a, b)].add(f.where)
    groups = collections.defaultdict(list)
    for pair, where in pairs.items():
        if len(where) >= 6:
            groups[tuple(sorted(where))].append(pair)
    for where, found in sorted(groups.items(), key=lambda x: -len(x[0])):
        names = sorted({"%s: %s" % a for pair in found for a in pair})
        yield "%d together: %s" % (len(where), ", ".join(names))


def buffers():
    """6: a buffer with the length used beside it; arrays of which each index is one thing."""
    for f in FUNCTIONS:
        p = f.parameters()
        names = [n for n, _ in p]
        kinds = dict(p)
        if "used" in names or ("depth" in names and any(t.startswith("&mut [u16]") for _, t in p)):
            yield f.where + ": a buffer with its length"
        arrays = [n for n, t in p if re.match(r"&(mut )?\[+u\d+; \d+\]", t)]
        sizes = {re.search(r"; (\d+)\]$", kinds[n]).group(1) for n in arrays if re.search(r"; (\d+)\]$", kinds[n])}
        if len(arrays) > 1 and len(sizes) < len(arrays):
            yield f.where + ": parallel arrays " + ", ".join(arrays)


def switches():
    """7: a match that chooses by an enum's variant alone which function to call."""
    for f in FUNCTIONS:
        kinds = dict(f.parameters())
        for m in re.finditer(r"^\s*match (\w+) \{(.*?)^\s*\}$", f.body, re.M | re.S):
            arms = re.findall(r"^\s*\w+::\w+ => (.*),$", m.group(2), re.M)
            calls = [a for a in arms if re.match(r"[a-z_][\w:]*[(\[]", a)]
            if m.group(1) in kinds and len(arms) > 1 and len(calls) == len(arms):
                yield "%s: match %s" % (f.where, m.group(1))


def proofs():
    """8: folders of proofs in the older form."""
    for path in sorted(glob.glob(os.path.join(TOP, "crates/*/proofs/**/Proof.antt"), recursive=True)):
        yield os.path.relpath(os.path.dirname(path), TOP)


POINTS = {"1": results, "2": twins, "3": loops, "4": by_hand, "5": facts, "6": buffers, "7": switches, "8": proofs}


def main():
    wanted = [a for a in sys.argv[1:] if a in POINTS] or sorted(POINTS)
    for point in wanted:
        found = list(POINTS[point]())
        print("%s: %d" % (POINTS[point].__doc__.rstrip("."), len(found)))
        if "--list" in sys.argv:
            for place in found:
                print("    " + place)


if __name__ == "__main__":
    main()
