#!/usr/bin/env python3
"""Turns the labels of a crate's Proof.antt files to those that today's Rattle makes.

usage: retie.py CRATE_FOLDER NAMES.json      NAMES.json: of `rt check --generated FOLDER --old-names` in that crate

A goal is found by its place among the arguments of `tie.spec`, a step by the place in the code that its context has.
What it does not know it leaves, and says so.
"""
import json
import os
import re
import sys

ID = r"[A-Za-zμκλ][A-Za-z0-9_'₀-₉-]*"
CHAIN = re.compile(rf"(?<![A-Za-z0-9_.'₀-₉-])({ID})((?:\.(?:{ID}|\d+))+)")


def plain(s):
    return s.replace("_", "-")


def changing(root, callee):
    """The parameters of a function of the repository that are `&mut`."""
    crate, *path = callee.split("::")
    for folder, _, names in os.walk(os.path.join(root, crate, "src")):
        for n in names:
            text = open(os.path.join(folder, n), encoding="utf-8").read()
            m = re.search(rf"\bfn {path[-1]}\b(?:<[^>]*>)?\(([^)]*)\)", text)
            if m:
                return [a.split(":")[0].strip() for a in m[1].split(",") if re.search(r":\s*&(?:'\w+ )?mut\b", a)]
    return []


class Places:
    """The places of a function's code, in the older spelling: what a context there has, and where it came from."""

    def __init__(self, it, root):
        self.params, self.lasts = {}, {}
        self.old_parent, self.parent, self.step, self.new, self.fields = {}, {}, {}, {}, {}
        rows = it["places"]
        for (name, parent, step, call, renames), new in zip(rows, it["places_by_name"]):
            n = plain(name)
            self.old_parent[n] = self.parent[n] = parent and plain(parent)
            self.new[n] = new
            self.step[n] = (plain(step[0]), step[1], dict(map(tuple, renames)))
            self.fields[n] = []
            if call and call in it["params"]:
                self.params[n] = it["params"][call]
                self.lasts[n] = changing(root, call)
        for (name, *_), arm in zip(rows, it["arms"]):
            if not arm:
                continue
            label, merged, fields = arm
            n = plain(name)
            up = n
            for _ in range(merged):
                up = self.old_parent.get(up)
            self.parent[n] = up
            self.fields[n] = [(plain(old), [plain(x) for x in path], [label, to]) for to, old, path in fields]
        self.args = {}
        for old, to in it["args"]:
            self.args[tuple(plain(x.strip()) for x in old.strip(". ").split("."))] = [x.strip() for x in to.strip(". ").split(".")]

    def start_fields(self, comps):
        for n in (2, 1):
            key = tuple(plain(c) for c in comps[:n])
            if key in self.args:
                return self.args[key] + comps[n:]
        if comps and comps[0] == "pre":
            comps = ["requires"] + comps[1:]
        return comps

    def named(self, place, rest):
        """What a call's step says of each parameter goes by name today: `auto.1.0` is `auto.NAME`."""
        for field, names in (("auto", self.params.get(place)), ("new", self.params.get(place))):
            if names and rest[:1] == [field] and len(rest) > 1 and rest[1] in ("0", "1"):
                k = 0
                while 1 + k < len(rest) and rest[1 + k] == "1":
                    k += 1
                if k < len(names) and rest[1 + k:2 + k] == ["0"]:
                    return [field, names[k]] + rest[2 + k:]
        return rest

    def at(self, place, comps):
        """The components, if the context at this place has them itself."""
        step, new, renames = self.step[place]
        for old, path, to in sorted(self.fields[place], key=lambda f: -len(f[1])):
            if plain(comps[0]) == old and [plain(c) for c in comps[1:1 + len(path)]] == path:
                return to + comps[1 + len(path):], None
        if self.fields[place]:
            return None
        if step and plain(comps[0]) == step:
            rest = comps[1:]
            if rest:
                return [new] + self.named(place, [renames.get(rest[0], rest[0])] + rest[1:]), None
            return [new], ("step", renames, place)
        return None


START = {plain(s): s for s in ("args", "requires", "lifetimes", "auto", "well_formed", "ghosts", "pre", "ranges")}


def climb(places, place, comps, said):
    """The components behind a context of this place, with today's labels, and what they lead to."""
    n = 0
    while n < len(comps) and comps[n] == "before":
        n += 1
    rest = comps[n:]
    if not rest:
        goal = place
        for _ in range(n):
            goal = places.old_parent.get(goal) or goal
        return to_place(places, place, goal)
    at, ups = place, 0
    head = plain(rest[0])
    if head in START or head.startswith(("told-", "fits-")):
        while places.parent.get(at):
            at = places.parent[at]
            ups += 1
        rest = [START.get(head, rest[0])] + rest[1:]
        return ["before"] * ups + places.start_fields(rest), (("fields", rest[0]) if len(rest) == 1 else None)
    # the label where the count leads first, then the nearest one that is so called
    while at:
        got = places.at(at, rest)
        if got:
            return ["before"] * ups + got[0], got[1]
        at = places.parent.get(at)
        ups += 1
    said.append(f"no step {'.'.join(rest[:2])} above {place}")
    return comps, None


def to_place(places, place, goal):
    above = set()
    g = goal
    while g:
        above.add(g)
        g = places.old_parent.get(g)
    at, ups = place, 0
    while at and at not in above:
        at = places.parent.get(at)
        ups += 1
    return ["before"] * ups, ("place", at or goal)


def turn_body(places, text, known, said, helpers, takes):
    """Chains in text, where known gives the place of each variable; `let` adds to it, in the order of the text."""
    token = re.compile(rf"(?P<let>\blet (?P<name>{ID}) = (?P<value>[^\n]*?) in\b)|(?P<call>\((?P<fn>{ID}) (?P<with>[^()]*(?:\([^()]*\)[^()]*)*)\)(?P<tail>(?:\.(?:{ID}|\d+))+))|(?P<chain>{CHAIN.pattern})")
    known = dict(known)

    def chain(var, comps):
        comps = [c for c in comps.split(".") if c]
        kind = known.get(var)
        if kind and kind[0] == "place":
            if not comps:
                return [], kind
            return climb(places, kind[1], comps, said)
        if kind and kind[0] == "step":
            return (places.named(kind[2], [kind[1].get(comps[0], comps[0])] + comps[1:]) if comps else []), (kind if not comps else None)
        if kind and kind[0] == "fields" and comps:
            key = (plain(kind[1]), plain(comps[0]))
            return (places.args[key][1:] if key in places.args else [comps[0]]) + comps[1:], None
        return comps, None

    def meant(start, name, text):
        """The place that a variable should have, by what is made of it."""
        for m in re.finditer(rf"\b({ID}) {re.escape(name)}(?![\w'.-])", text):
            if m[1] in takes:
                return takes[m[1]]
        for m in re.finditer(rf"(?<![\w'.-]){re.escape(name)}\.({ID})", text):
            if m[1] != "before" and plain(m[1]) not in START:
                at = start
                while at:
                    if places.at(at, [m[1]]) or any(plain(m[1]) == f[0] for f in places.fields[at]):
                        return at
                    at = places.parent.get(at)
        return None

    def go(text):
        out, pos = [], 0
        for m in token.finditer(text):
            out.append(text[pos:m.start()])
            pos = m.end()
            if m["let"]:
                name, value = m["name"], m["value"]
                c = re.fullmatch(rf"({ID})((?:\.(?:{ID}|\d+))*)", value)
                if c:
                    res, to = chain(c[1], c[2])
                    if to and to[0] == "place" and c[2] and set(c[2].split(".")) <= {"", "before"}:
                        better = meant(known[c[1]][1], name, text[m.end():])
                        if better:
                            res, to = to_place(places, known[c[1]][1], better)
                    out.append(f"let {name} = " + ".".join([c[1]] + res) + " in")
                else:
                    h = re.match(rf"({ID}) ", value)
                    to = ("place", helpers[h[1]]) if h and h[1] in helpers else None
                    out.append(f"let {name} = " + go(value) + " in")
                if to is not None:
                    known[name] = to
                else:
                    known.pop(name, None)
            elif m["call"]:
                inner = go(m["with"])
                if m["fn"] in helpers:
                    res, _ = climb(places, helpers[m["fn"]], m["tail"][1:].split("."), said)
                    out.append(f"({m['fn']} {inner})." + ".".join(res))
                else:
                    out.append(f"({m['fn']} {inner}){m['tail']}")
            else:
                g = CHAIN.match(m[0])
                res, _ = chain(g[1], g[2])
                out.append(".".join([g[1]] + res))
        out.append(text[pos:])
        return "".join(out)

    return go(text)


def pieces(text):
    """The top of the file, then each declaration at the left margin."""
    parts = []
    now = []
    for line in text.split("\n"):
        if line and not line[0].isspace() and not line.startswith(("}", ")")) and not line.startswith("use "):
            parts.append("\n".join(now))
            now = []
        now.append(line)
    parts.append("\n".join(now))
    return parts


def arguments(text):
    """The arguments of tie.spec."""
    i = text.index("tie.spec") + len("tie.spec")
    out, depth, word = [], 0, ""
    while i < len(text):
        ch = text[i]
        if ch == "(":
            depth += 1
        if ch == ")":
            if depth == 0:
                break
            depth -= 1
        if ch.isspace() and depth == 0:
            if word:
                out.append(word)
            word = ""
        else:
            word += ch
        i += 1
    if word:
        out.append(word)
    return out


def split_arrows(sig):
    out, depth, word = [], 0, ""
    for ch in sig:
        if ch in "([{":
            depth += 1
        if ch in ")]}":
            depth -= 1
        if ch == "→" and depth == 0:
            out.append(word.strip())
            word = ""
        else:
            word += ch
    out.append(word.strip())
    return out


def without_aggregates(text, given, needs, said):
    """The text without the goals that are no longer asked: that a slice of an array is a slice."""
    if len(given) == len(needs):
        return text
    gone, k = [], 0
    for i, g in enumerate(given):
        asks = "κs" in g or g.endswith(("requires", "requires-2", "requires_2", "requires-3"))
        if k < len(needs) and not g.startswith(("slice-aggregate", "slice_aggregate")) and (not g.startswith("(") or asks == ("requires" in needs[k][0])):
            k += 1
        else:
            gone.append(i)
    if k != len(needs) or len(given) - len(gone) != len(needs):
        return text
    head, tail = text[:text.index("tie.spec")], text[text.index("tie.spec"):]
    at = len("tie.spec")
    skip = len(arguments(text)) - len(given)
    out = [tail[:at]]
    rest = tail[at:]
    for i, g in enumerate(arguments(text)):
        j = rest.index(g)
        if i - skip in gone:
            rest = rest[j + len(g):]
            said.append(f"dropped {g}")
        else:
            out.append(rest[:j + len(g)])
            rest = rest[j + len(g):]
    text = head + "".join(out) + rest
    for i in gone:
        g = given[i]
        if re.fullmatch(ID, g):
            text = re.sub(rf"(?m)^{re.escape(g)} : .*\n(?:unfolding .*\n)?(?:{re.escape(g)} .*\n(?: .*\n)*)+\n?", "", text)
    return text


def turn(path, it, fn, said, root):
    text = open(path, encoding="utf-8").read()
    text = re.sub(r"(?<=\.)type-inv(?![\w-])", "type_inv", text)
    words = set()
    for folder, _, names in os.walk(os.path.join(os.path.dirname(path.split("/proofs/")[0] + "/x"), "src")):
        for n in names:
            words |= set(re.findall(r"\b([a-z0-9]+(?:_[a-z0-9]+)+)\s*:", open(os.path.join(folder, n), encoding="utf-8").read()))
    for w in words:
        text = re.sub(rf"(?<=\.(?:args|initial)\.){w.replace('_', '-')}(?![\w-])|(?<=\.ranges\.){w.replace('_', '-')}(?![\w-])", w, text) if False else re.sub(rf"(\b(?:args|ranges|initial|loop|new)\.){w.replace('_', '-')}(?![\w-])", rf"\1{w}", text)
    if "tie.spec" not in text:
        said.append("no tie.spec")
        return
    places = Places(it, root)
    loops = {plain(a): b for (a, b), _ in it["loops"]}
    inv = 2 * len(it["loops"])
    text = without_aggregates(text, arguments(text)[inv:], it["needs"], said)
    args = arguments(text)
    needs = [n for n in it["needs"]]
    given = args[inv:] if len(args) >= inv else []
    # a measure of a recursion has no place in loops
    extra = len(given) - len(needs)
    if extra:
        said.append(f"{len(given)} arguments for {len(needs)} goals: {[a[:30] for a in given]} / {[n[0] for n in needs]}")
    local = {}
    at = {}
    if extra == 0:
        for a, (old, new), (old_place, new_place) in zip(given, needs, it["asked_at"]):
            if re.fullmatch(ID, a):
                local[a] = new
                at[a] = plain(old_place)
    inline = {}
    if extra == 0:
        for a, (old_place, new_place) in zip(given, it["asked_at"]):
            if a.startswith("("):
                inline[a] = plain(old_place)
    # helpers that lead from one place to another
    helpers, takes = {}, {}
    for m in re.finditer(rf"(?m)^ *(?:pub |abbrev )*({ID}) : (.*tie\.([A-Za-z0-9_-]+)[^→\n]*)$", text):
        if plain(m[3]) in places.new and "→" in m[2]:
            helpers[m[1]] = plain(m[3])
    for m in re.finditer(rf"(?m)^ *(?:pub |abbrev )*({ID}) : \(?(?:{ID} : )?tie\.([A-Za-z0-9_-]+)[^→\n]*→", text):
        if plain(m[2]) in places.new:
            takes[m[1]] = plain(m[2])
    # types of contexts and goals
    def kind(m):
        w = m[1]
        if w.startswith("Need-"):
            return "tie." + w
        for stem in ("invariant-", "decreases-", "invariant_", "decreases_"):
            if w.startswith(stem) and plain(w[len(stem):]) in loops:
                return "tie." + stem[:-1] + "-" + loops[plain(w[len(stem):])]
        if plain(w) in places.new:
            return "tie." + places.new[plain(w)]
        return "tie." + w

    parts = pieces(text)
    out = []
    for p in parts:
        known = {}
        # signatures in the piece give places to the variables of the clauses below them
        for m in re.finditer(rf"(?m)^( *)(?:pub |abbrev )*({ID}) :((?:[^\n]|\n\1 +(?!{ID} :))*)", p):
            ways = split_arrows(m[3])
            for k, w in enumerate(ways[:-1]):
                t = re.search(r"tie\.([A-Za-z0-9_-]+)", w)
                if t and plain(t[1]) in places.new:
                    b = re.match(rf"\(({ID}) :", w)
                    if b:
                        known[b[1]] = ("place", plain(t[1]))
                    c = re.search(rf"(?m)^{m[1]}{re.escape(m[2])}((?: (?:{ID}|\([^()]*\)|\{{[^}}]*\}}|_))*) =", p)
                    if c:
                        words = re.findall(rf"{ID}|\([^()]*\)|_", re.sub(r"\{[^}]*\}", "", c[1]))
                        if k < len(words) and re.fullmatch(ID, words[k]):
                            known[words[k]] = ("place", plain(t[1]))
        for m in re.finditer(rf"\(({ID}) : tie\.([A-Za-z0-9_-]+)", p):
            if plain(m[2]) in places.new:
                known[m[1]] = ("place", plain(m[2]))
        m = re.match(rf"(?:pub |abbrev )*({ID}) ", p)
        name = m[1] if m else None
        if name in at:
            c = re.match(rf"{re.escape(name)} ({ID})", p)
            if c:
                known[c[1]] = ("place", at[name])
        if name and name not in at:
            # a clause of a goal follows its signature as a piece of its own; one of a helper too
            sig = next((q for q in parts if re.match(rf"(?:pub |abbrev )*{re.escape(name)} :", q)), None)
            if sig:
                ways = split_arrows(re.sub(rf"^(?:pub |abbrev )*{re.escape(name)} :", "", sig))
                c = re.match(rf"{re.escape(name)}((?: (?:{ID}|\([^()]*\)|\{{[^}}]*\}}|_))*) =", p)
                if c:
                    words = re.findall(rf"{ID}|\([^()]*\)|_", re.sub(r"\{[^}]*\}", "", c[1]))
                    for k, w in enumerate(ways[:-1]):
                        t = re.search(r"tie\.([A-Za-z0-9_-]+)", w)
                        if t and plain(t[1]) in places.new and k < len(words) and re.fullmatch(ID, words[k]):
                            known[words[k]] = ("place", plain(t[1]))
        if "tie.close" in p:
            for a, place in inline.items():
                c = re.match(rf"\(λ ({ID})", a)
                if c and a in p:
                    p = p.replace(a, turn_body(places, a, {c[1]: ("place", place)}, said, helpers, takes), 1)
            new = p
        else:
            m = re.match(rf"({ID}) ({ID}) = ({ID})((?:\.before)+)\s*$", p)
            if m and m[1] in helpers and m[2] == m[3] and m[2] in known:
                ups, _ = to_place(places, known[m[2]][1], helpers[m[1]])
                new = p.replace(m[3] + m[4], ".".join([m[3]] + ups))
            else:
                new = turn_body(places, p, known, said, helpers, takes)
        out.append(new)
    text = "\n".join(out)
    text = re.sub(r"\btie\.([A-Za-z0-9_-]+)", kind, text)
    if extra == 0:
        for a, (old, new) in zip(given, needs):
            if re.fullmatch(ID, a):
                text = re.sub(rf"(?m)^{re.escape(a)} : tie\.Need-[A-Za-z0-9_-]+", f"{a} : tie.Need-{new}", text)
    for a, b in loops.items():
        for stem in ("invariant", "decreases"):
            for sep in ("-", "_"):
                for old in {a, a.replace("-", "_")}:
                    text = re.sub(rf"(?<![A-Za-z0-9_.'-]){stem}{sep}{re.escape(old)}(?![A-Za-z0-9_'-])", f"{stem}-{b}", text)
    # names of goals as today's
    for a, n in local.items():
        if a != n:
            text = re.sub(rf"(?<![A-Za-z0-9_.'-]){re.escape(a)}(?![A-Za-z0-9_'-])", "\0" + n, text)
    text = text.replace("\0", "")
    spec = fn.split(".")[-1] + "_spec"
    text = re.sub(r"(?m)^pub ([A-Za-z0-9_-]+[-_]spec) :", f"pub {spec} :", text)
    text = re.sub(r"(?m)^([A-Za-z0-9_-]+[-_]spec)( =|$)", rf"{spec}\2", text)
    open(path, "w", encoding="utf-8").write(text)


def main(argv):
    folder, names = argv
    it = json.load(open(names))
    crate = os.path.basename(os.path.abspath(folder))
    for key, value in it.items():
        m = re.fullmatch(rf"Rattle-{crate}-proofs\.(.*)\.Lts", key)
        if not m:
            continue
        path = os.path.join(folder, "proofs", *m[1].split("."), "Proof.antt")
        if not os.path.exists(path):
            continue
        said = []
        turn(path, value, m[1], said, os.path.dirname(os.path.abspath(folder)))
        for s in said:
            print(f"{m[1]}: {s}")
    return 0


if __name__ == "__main__":
    raise SystemExit(main(sys.argv[1:]))
