#!/usr/bin/env python3
"""Turns the texts of the must-fail edits from the older spelling to today's.

usage: turn_edits.py [--write] [--show] OLD NEW [EDIT..]

OLD is the commit before the spelling turned, NEW one after it (the text of the sources is taken from it). Each edit
that applies to its crate at OLD and not at NEW is turned: tokens by a table that is learned from the lines of src/ and
specs/ of both commits, the rest by the rules below. One whose `old` then stands once in today's file, on the line that
the old line became, is written (--write); the others are printed, with both lines. Lines that are neither `file:`,
`old:` nor `new:` are comments: only names that turn are turned in them.
"""
import collections
import difflib
import glob
import os
import re
import subprocess
import sys

TOKEN = re.compile(r"[A-Za-z][A-Za-z0-9_'₀-₉-]*|.", re.S)
WORD = re.compile(r"[A-Za-z][A-Za-z0-9_'₀-₉-]*")
OPERATOR = re.compile(r"(?<![A-Za-z0-9'_])_([^\sA-Za-z0-9_(){}.,;]+)_(?![A-Za-z0-9'_])")


def git(*words):
    return subprocess.run(["git", *words], stdout=subprocess.PIPE, check=True).stdout.decode()


def tree(commit):
    """Returns the texts of src/ and specs/ of each crate at a commit, by their path."""
    names = [n for n in git("ls-tree", "-r", "--name-only", commit, "crates/").split("\n") if re.search(r"/(src|specs)/.*\.(rt|antt)$", n)]
    ask = subprocess.run(["git", "cat-file", "--batch"], input="".join(f"{commit}:{n}\n" for n in names).encode(), stdout=subprocess.PIPE, check=True).stdout
    out, at = {}, 0
    for n in names:
        end = ask.index(b"\n", at)
        size = int(ask[at:end].split()[2])
        out[n] = ask[end + 1 : end + 1 + size].decode()
        at = end + 1 + size + 1
    return out


def ruled(text):
    """Turns what is no name."""
    text = text.replace("′", "'").replace("″", "''").replace("⌜ ", "").replace(" ⌝", "")
    text = re.sub(r"Rattle·(\w+)·specs\.specs\.", r"Rattle.\1.specs.", text)
    text = re.sub(r"Rattle·(\w+)\.specs\.", r"Rattle.\1.specs.", text)
    text = OPERATOR.sub(r"◌\1◌", text)
    text = re.sub(r"\(now \((\w+) \.entry\)\)", r"\1.now", text)
    text = re.sub(r"now \((\w+) \.entry\)", r"\1.now", text)
    text = re.sub(r"\(now (\w+)\)", r"\1.now", text)
    was = None
    while was != text:
        was = text
        text = re.sub(r"\(([A-Za-z][\w'.₀-₉]*) \.([A-Za-z][\w'-]*)\)", r"\1.\2", text)
    return re.sub(r"(?<![\w'.₀-₉-])([A-Za-z][\w'.₀-₉]*) \.(?=[A-Za-z])", r"\1.", text)


def learned(old, new):
    """Returns the table of names, and for each file which line became which."""
    votes = collections.defaultdict(collections.Counter)
    lines = {}

    def table():
        out = {}
        for a, c in votes.items():
            b, n = c.most_common(1)[0]
            if a != b and n * 2 > sum(c.values()):
                out[a] = b
        return out

    for turn in range(3):
        names = table()
        votes = collections.defaultdict(collections.Counter)
        for path in sorted(old.keys() & new.keys()):
            before, after = old[path].split("\n"), new[path].split("\n")
            a = [turned(line, names) for line in before]
            became = {}
            for kind, i, j, k, l in difflib.SequenceMatcher(None, a, after, autojunk=False).get_opcodes():
                if kind == "equal" or kind == "replace" and j - i == l - k:
                    became.update(zip(range(i, j), range(k, l)))
                elif kind == "replace":
                    # the closest line of the block, in order
                    low = k
                    for x in range(i, j):
                        near = [(difflib.SequenceMatcher(None, a[x], after[y]).ratio(), -y) for y in range(low, l)]
                        if near and max(near)[0] > 0.6:
                            became[x] = -max(near)[1]
                            low = became[x] + 1
            lines[path] = became
            for x, y in became.items():
                if re.match(r" *(ghost )?use ", before[x]):
                    continue
                s, t = TOKEN.findall(ruled(before[x])), TOKEN.findall(after[y])
                for kind, i, j, k, l in difflib.SequenceMatcher(None, s, t, autojunk=False).get_opcodes():
                    if kind in ("equal", "replace") and j - i == l - k:
                        for p, q in zip(s[i:j], t[k:l]):
                            if WORD.fullmatch(p) and WORD.fullmatch(q):
                                votes[p][q] += 1
    return table(), lines


def turned(text, names):
    return WORD.sub(lambda m: names.get(m[0], m[0]), ruled(text))


def parts(text):
    """Returns the lines of an edit as (kind, text), kind 'file', 'old', 'new' or ''."""
    out = []
    for line in text.split("\n"):
        m = re.match(r"(file|old): (.*)$|(new):(.*)$", line)
        if m and m[1]:
            out.append((m[1], m[2].strip() if m[1] == "file" else m[2]))
        elif m:
            out.append(("new", m[4][1:] if m[4].startswith(" ") else m[4]))
        else:
            out.append(("", line))
    return out


def applies(edit, texts, crate):
    """Returns why the edit doesn't apply to these texts, or None."""
    now, path, old = {}, None, None
    for kind, text in edit:
        if kind == "file":
            path = f"crates/{crate}/{text}"
        elif kind == "old":
            old = text
        elif kind == "new":
            if path not in texts:
                return f"no file {path}"
            it = now.get(path, texts[path])
            if it.count(old) != 1:
                return f"{it.count(old)} times: {old}"
            now[path] = it.replace(old, text)
    return None


def words_of_comment(text, names):
    """Turns in a comment only what is a name at sight: with a capital inside, a dash between or a dot before it."""
    return WORD.sub(lambda m: names.get(m[0], m[0]) if re.search(r"[a-z][A-Z]|[a-z]-[a-z]", m[0]) and m[0] in names else m[0], text)


def main(argv):
    write, show = "--write" in argv, "--show" in argv
    argv = [a for a in argv if not a.startswith("--")]
    old, new = tree(argv[0]), tree(argv[1])
    names, lines = learned(old, new)
    if show:
        for a, b in sorted(names.items()):
            print(a, b)
        return 0
    done, stays, left = 0, 0, 0
    for file in argv[2:] or sorted(glob.glob("crates/*/must-fail/*.edit")):
        crate = file.split("/")[1]
        with open(file, encoding="utf-8") as f:
            edit = parts(f.read())
        if applies(edit, old, crate):
            if not applies(edit, new, crate):
                stays += 1
                continue
            print(f"{file}: applies at neither commit: {applies(edit, new, crate)}\n")
            left += 1
            continue
        out, why, path, now, was, place = [], [], None, {}, {}, None
        for kind, text in edit:
            if kind == "":
                out.append(words_of_comment(text, names))
            elif kind == "file":
                path = f"crates/{crate}/{text}"
                out.append(f"file: {text}")
                now.setdefault(path, new.get(path, ""))
                was.setdefault(path, old[path])
            elif kind == "old":
                goal, asked = turned(text, names), text
                out.append(f"old: {goal}")
                here = was[path].count("\n", 0, was[path].index(text))
                there = lines.get(path, {}).get(here)
                before = was[path].split("\n")[here]
                after = now[path].split("\n")[there] if there is not None else None
                n = now[path].count(goal)
                if n != 1 or after is None or goal not in after:
                    why.append(f"  {n} times, line {here + 1} -> {None if there is None else there + 1}\n  old: {text}\n  now: {goal}\n  was: {before}\n  is:  {after}")
            elif kind == "new":
                fresh = turned(text, names)
                out.append(f"new: {fresh}" if fresh else "new:")
                now[path] = now[path].replace(goal, fresh)
                was[path] = was[path].replace(asked, text)
                if why:
                    why.append(f"  new: {text}\n  new: {fresh}")
        if why:
            left += 1
            print(f"{file}:\n" + "\n".join(why) + "\n")
        else:
            done += 1
            if write:
                with open(file, "w", encoding="utf-8") as f:
                    f.write("\n".join(out))
    print(f"{done} turned, {stays} stay, {left} left")
    return 0


if __name__ == "__main__":
    raise SystemExit(main(sys.argv[1:]))
