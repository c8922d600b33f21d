#!/usr/bin/env python3
"""Cards of published grammars: the .y files in source packages of Debian.

    published.py make FOLDER   fetches PACKAGES into FOLDER (what is there
                               already is kept) and writes grammars/published.txt
    published.py settle        writes grammars/settled.txt, see there
    published.py card FILE..   prints the cards of grammar files
    published.py fetch FOLDER PACKAGE..   fetches packages, prints their archives

Only the numbers of a grammar are kept, with its package, version and file.
Bison reads the file: actions inside a right side are nonterminals of Bison's,
`error` is a terminal like any other, declared precedences are left out, and
so are productions that Bison reports as useless. Terminals are numbered as
they come in the right sides, nonterminals by their first left side, the start
first. Files that Bison cannot read, cards outside the limits and cards seen
before are left out.
"""

import os
import re
import subprocess
import sys
import tarfile
import tempfile
import xml.etree.ElementTree as ElementTree

sys.dont_write_bytecode = True
import bison  # noqa: E402
import cards  # noqa: E402

PACKAGES = """
    byacc bison flex at augeas bash bc binutils busybox cdecl coreutils cproto cscope
    cuetools cvs fuse-emulator gettext ginac gmp graphviz groff heimdal iproute2 krb5
    libconfig libcue libmatheval libnl3 lp-solve mailfilter nethack openntpd opensmtpd pari
    pcc php8.2 rc rsyslog splint strongswan sudo thrift units
""".split()

SOURCES = """\
Types: deb-src
URIs: http://deb.debian.org/debian
Suites: bookworm
Components: main
Signed-By: /usr/share/keyrings/debian-archive-keyring.gpg
"""

PUBLISHED = """\
# Grammars of published programs as cards, made by published.py, which says how;
# `from` names the source package of Debian, its version and the file.
"""

SETTLED = """\
# The published grammars of 60 productions and more that have conflicts, made
# free of them: a production whose reduction meets another action gets a new
# terminal behind its right side, another one where the first does not do.
"""

GRAMMAR_FILE = re.compile(r"\.(y|yy|ypp|yxx)$")
GRAMMARS = os.path.join(cards.HERE, "grammars")


def read(path):
    """The grammar in a file, as Bison reads it; None where it cannot."""
    with tempfile.TemporaryDirectory() as folder:
        xml = os.path.join(folder, "g.xml")
        command = ["bison", "-Wnone", f"--xml={xml}",
                   "-o", os.path.join(folder, "g.c"), os.path.abspath(path)]
        # The report comes before the parser, which nobody wants: no m4 for it.
        subprocess.run(command, cwd=folder, env={**os.environ, "M4": "false"},
                       stdout=subprocess.DEVNULL, stderr=subprocess.DEVNULL)
        if not os.path.exists(xml):
            return None
        rules = ElementTree.parse(xml).getroot().findall("./grammar/rules/rule")
    productions = [(rule.find("lhs").text, [s.text for s in rule.findall("./rhs/symbol")])
                   for rule in rules if rule.get("usefulness") != "useless-in-grammar"]
    (_, (start, _)), productions = productions[0], productions[1:]
    return cards.of_productions(productions, start)


def usable(grammar):
    return grammar is not None and grammar.fits() and not grammar.useless()


def fetch(folder, packages):
    """Each package's name, version and source archives."""
    os.makedirs(os.path.join(folder, "apt", "lists", "partial"), exist_ok=True)
    apt = os.path.abspath(os.path.join(folder, "apt"))
    with open(os.path.join(apt, "source.sources"), "w") as file:
        file.write(SOURCES)
    options = ["-qq", "-o", "Dir::Etc::sourcelist=/dev/null", "-o", f"Dir::Etc::sourceparts={apt}",
               "-o", f"Dir::State::lists={apt}/lists", "-o", "APT::Sandbox::User=root"]
    subprocess.run(["apt-get", "update"] + options, check=True)
    for package in packages:
        command = ["apt-get", "source", "--tar-only", "--download-only", package]
        done = subprocess.run(command + options, cwd=folder, stdout=subprocess.DEVNULL,
                              stderr=subprocess.DEVNULL)
        uris = subprocess.run(["apt-get", "source", "--print-uris", package] + options,
                              capture_output=True, text=True).stdout
        names = [line.split()[1] for line in uris.splitlines() if line.startswith("'")]
        version = next((name[len(package) + 1:-4] for name in names if name.endswith(".dsc")), None)
        tars = [name for name in names if ".tar." in name and not name.endswith(".asc")
                and ".debian.tar." not in name and os.path.exists(os.path.join(folder, name))]
        if not tars:
            print(f"{package}: not fetched (status {done.returncode})", file=sys.stderr)
            continue
        yield package, version, [os.path.join(folder, name) for name in tars]


def grammar_files(archive):
    """The grammar files of a source archive, by path below its folder."""
    with tarfile.open(archive) as tar:
        for member in tar:
            if member.isfile() and GRAMMAR_FILE.search(member.name):
                name = member.name[2:] if member.name.startswith("./") else member.name
                yield name.split("/", 1)[-1], tar.extractfile(member).read()


def make(folder):
    found, seen, counts = {}, set(), {"unread": 0, "outside the limits": 0, "seen before": 0}
    for package, version, archives in fetch(folder, PACKAGES):
        for archive in archives:
            for path, text in sorted(grammar_files(archive)):
                with tempfile.TemporaryDirectory() as place:
                    copy = os.path.join(place, os.path.basename(path))
                    with open(copy, "wb") as file:
                        file.write(text)
                    grammar = read(copy)
                if not usable(grammar):
                    counts["unread" if grammar is None else "outside the limits"] += 1
                    continue
                numbers = grammar.card()
                if tuple(numbers) in seen:
                    counts["seen before"] += 1
                    continue
                seen.add(tuple(numbers))
                stem = GRAMMAR_FILE.sub("", os.path.basename(path))
                name = f"{package}-{stem}"
                if name in found:
                    name = f"{package}-" + GRAMMAR_FILE.sub("", path).replace("/", "-")
                assert name not in found, name
                found[name] = (f"{package} {version} {path}", numbers)
    write("published.txt", PUBLISHED, found)
    print(f"{len(found)} grammars; left out: "
          + ", ".join(f"{what} {count}" for what, count in counts.items()))


def write(file_name, head, found):
    with open(os.path.join(GRAMMARS, file_name), "w") as file:
        file.write(head)
        for name, (origin, numbers) in found.items():
            file.write(f"grammar {name}\nfrom {origin}\n{card_line(numbers)}\n")


def guarded(grammar, guards):
    """The grammar with new terminals behind its right sides, 0 for none."""
    t, new = grammar.terminals, max(guards)
    moved = lambda s: s if s < t else s + new
    return cards.Grammar(t + new, grammar.nonterminals,
                         [(moved(left), [moved(s) for s in right] + ([t - 1 + guard] if guard else []))
                          for (left, right), guard in zip(grammar.productions, guards)])


def settled(grammar, folder):
    """The grammar without conflicts; None where the limits do not allow it."""
    guards = [0] * len(grammar.productions)
    while True:
        other = guarded(grammar, guards)
        if not other.fits():
            return None
        words = bison.answer(other, bison.report(other, folder))[0].split()
        if words[0] == "table":
            return other
        if words[1] != "13":
            return None
        low, high = int(words[4]), int(words[5])
        guards[(low if high == 4096 else high) - 1024] += 1


def settle():
    found = {}
    with tempfile.TemporaryDirectory() as folder:
        for name, grammar in cards.listed("published.txt").items():
            if len(grammar.productions) < 60:
                continue
            other = settled(grammar, folder)
            if other is None:
                print(f"{name}: not within the limits")
            elif other.card() != grammar.card():
                found[name + "-settled"] = (name, other.card())
                print(f"{name}: {other.length() - grammar.length()} productions changed, "
                      f"{other.terminals - grammar.terminals} new terminals")
    write("settled.txt", SETTLED, found)


def card_line(numbers):
    return "card " + " ".join(map(str, numbers))


def main():
    if len(sys.argv) == 3 and sys.argv[1] == "make":
        make(sys.argv[2])
    elif sys.argv[1:] == ["settle"]:
        settle()
    elif len(sys.argv) > 2 and sys.argv[1] == "card":
        for path in sys.argv[2:]:
            grammar = read(path)
            print(f"grammar {path}")
            print(card_line(grammar.card()) if usable(grammar) else "no card")
    elif len(sys.argv) > 3 and sys.argv[1] == "fetch":
        for _, _, archives in fetch(sys.argv[2], sys.argv[3:]):
            print("\n".join(archives))
    else:
        sys.exit(__doc__)


if __name__ == "__main__":
    main()
