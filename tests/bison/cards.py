"""The cards that are compared with Bison: those of grammars/, written there
as productions, and random ones drawn with a fixed seed."""

import os

LIMITS = (64, 60, 128, 512)  # T, N, P, L
HERE = os.path.dirname(os.path.abspath(__file__))


class Grammar:
    """Terminals are 1 to T-1, nonterminals T to T+N-1, productions pairs."""

    def __init__(self, terminals, nonterminals, productions):
        self.terminals = terminals
        self.nonterminals = nonterminals
        self.productions = productions

    def symbols(self):
        return self.terminals + self.nonterminals

    def length(self):
        return sum(len(right) for _, right in self.productions)

    def fits(self):
        sizes = (self.terminals, self.nonterminals, len(self.productions), self.length())
        return all(size <= limit for size, limit in zip(sizes, LIMITS)) and self.productions

    def card(self):
        sizes = [self.terminals, self.nonterminals, len(self.productions), self.length()]
        lefts = [left for left, _ in self.productions]
        lengths = [len(right) for _, right in self.productions]
        return sizes + lefts + lengths + [s for _, right in self.productions for s in right]

    def useless(self):
        """Some nonterminal is not reachable or not productive."""
        productive = set(range(self.terminals))
        reachable = {self.terminals}
        for _ in range(self.nonterminals):
            for left, right in self.productions:
                if all(s in productive for s in right):
                    productive.add(left)
                if left in reachable:
                    reachable.update(right)
        return any(s not in productive or s not in reachable
                   for s in range(self.terminals, self.symbols()))


def of_card(numbers):
    t, n, p, _ = numbers[:4]
    lefts, lengths, symbols = numbers[4:4 + p], numbers[4 + p:4 + 2 * p], numbers[4 + 2 * p:]
    productions, at = [], 0
    for left, length in zip(lefts, lengths):
        productions.append((left, symbols[at:at + length]))
        at += length
    return Grammar(t, n, productions)


def of_lines(lines):
    """Lines `left : symbols | symbols`; what is no left side is a terminal, and
    the first left side is the start."""
    productions = []
    for line in lines:
        left, _, rights = line.partition(":")
        for right in rights.split("|"):
            productions.append((left.strip(), right.split()))
    return of_productions(productions, productions[0][0])


def of_productions(productions, start):
    """Symbols are numbered as they come, terminals in right sides and
    nonterminals on left sides, the start first."""
    nonterminals, terminals = [start], []
    for left, _ in productions:
        if left not in nonterminals:
            nonterminals.append(left)
    for _, right in productions:
        for word in right:
            if word not in nonterminals and word not in terminals:
                terminals.append(word)
    t = 1 + len(terminals)
    number = {word: 1 + at for at, word in enumerate(terminals)}
    number.update({word: t + at for at, word in enumerate(nonterminals)})
    return Grammar(t, len(nonterminals), [(number[left], [number[word] for word in right])
                                          for left, right in productions])


def written(file_name):
    """The grammars of a file by name."""
    found, name = {}, None
    with open(os.path.join(HERE, "grammars", file_name)) as file:
        for line in file:
            line = "" if line.startswith("#") else line.rstrip()
            if line.startswith("grammar "):
                name = line.split()[1]
                assert name not in found, name
                found[name] = []
            elif line.strip():
                if line.lstrip().startswith("|"):
                    found[name][-1] += " " + line.strip()
                else:
                    found[name].append(line)
    return {name: of_lines(lines) for name, lines in found.items()}


def listed(file_name):
    """The grammars of a file of cards by name."""
    found, name = {}, None
    with open(os.path.join(HERE, "grammars", file_name)) as file:
        for line in file:
            words = line.split()
            if words[0] == "grammar":
                name = words[1]
                assert name not in found, name
            elif words[0] == "card":
                found[name] = of_card([int(word) for word in words[1:]])
    return found


class Random:
    """Splitmix, so that the cards are the same everywhere."""

    def __init__(self, seed):
        self.state = seed

    def next(self):
        mask = (1 << 64) - 1
        self.state = (self.state + 0x9e3779b97f4a7c15) & mask
        z = self.state
        z = ((z ^ (z >> 30)) * 0xbf58476d1ce4e5b9) & mask
        z = ((z ^ (z >> 27)) * 0x94d049bb133111eb) & mask
        return z ^ (z >> 31)

    def below(self, bound):
        return self.next() % bound

    def between(self, low, high):
        return low + self.below(high - low + 1)

    def chance(self, percent):
        return self.below(100) < percent

    def pick(self, items):
        return items[self.below(len(items))]


def drawn(random, t, n, p, empty, unit, guarded, longest):
    """A grammar of the given sizes; percentages of empty and unit productions
    and of right sides that begin with a terminal."""
    productions = []
    for number in range(p):
        left = t + (number if number < n else random.below(n))
        if random.chance(empty):
            right = []
        elif random.chance(unit):
            right = [t + random.below(n)]
        else:
            right = [random.between(1, t + n - 1) for _ in range(random.between(1, longest))]
            if random.chance(guarded):
                right[0] = random.between(1, t - 1)
        productions.append((left, right))
    return Grammar(t, n, productions)


def small(random):
    """Small grammars with empty, unit and cyclic productions."""
    while True:
        n = random.between(1, 6)
        grammar = drawn(random, random.between(2, 8), n, random.between(n, n + 6),
                        random.pick([0, 10, 25, 40]), random.pick([0, 10, 25, 40]),
                        random.pick([0, 50, 80]), random.between(1, 4))
        if not grammar.useless():
            return grammar


def guarded(random):
    """Small grammars, most of them without conflicts: each right side of a
    nonterminal begins with a terminal of its own, or is empty or a unit."""
    while True:
        t, n = random.between(4, 9), random.between(2, 7)
        free = [list(range(1, t)) for _ in range(n)]
        productions = []
        for number in range(random.between(n, n + 7)):
            i = number if number < n else random.below(n)
            if not free[i]:
                continue
            right = [free[i].pop(random.below(len(free[i])))]
            right += [random.between(1, t + n - 1) for _ in range(random.below(4))]
            if random.chance(15):
                right = []
            elif random.chance(15):
                right[0] = t + random.below(n)
            productions.append((t + i, right))
        grammar = Grammar(t, n, productions)
        if not grammar.useless():
            return grammar


def changed(random, grammar):
    """A grammar with one production changed."""
    while True:
        productions = [(left, list(right)) for left, right in grammar.productions]
        at = random.below(len(productions))
        left, right = productions[at]
        kind = random.below(4)
        if kind == 0 and len(productions) > 1:
            del productions[at]
        elif kind == 1:
            right.insert(random.below(len(right) + 1), random.between(1, grammar.symbols() - 1))
        elif kind == 2 and right:
            del right[random.below(len(right))]
        elif kind == 3 and right:
            right[random.below(len(right))] = random.between(1, grammar.symbols() - 1)
        other = Grammar(grammar.terminals, grammar.nonterminals, productions)
        if not other.useless() and other.fits():
            return other


def large(random):
    """Every production of a nonterminal begins with a terminal of its own; the
    nonterminals hang together by the first n productions."""
    while True:
        t, n = random.between(40, 64), random.between(30, 60)
        p = random.between(n + 10, 128)
        free = [list(range(1, t)) for _ in range(n)]
        productions = []
        for number in range(p):
            i = number if number < n else random.below(n)
            guard = free[i].pop(random.below(len(free[i])))
            right = [guard]
            if number < n - 1:
                right.append(t + number + 1)
            for _ in range(random.between(0, 2)):
                if random.chance(40):
                    right.append(t + random.between(i, n - 1))
                else:
                    right.append(random.between(1, t - 1))
            if number >= n and random.chance(4):
                right = []
            productions.append((t + i, right))
        last = productions[n - 1][1]
        del last[1:]
        grammar = Grammar(t, n, productions)
        if grammar.fits() and not grammar.useless():
            return grammar


def one(length):
    return Grammar(2, 1, [(2, [1] * length)])


def chain(n, entered):
    """A chain of unit productions, entered by contexts at the given places."""
    t = len(entered) + 2
    productions = [(t + i, [t + i + 1]) for i in range(n - 1)]
    productions += [(t + n - 1, [at + 1, t + i]) for at, i in enumerate(entered)]
    productions.append((t + n - 1, [t - 1]))
    return Grammar(t, n, productions)


def shapes():
    """Grammars at the limits."""
    found = {"one-production-254": one(254), "one-production-255": one(255),
             "one-production-512": one(512)}
    found["transitions-2048"] = chain(60, [0] * 33 + [52])
    found["transitions-2049"] = chain(60, [0] * 33 + [51])
    found["transitions-2100"] = chain(60, [0] * 34)
    for n in (10, 30, 59):
        found[f"levels-{n}"] = levels(n)
    for n in (5, 20, 58):
        found[f"nullable-row-{n}"] = row(n)
    for n in (5, 20, 60):
        found[f"cycle-of-includes-{n}"] = cycle(n)
    for times, n in ((2, 3), (2, 8), (2, 59), (10, 20), (3, 45)):
        found[f"each-{times}-of-the-next-{n}"] = times_next(times, n)
    found["reads-27-32-41"] = many_reads(27, 32, 41)
    found["reads-20-40-62"] = many_reads(20, 40, 62)
    found["includes-59-32"] = many_includes(59, 32, 4)
    found["includes-30-40"] = many_includes(30, 40, 4)
    found["includes-12-60"] = many_includes(12, 60, 4)
    found["includes-clash-20-34"] = many_includes_clash(20, 34, 4)
    found["includes-clash-32-30"] = many_includes_clash(32, 30, 5)
    for n in (3, 5, 6, 7):
        found[f"subsets-{n}"] = subsets(n)
    found["cycle-of-reads"] = cycle_of_reads(19, 20)
    found["nullable-cycle-30"] = nullable_cycle(30)
    found["states-before-transitions"] = too_much_of_both()
    found["transitions-before-conflict"] = twin_chain()
    found["all-limits"] = full()
    found["one-bit"] = one_bit()
    found["all-bits"] = all_bits()
    found["prefix-60-3-10"] = prefix(60, 3, 10)
    for length, times in ((254, 1), (254, 2), (4, 127)):
        found[f"same-nullable-{length}-{times}"] = same_nullable(length, times)
    found["chain-backwards-60"] = backwards(60, 33)
    for length, times in ((250, 2), (125, 4), (60, 8), (30, 16)):
        found[f"sliding-{length}-{times}"] = sliding(length, times)
    return found


def levels(n):
    """Binary operators of n - 1 levels, and parentheses."""
    t = n + 3
    productions = []
    for level in range(n - 1):
        left = t + level
        productions += [(left, [left, level + 1, left + 1]), (left, [left + 1])]
    productions += [(t + n - 1, [n, t, n + 1]), (t + n - 1, [n + 2])]
    return Grammar(t, n, productions)


def row(n):
    """S is a row of nullable nonterminals, each with a terminal of its own."""
    t = n + 1
    productions = [(t, [t + 1 + i for i in range(n)])]
    for i in range(n):
        productions += [(t + 1 + i, []), (t + 1 + i, [1 + i])]
    return Grammar(t, n + 1, productions)


def cycle(n):
    """Right recursion all around: each nonterminal ends with the next."""
    t = n + 2
    productions = [(t + i, [1 + i, t + (i + 1) % n]) for i in range(n)]
    productions.append((t, [n + 1]))
    return Grammar(t, n, productions)


def times_next(times, n):
    """Each nonterminal is so many of the next; the last one is empty."""
    t = 3
    productions = [(t + i, [t + i + 1] * times) for i in range(n)]
    return Grammar(t, n + 1, productions + [(t + n, [])])


def many_reads(a, b, contexts):
    """Chains A1 -> A2 B1, .. and B1 -> B2, .., the last B empty: behind each A
    of each context all Bs are read."""
    t, first_b = contexts + 2, contexts + 2 + a
    productions = [(t + i, [t + i + 1, first_b]) for i in range(a - 1)]
    productions += [(t + a - 1, [1 + at, t]) for at in range(contexts)]
    productions.append((t + a - 1, [t - 1]))
    productions += [(first_b + i, [first_b + i + 1]) for i in range(b - 1)]
    return Grammar(t, a + b, productions + [(first_b + b - 1, [])])


def many_includes(a, contexts, tails):
    """A chain A1 -> A2 B B .., B empty: each B behind an A is included from all
    contexts."""
    t = contexts + 2
    last = t + a
    productions = [(t + i, [t + i + 1] + [last] * (tails if i % 4 == 0 else 0))
                   for i in range(a - 1)]
    productions += [(t + a - 1, [1 + at, t]) for at in range(contexts)]
    return Grammar(t, a + 1, productions + [(t + a - 1, [t - 1]), (last, [])])


def many_includes_clash(a, contexts, length):
    """As many symbols as are allowed, all at the end of right sides as far as
    nullable ones follow; ends in a conflict."""
    t = contexts + 2
    last = t + a
    productions = [(t + a - 1, [1 + at, t]) for at in range(contexts)]
    productions += [(t + a - 1, [t - 1]), (last, [])]
    left = LIMITS[3] - 2 * contexts - 1
    for distance in range(1, a):
        for i in range(a - distance):
            if len(productions) < LIMITS[2] and left >= length:
                productions.append((t + i, [t + i + distance] + [last] * (length - 1)))
                left -= length
    return Grammar(t, a + 1, productions)


def subsets(n):
    """Grammars whose LR(0) sets are as many as the subsets of n symbols."""
    t = 2 * n + 1
    a, b = (lambda i: t + 1 + i), (lambda i: t + 1 + n + i)
    productions = [(t, [a(i), 1 + i]) for i in range(n)]
    for i in range(n):
        productions += [(a(i), [1 + j, a(i)]) for j in range(n) if j != i]
        productions += [(a(i), [1 + i, b(i)]), (a(i), [1 + n + i])]
        productions += [(b(i), [1 + j, b(i)]) for j in range(n)]
        productions += [(b(i), [1 + n + i])]
    return Grammar(t, 2 * n + 1, productions)


def cycle_of_reads(n, contexts):
    """Nullable nonterminals that read one another around; ends in a conflict."""
    t = contexts + 1
    start, first = t, t + 1
    productions = [(start, [1 + at, first, first]) for at in range(contexts)]
    for i in range(n):
        other = first + (i + 1) % n
        productions += [(first + i, [other, other]), (first + i, [])]
    return Grammar(t, n + 1, productions)


def nullable_cycle(n):
    """Unit productions all around, each nonterminal nullable."""
    t = 3
    productions = [(t, [1, t + 1, 2])]
    for i in range(n):
        productions += [(t + 1 + i, [t + 1 + (i + 1) % n])]
    return Grammar(t, n + 1, productions + [(t + n, [])])


def too_much_of_both():
    """More than 256 states and more than 2,048 nonterminal transitions."""
    grammar = chain(60, [0] * 40)
    grammar.productions.append((grammar.terminals + 59, [1] + [2] * 200))
    return grammar


def twin_chain():
    """More than 2,048 nonterminal transitions, and a conflict."""
    grammar = chain(60, [0] * 34)
    grammar.productions.append(grammar.productions[-1])
    return grammar


def full():
    """T 64, N 60, P 128, L 512 and 256 states at once. No two right sides of a
    nonterminal share a beginning but those of the last one, and each state has
    transitions on terminals or on one nonterminal; so there is a state for each
    beginning of a right side, and two more."""
    t, n = 64, 60
    productions = []
    for i in range(n - 1):
        productions.append((t + i, [1 + i % 63, t + i + 1]))
        other = 1 + (i + 1) % 63
        if i < 11:
            productions.append((t + i, [other, t + 58 - i, 63 - i, 62]))
        elif i < 25:
            productions.append((t + i, [other, t + 58 - i, 63 - i]))
    for last in range(20, 64):
        productions.append((t + n - 1, [63, 1, 62, 2, 61, 3, last]))
    return Grammar(t, n, productions)


def one_bit():
    """For each terminal a state with just that lookahead."""
    productions = [(64, [m, 65, m]) for m in range(1, 64)]
    return Grammar(64, 2, productions + [(65, [])])


def all_bits():
    """A reduction on all 64 terminals."""
    productions = [(64, [65, m]) for m in range(1, 64)]
    return Grammar(64, 2, productions + [(64, [65]), (65, [1])])


def prefix(n, operands, units):
    """Operators in front of their operands, and a leaf; behind so many unit
    productions. Nearly every state has transitions on all terminals."""
    t = n + 2
    productions = [(t + i, [t + i + 1]) for i in range(units - 1)]
    productions += [(t + units - 1, [1 + m] + [t] * operands) for m in range(n)]
    return Grammar(t, units, productions + [(t + units - 1, [t - 1])])


def same_nullable(length, times):
    """Productions alike: a row of one and the same empty nonterminal."""
    return Grammar(1, 2, [(1, [2] * length)] * times + [(2, [])])


def backwards(n, contexts):
    """A chain of unit productions, each before the one that leads to it."""
    t = contexts + 2
    productions = [(t, [t + n - 1])]
    productions += [(t + 1, [1 + at, t]) for at in range(contexts)] + [(t + 1, [t - 1])]
    return Grammar(t, n, productions + [(t + i, [t + i - 1]) for i in range(2, n)])


def sliding(length, times):
    """Productions alike, a row of one empty nonterminal B, that begin at any
    place of a row of Bs; ends in a conflict."""
    start, row, b = 1, 2, 3
    productions = [(start, [b, start]), (start, [row])]
    return Grammar(1, 3, productions + [(row, [b] * length)] * times + [(b, [])])


def all_cards():
    """All cards by family and name, in order."""
    small_ones, languages = written("small.txt"), written("languages.txt")
    random = Random(1)
    grammars = {**small_ones, **languages}
    change = lambda at, name: (f"changed-{at}-{name}", changed(random, grammars[name]))
    families = {
        "small": small_ones,
        "languages": languages,
        "random": {f"random-{at}": small(random) for at in range(110)},
        "guarded": {f"guarded-{at}": guarded(random) for at in range(60)},
        "changed": dict(change(at, random.pick(list(grammars))) for at in range(60)),
        "shapes": shapes(),
        "slow": listed("slow.txt"),
        "published": listed("published.txt"),
        "settled": listed("settled.txt"),
        "large": {f"large-{at}": large(random) for at in range(30)},
    }
    return {family: {name: grammar.card() for name, grammar in members.items()}
            for family, members in families.items()}
