#!/usr/bin/env python3
"""A second body of the commands, slow and plain, and a comparison of the program's `synthesize` with it.

    checks/second.py compare crates/regions/out/regions [SYSTEMS [SEED]]
    checks/second.py answer pure examples/side.apt
    checks/second.py factor examples/side.apt [CLASS]
    checks/second.py split examples/side.apt [system]
    checks/second.py isomorphic examples/side.apt examples/side.apt
    checks/second.py examine examples/side.apt [json]
    checks/second.py cases 1 1000 > crates/worked_runs/data/random.cases
    checks/second.py cases 2 400 marking > crates/worked_runs/data/random_marking.cases
    checks/second.py cases 3 600 further > crates/worked_runs/data/random_further.cases

It is written from docs/dev/algorithm.md, docs/theory.md and docs/formats.md alone: fractions of any size, a problem at a time, each kept place asked, each
dictionary made anew. `compare` makes random systems (2,000 unless a number is named) of up to 6 states and 4 labels, runs the program with 1,
2 and 7 jobs for a random class, and compares status and bytes; it prints each difference, and at last `N systems, M differences`. Where
the second body forms a number out of 127 bits it has no answer, and stops. It is run by hand and is no test. `cases SEED N`
prints N random cases of `synthesize`, `verify`, `check` and `convert`, in all three forms, for `worked_runs`, with what the second
body expects: nets and certificates of `synthesize`; what `verify` says of those certificates as they are, with a first multiplier
below zero, and cut after a line; what `check` says of those nets as they are and with a number changed; systems in another form.
A class of theirs asks no marking, or with the word `marking` each asks one; a third of those of `compare` do. With the word `further`
the cases are of `factor` (random systems and random products), `split` (systems with forks and without), `isomorphic` (a system compared with
another, and with itself with states and labels in another order, as it is or with an arc changed) and `examine`.
"""
import itertools
import json
import os
import random
import subprocess
import sys
import tempfile
from fractions import Fraction
from math import gcd, lcm, prod

LARGEST = 2 ** 127 - 1


class Class:
    def __init__(self, word):
        words = word.split(',')
        self.pure, self.plain, self.nonbranching = 'pure' in words, 'plain' in words, 'output-nonbranching' in words
        bounds = [1 if w == 'safe' else int(w[:-len('-bounded')]) for w in words if w == 'safe' or w.endswith('-bounded')]
        self.bound = bounds[0] if bounds else None
        self.marking = next((int(w[:-len('-marking')]) for w in words if w.endswith('-marking')), None)
        self.has_start = self.pure or self.plain or self.bound is not None
        self.moves = self.bound is None and (self.plain or not self.pure)

    def text(self):
        bound = [] if self.bound is None else ['safe' if self.bound == 1 else f'{self.bound}-bounded']
        marking = [] if self.marking is None else [f'{self.marking}-marking']
        words = ['pure'] * self.pure + ['plain'] * self.plain + bound + marking + ['output-nonbranching'] * self.nonbranching
        return ','.join(words) or 'none'


class System:
    """States and labels by name, the first state is the initial one; arcs by numbers, in order."""
    def __init__(self, states, labels, arcs):
        self.states, self.labels, self.arcs = states, labels, sorted(arcs)
        self.initial = 0
        self.targets = {}
        for s, t, r in self.arcs:
            self.targets.setdefault((s, t), r)

    def text(self):
        lines = ['.type LTS', '.states', self.states[0] + '[initial]', *self.states[1:], '.labels', *self.labels, '.arcs']
        return '\n'.join([*lines, *(f'{self.states[s]} {self.labels[t]} {self.states[r]}' for s, t, r in self.arcs)]) + '\n'

    def with_label(self, t):
        return [s for s in range(len(self.states)) if (s, t) in self.targets]

    def used(self):
        return [t for t in range(len(self.labels)) if any(a[1] == t for a in self.arcs)]


# ---- relations over a free set: variable -> (constant, {member: coefficient})

class Dictionary:
    def __init__(self, columns, rows):
        self.columns = columns
        self.members = list(range(columns))
        self.relations = {columns + i: (Fraction(row[-1]), {j: Fraction(z) for j, z in enumerate(row[:-1]) if z})
                          for i, row in enumerate(rows)}

    def exchange(self, i, j):
        constant, terms = self.relations.pop(i)
        factor = 1 / terms[j]
        new = (-constant * factor, {m: -z * factor for m, z in terms.items() if m != j})
        new[1][i] = factor
        self.relations[j] = new
        self.members = sorted([m for m in self.members if m != j] + [i])
        for w, (c, old) in list(self.relations.items()):
            if w != j and j in old:
                times = old[j]
                sums = {m: z for m, z in old.items() if m != j}
                for m, z in new[1].items():
                    sums[m] = sums.get(m, 0) + times * z
                self.relations[w] = (c + times * new[0], {m: z for m, z in sums.items() if z})
        for w, (c, old) in self.relations.items():
            scale = lcm(c.denominator, *(z.denominator for z in old.values()))
            fits(scale, c * scale, *(z * scale for z in old.values()))

    def value(self, v):
        return Fraction(0) if v in self.members else self.relations[v][0]


class OutOfRange(Exception):
    pass


def fits(*numbers):
    if any(abs(z) > LARGEST for z in numbers):
        raise OutOfRange


def descend(table, fixed, count):
    """None at a point, else the multipliers of a refutation, by row."""
    for i in range(count):
        v = table.columns + i
        if v in table.members or table.relations[v][0] >= 0:
            continue
        constant, terms = table.relations[v]
        free = [m for m in sorted(terms) if m not in fixed]
        if not free:
            scale = lcm(constant.denominator, *(z.denominator for z in terms.values()))
            return {i: scale, **{z - table.columns: int(-terms[z] * scale) for z in terms}}
        table.exchange(v, free[0])
        found = descend(table, fixed | {v}, i)
        if found is not None:
            return found
    return None


def branch(columns, rows, forms, above=()):
    """A point and its set, or a tree: ('split', form, at, low, high) or ('leaf', above, multipliers)."""
    split_rows = []
    for number, at, high in above:
        scale, coeffs = forms[number][:2]
        split_rows.append([*coeffs, -scale * at - scale] if high else [*(-z for z in coeffs), scale * at])
    table = Dictionary(columns, rows + split_rows)
    multipliers = descend(table, frozenset(), len(rows) + len(split_rows))
    if multipliers is not None:
        return None, ('leaf', above, multipliers)
    point = [table.value(j) for j in range(columns)]
    for number, (scale, coeffs, _) in enumerate(forms):
        value = sum(z * x for z, x in zip(coeffs, point)) / Fraction(scale)
        if value.denominator != 1:
            at = value.numerator // value.denominator
            found, low = branch(columns, rows, forms, (*above, (number, at, False)))
            if found is not None:
                return found, None
            found, high = branch(columns, rows, forms, (*above, (number, at, True)))
            if found is not None:
                return found, None
            return None, ('split', number, at, low, high)
    return point, None


# ---- what all problems of a system share

class Setting:
    def __init__(self, system, class_):
        self.system, self.class_ = system, class_
        count = len(system.labels)
        self.ways = {system.initial: [0] * count}
        self.order, self.tree = [system.initial], []
        for s in self.order:
            for a in (a for a in system.arcs if a[0] == s):
                if a[2] not in self.ways:
                    self.ways[a[2]] = [n + (t == a[1]) for t, n in enumerate(self.ways[s])]
                    self.order.append(a[2])
                    self.tree.append(a)
        self.chords = [a for a in system.arcs if a not in self.tree]
        vector = lambda a: [n + (t == a[1]) - m for t, (n, m) in enumerate(zip(self.ways[a[0]], self.ways[a[2]]))]
        vectors, self.places = [], []
        for k, a in enumerate(self.chords):
            v = vector(a)
            if any(v) and v not in vectors:
                vectors.append(v)
                self.places.append(k)
        self.walk = Dictionary(count, [[*v, 0] for v in vectors])
        for i in range(len(vectors)):
            labels = [m for m in sorted(self.walk.relations[count + i][1]) if m < count]
            if labels:
                self.walk.exchange(count + i, labels[0])
        self.free = [t for t in self.walk.members if t < count]
        self.dependent = [t for t in range(count) if t not in self.free]
        self.columns = [t for t in self.free if t in system.used()]
        self.common = [(name, self.row(self.expression(None, 0, name))) for name in self.common_names()]
        self.forms = self.make_forms()

    def common_names(self):
        states, used, c = range(len(self.system.states)), self.system.used(), self.class_
        names = [('tokens', q) for q in states] if c.has_start else []
        names += [('cap', q) for q in states] if c.bound is not None else []
        names += [('up', t) for t in used] + [('down', t) for t in used] if c.plain else []
        return names + ([('makes', t) for t in used] if c.nonbranching else [])

    def own_names(self, problem):
        kind, s, t = problem
        if kind == 'states':
            return [('apart',)]
        if self.class_.pure:
            return [('block',)]
        if self.class_.plain:
            return [('empty',), *(('full', q) for q in self.system.with_label(t)), ('keep',)]
        return [('stop', q) for q in self.system.with_label(t)]

    def expression(self, problem, case, name):
        """Terms over tokens ('M', state) and effects ('E', label), and a constant."""
        word, *of = name
        q = of[0] if of else None
        _, s, t = problem or (None, None, None)
        if word == 'apart':
            high, low = (t, s) if case // self.consumers() == 0 else (s, t)
            return [(1, 'M', high), (-1, 'M', low)], -1
        return {
            'tokens': lambda: ([(1, 'M', q)], 0),
            'cap': lambda: ([(-1, 'M', q)], self.class_.bound),
            'up': lambda: ([(-1, 'E', q)], 1),
            'down': lambda: ([(1, 'E', q)], 1),
            'makes': lambda: ([(1, 'E', q)], 0),
            'stop': lambda: ([(1, 'M', q), (-1, 'M', s)], -1),
            'block': lambda: ([(-1, 'M', s), (-1, 'E', t)], -1),
            'empty': lambda: ([(-1, 'M', s)], 0),
            'full': lambda: ([(1, 'M', q)], -1),
            'keep': lambda: ([(-1, 'E', t)], 0),
        }[word]()

    def consumers(self):
        return len(self.system.labels) if self.class_.nonbranching else 1

    def over_columns(self, terms):
        start, counts = 0, [0] * len(self.system.labels)
        for n, kind, of in terms:
            if kind == 'M':
                start += n
                counts = [c + n * w for c, w in zip(counts, self.ways[of])]
            else:
                counts[of] += n
        entry = lambda f: counts[f] + sum(counts[t] * self.walk.relations[t][1].get(f, 0) for t in self.dependent)
        return ([Fraction(start)] if self.class_.has_start else []) + [Fraction(entry(f)) for f in self.columns]

    def row(self, expression):
        """Coefficients and constant, without common divisor, and the factor."""
        terms, constant = expression
        numbers = self.over_columns(terms)
        multiple = lcm(*(z.denominator for z in numbers)) if numbers else 1
        whole = [int(z * multiple) for z in numbers] + [constant * multiple]
        divisor = gcd(*whole) or 1
        fits(*whole)
        return [z // divisor for z in whole], Fraction(multiple, divisor)

    def make_forms(self):
        c = self.class_
        if c.bound is not None:
            over = [('M', q) for q in range(len(self.system.states))]
        elif c.plain:
            over = [('E', t) for t in self.system.used()]
        else:
            over = []
        forms = []
        for kind, of in over:
            numbers = self.over_columns([(1, kind, of)])
            scale = lcm(*(z.denominator for z in numbers)) if numbers else 1
            forms.append((scale, [int(z * scale) for z in numbers], (kind, of)))
        return forms

    def forms_of(self, problem):
        """What has to be whole in the cases of a problem: the start comes last, divided by the marking, which is its scale."""
        c = self.class_
        if c.marking is None or c.bound is None and not (c.plain and problem[0] == 'event'):
            return self.forms
        return [*self.forms, (c.marking, [1] + [0] * len(self.columns), ('start', None))]

    # ---- a case of a problem

    def case(self, problem, number):
        consumer = problem[2] if problem[0] == 'event' else number % self.consumers() if self.class_.nonbranching else None
        named = [(name, self.row(self.expression(problem, number, name))) for name in self.own_names(problem)]
        named += [(name, row) for name, row in self.common if name != ('makes', consumer)]
        kept, rows = [], []
        for name, (row, factor) in named:
            if (any(row[:-1]) or row[-1] < 0) and row not in rows:
                rows.append(row)
                kept.append((name, factor))
        columns = len(self.columns) + self.class_.has_start
        forms = self.forms_of(problem)
        point, tree = branch(columns, rows, forms)
        if point is not None:
            return self.place(problem, point), None
        return None, self.nodes(problem, number, kept, forms, tree)

    def place(self, problem, point):
        c, system = self.class_, self.system
        start = point[0] if c.has_start else Fraction(0)
        value = dict(zip(self.columns, point[c.has_start:]))
        def effect(t):
            if t not in system.used():
                return Fraction(0)
            if t in self.free:
                return value[t]
            return sum((value[f] * self.walk.relations[t][1].get(f, 0) for f in self.columns), Fraction(0))
        effects = [effect(t) for t in range(len(system.labels))] + [start]
        if not c.plain and c.bound is None:
            multiple = lcm(*(z.denominator for z in effects)) * (c.marking or 1)
            effects = [z * multiple for z in effects]
        tokens = {system.initial: effects[-1]}
        for s, t, r in self.tree:
            tokens[r] = tokens[s] + effects[t]
        if c.moves:
            least = min(tokens.values())
            tokens = {s: m - least for s, m in tokens.items()}
        if c.marking is not None and c.plain and c.bound is None and problem[0] == 'states':
            missing = -tokens[system.initial] % c.marking
            tokens = {s: m + missing for s, m in tokens.items()}
        takes = [max(Fraction(0), -e) for e in effects[:-1]]
        if problem[0] == 'event':
            t = problem[2]
            takes[t] = -effects[t] if c.pure else Fraction(1) if c.plain else min(tokens[s] for s in system.with_label(t))
        puts = [a + e for a, e in zip(takes, effects)]
        whole = [*takes, *puts, *tokens.values()]
        assert all(z.denominator == 1 and z >= 0 for z in whole) and tokens[system.initial] % (c.marking or 1) == 0
        fits(*whole)
        return [int(tokens[s]) for s in range(len(system.states))], [int(z) for z in takes], [int(z) for z in puts]

    # ---- certificates

    def split_line(self, kind, of, at):
        if kind == 'start':
            return f'split start {at}'
        return f'split tokens {self.system.states[of]} {at}' if kind == 'M' else f'split effect {self.system.labels[of]} {at}'

    def nodes(self, problem, number, kept, forms, tree):
        if tree[0] == 'split':
            _, form, at, low, high = tree
            line = self.split_line(*forms[form][2], at)
            return [line, *self.nodes(problem, number, kept, forms, low), *self.nodes(problem, number, kept, forms, high)]
        _, above, multipliers = tree
        rows = []
        for i in sorted(multipliers):
            if not multipliers[i]:
                continue
            if i < len(kept):
                name, factor = kept[i]
                rows.append((name, multipliers[i] * factor, self.expression(problem, number, name)[0]))
            else:
                form, at, high = above[i - len(kept)]
                scale, _, (kind, of) = forms[form]
                if kind == 'start':
                    scale, kind, of = 1, 'M', self.system.initial
                rows.append((('above', i - len(kept)), multipliers[i] * Fraction(scale), [(1 if high else -1, kind, of)]))
        return ['leaf', *self.leaf(rows)]

    def leaf(self, rows):
        count = len(self.system.labels)
        chords = {}
        for place, k in enumerate(self.places):
            v = count + place
            if v not in self.walk.members:
                continue
            total = Fraction(0)
            for _, multiplier, terms in rows:
                counts = [0] * count
                for n, kind, of in terms:
                    counts = [c + n * (self.ways[of][t] if kind == 'M' else t == of) for t, c in enumerate(counts)]
                total += sum((multiplier * counts[t] * self.walk.relations[t][1].get(v, 0) for t in self.dependent), Fraction(0))
            chords[self.chords[k]] = -total
        numbers = [m for _, m, _ in rows] + list(chords.values())
        scale = lcm(*(z.denominator for z in numbers)) if numbers else 1
        named = [m * scale for _, m, _ in rows]
        arcs = {a: z * scale for a, z in chords.items()}
        for a in reversed(self.tree):
            into = a[2]
            total = sum((m * n for m, (_, _, terms) in zip(named, rows) for n, kind, of in terms if (kind, of) == ('M', into)), Fraction(0))
            total += sum((z * ((b[0] == into) - (b[2] == into)) for b, z in arcs.items()), Fraction(0))
            arcs[a] = total
        divisor = gcd(*(int(z) for z in [*named, *arcs.values()])) or 1
        s, t = self.system.states, self.system.labels
        lines = []
        for (name, _, _), m in zip(rows, named):
            word, *of = name
            shown = [] if not of else [str(of[0])] if word == 'above' else [t[of[0]] if word in ('up', 'down', 'makes') else s[of[0]]]
            lines.append(' '.join([str(int(m) // divisor), word, *shown]))
        for a in self.system.arcs:
            if arcs.get(a):
                lines.append(f'{int(arcs[a]) // divisor} arc {s[a[0]]} {t[a[1]]} {s[a[2]]}')
        return lines

    # ---- problems

    def solve(self, problem):
        """A place, or the lines of its cases."""
        kind, s, t = problem
        if kind == 'event' and not self.system.with_label(t):
            labels = range(len(self.system.labels))
            return ([0] * len(self.system.states), [int(u == t) for u in labels], [0 for _ in labels]), None
        lines = []
        for number in range(1 if kind == 'event' else 2 * self.consumers()):
            place, nodes = self.case(problem, number)
            if place is not None:
                return place, None
            lines += ['case', *nodes]
        return None, lines


def separates(place, problem):
    tokens, takes, _ = place
    kind, s, t = problem
    return tokens[s] < takes[t] if kind == 'event' else tokens[s] != tokens[t]


def problems(system):
    states = range(len(system.states))
    for s in states:
        yield from (('event', s, t) for t in range(len(system.labels)) if (s, t) not in system.targets)
    yield from (('states', s, r) for s, r in itertools.combinations(states, 2))


def pruned(system, places):
    left = list(places)
    for place in reversed(places):
        others = [p for p in left if p is not place]
        if all(any(separates(p, problem) for p in others) for problem in problems(system)):
            left = others
    return left


def net_text(system, places):
    digits = lambda name, prefix: name.startswith(prefix) and name[len(prefix):].isascii() and name[len(prefix):].isdigit()
    prefix = next(p for p in ['p', *(f'p{i}_' for i in range(1, 257))] if not any(digits(t, p) for t in system.labels))
    members = lambda weights: '{' + ', '.join(f'{prefix}{i}' if w == 1 else f'{w}*{prefix}{i}' for i, w in enumerate(weights) if w) + '}'
    lines = ['.type PN', '.places', *(f'{prefix}{i}' for i in range(len(places))), '.transitions', *system.labels, '.flows']
    for t, name in enumerate(system.labels):
        lines.append(f'{name}: {members([p[1][t] for p in places])} -> {members([p[2][t] for p in places])}')
    return '\n'.join([*lines, '.initial_marking ' + members([p[0][system.initial] for p in places])]) + '\n'


def cert_text(class_, reason):
    version = 1 if class_.marking is None else 2
    return '\n'.join([f'certificate {version}', f'class {class_.text()}', *reason, 'end']) + '\n'


def answer_early(system):
    """The first state that isn't reached, else the first fork; None where there is neither."""
    s, t = system.states, system.labels
    reached = [system.initial]
    for q in reached:
        reached += [r for r in dict.fromkeys(a[2] for a in system.arcs if a[0] == q) if r not in reached]
    for q in range(len(s)):
        if q not in reached:
            return f'unreachable {s[q]}'
    for a, b in zip(system.arcs, system.arcs[1:]):
        if a[:2] == b[:2]:
            return f'fork {s[a[0]]} {t[a[1]]} {s[a[2]]} {s[b[2]]}'
    return None


def answer(system, word):
    """Status and text."""
    class_ = Class(word)
    s, t = system.states, system.labels
    early = answer_early(system)
    if early is not None:
        return 1, cert_text(class_, [early])
    setting, kept = Setting(system, class_), []
    for problem in problems(system):
        if any(separates(p, problem) for p in kept):
            continue
        place, lines = setting.solve(problem)
        if place is None:
            kind, a, b = problem
            return 1, cert_text(class_, [f'event {s[a]} {t[b]}' if kind == 'event' else f'states {s[a]} {s[b]}', *lines])
        kept.append(place)
    return 0, net_text(system, pruned(system, kept))


# ---- random systems

def random_system(rng):
    """States that are mostly reached, arcs that mostly don't fork."""
    states, labels = rng.randint(1, 6), rng.randint(0, 4)
    arcs = set()
    if labels:
        for r in range(1, states):
            if rng.random() < 0.97:
                arcs.add((rng.randrange(r), rng.randrange(labels), r))
        for _ in range(rng.randint(0, 5)):
            arcs.add((rng.randrange(states), rng.randrange(labels), rng.randrange(states)))
    if rng.random() < 0.97:
        arcs = {(s, t, min(r for a, b, r in arcs if (a, b) == (s, t))) for s, t, _ in arcs}
    return System([f's{i}' for i in range(states)], list('abcd')[:labels], arcs)


def net_system(rng):
    """The states that a small random net reaches, where they are at most 6."""
    labels, places = rng.randint(1, 4), rng.randint(1, 3)
    takes = [[rng.choice((0, 0, 1, 2)) for _ in range(places)] for _ in range(labels)]
    puts = [[rng.choice((0, 0, 1, 2)) for _ in range(places)] for _ in range(labels)]
    seen, arcs = [tuple(rng.randint(0, 3) for _ in range(places))], []
    for i, marking in enumerate(seen):
        for t in range(labels):
            if all(m >= w for m, w in zip(marking, takes[t])):
                to = tuple(m - w + z for m, w, z in zip(marking, takes[t], puts[t]))
                if to not in seen:
                    seen.append(to)
                arcs.append((i, t, seen.index(to)))
        if len(seen) > 6:
            return None
    return System([f's{i}' for i in range(len(seen))], list('abcd')[:labels], arcs)


def random_class(rng):
    words = [w for w in ('pure', 'plain', 'output-nonbranching') if rng.random() < 0.35]
    words += rng.choice(([], [], ['safe'], ['2-bounded'], ['3-bounded']))
    return ','.join(words) or 'none'


def marked_class(rng):
    """A random class that asks a marking."""
    words = [w for w in random_class(rng).split(',') if w != 'none'] + [f'{rng.choice((1, 2, 2, 3, 4, 6))}-marking']
    rng.shuffle(words)
    return ','.join(words)


def compare(program, count, seed):
    rng, differences, made = random.Random(seed), 0, 0
    with tempfile.TemporaryDirectory() as folder:
        path = os.path.join(folder, 'system.apt')
        while made < count:
            system = random_system(rng) if rng.random() < 0.5 else net_system(rng)
            if system is None:
                continue
            made += 1
            word = marked_class(rng) if rng.random() < 1 / 3 else random_class(rng)
            with open(path, 'w') as file:
                file.write(system.text())
            second = answer(system, word)
            for jobs in ('1', '2', '7'):
                ran = subprocess.run([program, 'synthesize', word, path, '--jobs', jobs], capture_output=True)
                first = ran.returncode, ran.stdout.decode()
                if first != second:
                    differences += 1
                    print(f'class {word}, {jobs} jobs:\n{system.text()}\nthe program:\n{first[0]}\n{first[1]}\nthe second body:\n{second[0]}\n{second[1]}')
    print(f'{made} systems, {differences} differences')
    return differences == 0


# ---- other forms of a system

def graph_text(system):
    """The text of a state graph; None where it can't hold the system."""
    s, t = system.states, system.labels
    on_arcs = {q for a in system.arcs for q in (a[0], a[2])}
    if len(system.used()) < len(t) or len(s) > 1 and len(on_arcs) < len(s):
        return None
    lines = ['.model lts', ' '.join(['.outputs', *t]), '.state graph', *(f'{s[q]} {t[u]} {s[r]}' for q, u, r in system.arcs)]
    return '\n'.join([*lines, '.marking {' + s[system.initial] + '}', '.end']) + '\n'


def loss(system):
    """What a state graph can't hold."""
    for t, name in enumerate(system.labels):
        if t not in system.used():
            return f'no: label {name} has no arc\n'
    on_arcs = {q for a in system.arcs for q in (a[0], a[2])}
    return next(f'no: state {name} has no arc\n' for q, name in enumerate(system.states) if q not in on_arcs)


def as_read_from_graph(system):
    """The system with states and labels in the order in which arcs name them; the first state need not be the initial one."""
    states = list(dict.fromkeys(q for a in system.arcs for q in (a[0], a[2]))) or [system.initial]
    labels = list(dict.fromkeys(a[1] for a in system.arcs))
    arcs = [(states.index(q), labels.index(t), states.index(r)) for q, t, r in system.arcs]
    read = System([system.states[q] for q in states], [system.labels[t] for t in labels], arcs)
    read.initial = states.index(system.initial)
    return read


def as_read_from_words(words):
    """The tree of the prefixes of words, each a list of labels."""
    prefixes, labels = [()], []
    for word in words:
        labels += [t for t in dict.fromkeys(word) if t not in labels]
        prefixes += [p for k in range(len(word)) if (p := tuple(word[:k + 1])) not in prefixes]
    arcs = [(prefixes.index(p[:-1]), labels.index(p[-1]), i) for i, p in enumerate(prefixes) if p]
    return System([f's{i}' for i in range(len(prefixes))], labels, arcs)


def system_text(system):
    """The text of a system whose initial state may be any."""
    lines = ['.type LTS', '.states', *(q + '[initial]' * (i == system.initial) for i, q in enumerate(system.states)), '.labels', *system.labels, '.arcs']
    return '\n'.join([*lines, *(f'{system.states[s]} {system.labels[t]} {system.states[r]}' for s, t, r in system.arcs)]) + '\n'


# ---- the judge of nets

def places_of(system, net):
    """The places of a net's text as it is written here: start number, takes and puts by label."""
    lines = net.split('\n')
    names = lines[lines.index('.places') + 1:lines.index('.transitions')]

    def members(text):
        weights = [0] * len(names)
        for member in filter(None, text.strip('{} ').split(', ')):
            weight, _, name = member.rpartition('*')
            weights[names.index(name)] += int(weight or 1)
        return weights
    flows = [line.split(': ', 1)[1].split(' -> ') for line in lines[lines.index('.flows') + 1:-2]]
    start = members(lines[-2].removeprefix('.initial_marking '))
    takes, puts = [members(f[0]) for f in flows], [members(f[1]) for f in flows]
    return [(start[p], [takes[t][p] for t in range(len(flows))], [puts[t][p] for t in range(len(flows))]) for p in range(len(names))]


def judged(system, word, places):
    """What `check` says."""
    s, labels, class_ = system.states, system.labels, Class(word)
    early = answer_early(system)
    if early is not None:
        return f'no: {early}\n'
    enabled = lambda m, t: all(k >= p[1][t] for k, p in zip(m, places))
    fired = lambda m, t: [k - p[1][t] + p[2][t] for k, p in zip(m, places)]
    markings, order = {system.initial: [p[0] for p in places]}, [system.initial]
    for q in order:
        for _, t, r in (a for a in system.arcs if a[0] == q):
            if r not in markings:
                if not enabled(markings[q], t):
                    return f'no: not enabled {s[q]} {labels[t]}\n'
                markings[r] = fired(markings[q], t)
                order.append(r)
    for q, r in itertools.combinations(range(len(s)), 2):
        if markings[q] == markings[r]:
            return f'no: same marking {s[q]} {s[r]}\n'
    for q in range(len(s)):
        for t, name in enumerate(labels):
            target = system.targets.get((q, t))
            if target is None and enabled(markings[q], t):
                return f'no: enabled {s[q]} {name}\n'
            if target is not None and not enabled(markings[q], t):
                return f'no: not enabled {s[q]} {name}\n'
            if target is not None and fired(markings[q], t) != markings[target]:
                return f'no: wrong step {s[q]} {name}\n'
    for p, (_, takes, puts) in enumerate(places):
        for t, name in enumerate(labels):
            if class_.pure and takes[t] and puts[t]:
                return f'no: not pure place {p} {name}\n'
        for t, name in enumerate(labels):
            if class_.plain and max(takes[t], puts[t]) > 1:
                return f'no: not plain place {p} {name}\n'
        for q in range(len(s)):
            if class_.bound is not None and markings[q][p] > class_.bound:
                return f'no: over place {p} {s[q]}\n'
        takers = [name for t, name in enumerate(labels) if takes[t]]
        if class_.nonbranching and len(takers) > 1:
            return f'no: branching place {p} {takers[0]} {takers[1]}\n'
        if class_.marking is not None and places[p][0] % class_.marking:
            return f'no: not multiple place {p}\n'
    return 'yes\n'


# ---- products

def squares_are_broken(system, s, t, u):
    """Whether the square of two labels is broken at a state."""
    target = system.targets.get
    a, b = target((s, t)), target((s, u))
    if a is not None and b is not None:
        end = target((a, u))
        return end is None or target((b, t)) != end
    if a is not None:
        return (a, u) in system.targets
    return b is not None and (b, t) in system.targets


def blocks_of(system):
    """The blocks of labels by their least label, and the broken squares that join labels not joined before."""
    block, joining = list(range(len(system.labels))), []
    for s in range(len(system.states)):
        for t, u in itertools.combinations(range(len(system.labels)), 2):
            if squares_are_broken(system, s, t, u) and block[t] != block[u]:
                joining.append((s, t, u))
                block = [block[t] if b == block[u] else b for b in block]
    return [[t for t, b in enumerate(block) if b == name] for name in dict.fromkeys(block)], joining


def factor_of(system, labels):
    """The factor over these labels, and the numbers of its states."""
    reached = [system.initial]
    for q in reached:
        reached += [r for r in dict.fromkeys(a[2] for a in system.arcs if a[0] == q and a[1] in labels) if r not in reached]
    states = sorted(reached)
    arcs = [(states.index(s), labels.index(t), states.index(r)) for s, t, r in system.arcs if s in reached and t in labels]
    factor = System([system.states[q] for q in states], [system.labels[t] for t in labels], arcs)
    factor.initial = states.index(system.initial)
    return factor, states


def entries_of(system, blocks, factors):
    """For each state the numbers of its entries, one a factor."""
    entries, order = {system.initial: [f.initial for f, _ in factors]}, [system.initial]
    for s in order:
        for _, t, r in (a for a in system.arcs if a[0] == s and a[2] not in entries):
            i = next(i for i, labels in enumerate(blocks) if t in labels)
            to = factors[i][0].targets[entries[s][i], blocks[i].index(t)]
            entries[r] = entries[s][:i] + [to] + entries[s][i + 1:]
            order.append(r)
    return [entries[s] for s in range(len(system.states))]


def factored(system, word):
    """Status and text of `factor`, with a class or with None."""
    early = answer_early(system)
    if early is not None:
        return 1, f'no: {early}\n'
    s, names = system.states, system.labels
    blocks, joining = blocks_of(system)
    if len(blocks) < 2:
        return 1, 'no: one block\n' + ''.join(f'broken {s[q]} {names[t]} {names[u]}\n' for q, t, u in joining)
    factors = [factor_of(system, labels) for labels in blocks]
    sizes = [len(states) for _, states in factors]
    if prod(sizes) != len(s):
        return 1, f'no: sizes {" ".join(map(str, sizes))} for {len(s)} states\n'
    if word is not None:
        return beside(system, blocks, factors, word)
    lines = [f'factors {len(factors)}']
    lines += [' '.join([f'factor {i}: labels', *f.labels, 'states', *f.states]) for i, (f, _) in enumerate(factors)]
    for q, entries in enumerate(entries_of(system, blocks, factors)):
        lines.append(f'{s[q]}: ' + ' '.join(f.states[k] for (f, _), k in zip(factors, entries)))
    return 0, '\n'.join(lines) + '\n'


def beside(system, blocks, factors, word):
    """The nets of the factors side by side, or why the first factor without one has none."""
    places, count = [], len(system.labels)
    for i, (labels, (factor, _)) in enumerate(zip(blocks, factors)):
        status, text = answer(factor, word)
        if status == 1:
            return 1, f'no: factor {i} unsolvable\n' + text
        widened = lambda weights: [weights[labels.index(t)] if t in labels else 0 for t in range(count)]
        places += [({system.initial: start}, widened(takes), widened(puts)) for start, takes, puts in places_of(factor, text)]
    return 0, net_text(system, places)


# ---- labels split

def moved_arcs(system):
    """The label that a round splits, and its arcs that get the new one; None where the system has a net, which is the second answer."""
    for a, b in zip(system.arcs, system.arcs[1:]):
        if a[:2] == b[:2]:
            return (a[1], [b]), None
    status, text = answer(system, 'none')
    if status == 0:
        return None, text
    counted = {}
    for line in text.split('\ncase\n')[1].split('\n'):
        if ' arc ' in line:
            multiplier, _, s, t, r = line.split()
            arc = system.states.index(s), system.labels.index(t), system.states.index(r)
            counted[arc] = counted.get(arc, 0) + int(multiplier)
    label = min(a[1] for a, n in counted.items() if n)
    return (label, [a for a, n in counted.items() if n > 0 and a[1] == label]), None


def split(system, as_system):
    """Status and text of `split`."""
    early = answer_early(system)
    if early is not None and early.startswith('unreachable'):
        return 1, f'no: {early}\n'
    names, old = list(system.labels), list(range(len(system.labels)))
    while (found := moved_arcs(system))[0] is not None:
        label, moved = found[0]
        if len(system.labels) == 256:
            return 1, 'no: more than 256 labels\n'
        new = next(name for n in itertools.count(2) if (name := f'{names[old[label]][:250]}_{n}') not in system.labels)
        arcs = [(s, len(old), r) if (s, t, r) in moved else (s, t, r) for s, t, r in system.arcs]
        initial = system.initial
        system, old = System(system.states, [*system.labels, new], arcs), [*old, old[label]]
        system.initial = initial
    if as_system:
        return 0, system_text(system)
    lines = found[1].replace('.type PN', '.type LPN', 1).split('\n')
    at = lines.index('.transitions') + 1
    lines[at:at + len(old)] = [f'{name}[label="{names[t]}"]' for name, t in zip(system.labels, old)]
    return 0, '\n'.join(lines)


# ---- two systems compared, and what a system is like

def isomorphic(a, b):
    """Status and text of `isomorphic`."""
    for number, system in ((1, a), (2, b)):
        early = answer_early(system)
        if early is not None:
            return 1, f'no: file {number}: {early}\n'
    for number, system, other in ((1, a, b), (2, b, a)):
        for name in system.labels:
            if name not in other.labels:
                return 1, f'no: label file {number} {name}\n'
    image, order = {a.initial: b.initial}, [a.initial]
    for s in order:
        for t, name in enumerate(a.labels):
            r, q = a.targets.get((s, t)), b.targets.get((image[s], b.labels.index(name)))
            if r is None and q is None:
                continue
            if q is None:
                return 1, f'no: step file 1 {a.states[s]} {name}\n'
            if r is None:
                return 1, f'no: step file 2 {b.states[image[s]]} {name}\n'
            if r in image and image[r] != q or r not in image and q in image.values():
                return 1, f'no: target {a.states[s]} {name}\n'
            if r not in image:
                image[r] = q
                order.append(r)
    return 0, 'yes\n' + ''.join(f'{name} {b.states[image[s]]}\n' for s, name in enumerate(a.states))


def reached_from(system, start):
    reached = [start]
    for q in reached:
        reached += [r for r in dict.fromkeys(a[2] for a in system.arcs if a[0] == q) if r not in reached]
    return reached


def examined(system, as_json):
    """The text of `examine`."""
    s, names, arcs = system.states, system.labels, system.arcs
    reached = reached_from(system, system.initial)
    unreached = next(([s[q]] for q in range(len(s)) if q not in reached), True)
    fork = next(([s[a[0]], names[a[1]], s[a[2]], s[b[2]]] for a, b in zip(arcs, arcs[1:]) if a[:2] == b[:2]), True)
    lost = sorted((a[0], a[1], b[1], a[2]) for a in arcs for b in arcs
                  if a[0] == b[0] and a[1] != b[1] and not any(c[:2] == (a[2], b[1]) for c in arcs))
    lost = [s[lost[0][0]], names[lost[0][1]], names[lost[0][2]], s[lost[0][3]]] if lost else True
    gone = next(([s[q]] for q in sorted(reached) if system.initial not in reached_from(system, q)), True)
    told = [('reachable', unreached), ('deterministic', fork), ('persistent', lost), ('reversible', gone)]
    counts = [('states', len(s)), ('labels', len(names)), ('arcs', len(arcs))]
    if as_json:
        return json.dumps(dict(counts + told), separators=(',', ':'), sort_keys=True) + '\n'
    return ''.join(f'{name} {n}\n' for name, n in counts) + ''.join(f'{name} {"yes" if t is True else "no " + " ".join(t)}\n' for name, t in told)


# ---- cases of whole runs

def told(name, words, files, status, text):
    """A case in the form of files of cases. Each text ends with a line feed."""
    piece = lambda data: ['| ' + line if line else '|' for line in data.split('\n')[:-1]]
    lines = ['case ' + name, 'words ' + ' '.join(words)]
    for file, data in files.items():
        lines += ['file ' + file, *piece(data)]
    return '\n'.join([*lines, f'status {status}', *(['out', *piece(text)] if text else [])]) + '\n'


def random_words(rng):
    return [[rng.choice('abc') for _ in range(rng.randint(0, 4))] for _ in range(rng.randint(1, 3))]


def in_a_form(rng, system):
    """A system as it is read, the text of it, and the words that name its form."""
    kind = rng.random()
    if kind < 0.25:
        words = random_words(rng)
        return as_read_from_words(words), ''.join(' '.join(w) + '\n' for w in words), ['--from', 'words']
    if kind < 0.55 and graph_text(system) is not None:
        return as_read_from_graph(system), graph_text(system), ['--from=graph']
    return system, system.text(), []


def changed_certificate(rng, certificate):
    """A certificate with a change, and what is said of it."""
    lines = certificate.split('\n')[:-1]
    rows = [i for i, line in enumerate(lines) if line[:1].isdigit() and ' arc ' not in line]
    if rows and rng.random() < 0.5:
        i = rows[0]
        nodes = [k for k, line in enumerate(lines[:i]) if line == 'case' or line == 'leaf' or line.startswith('split')]
        last = max(k for k in nodes if lines[k] == 'case')
        if sum(lines[k] == 'case' for k in nodes) == 1:
            return '\n'.join(lines[:i] + ['-' + lines[i]] + lines[i + 1:]) + '\n', f'refused: case 0 node {sum(k > last for k in nodes) - 1}: not positive\n'
    kept = rng.randrange(len(lines))
    return ''.join(line + '\n' for line in lines[:kept]), f'refused: line {kept + 1}: expected form\n'


def changed_net(rng, system, net):
    """The text of a net with a number changed."""
    places = places_of(system, net)
    if not places:
        return net
    start, takes, puts = rng.choice(places)
    whose = rng.choice([takes, puts])
    if rng.random() < 0.3 or not whose:
        places[places.index((start, takes, puts))] = (start + 1, takes, puts)
    else:
        t = rng.randrange(len(whose))
        whose[t] = max(0, whose[t] + rng.choice([1, -1, 2]))
    return net_text(system, [({system.initial: start}, takes, puts) for start, takes, puts in places])


def random_case(rng, number, a_class):
    """A case over classes that `a_class` makes; None where no system was made."""
    system = random_system(rng) if rng.random() < 0.5 else net_system(rng)
    if system is None:
        return None
    system, text, form = in_a_form(rng, system)
    word, what = a_class(rng), rng.random()
    if what < 0.15:
        target = rng.choice(['apt', 'graph'])
        out = system_text(system) if target == 'apt' else graph_text(system)
        status = 0 if out is not None else 1
        return told(f'{number}: convert', ['convert', target, 'f', *form], {'f': text}, status, loss(system) if out is None else out)
    status, out = answer(system, word)
    if what < 0.5:
        jobs = rng.choice([[], [], ['--jobs', '2'], ['--jobs=7']])
        return told(f'{number}: synthesize', ['synthesize', word, 'f', *form, *jobs], {'f': text}, status, out)
    if status == 1:
        changed, line = (out, f'accepted: no net of class {Class(word).text()}\n') if rng.random() < 0.5 else changed_certificate(rng, out)
        return told(f'{number}: verify', ['verify', 'f', 'c', *form], {'f': text, 'c': changed}, int(changed != out), line)
    net = out if rng.random() < 0.3 else changed_net(rng, system, out)
    word = word if rng.random() < 0.5 else a_class(rng)
    line = judged(system, word, places_of(system, net))
    return told(f'{number}: check', ['check', word, 'f', 'n', *form], {'f': text, 'n': net}, int(line != 'yes\n'), line)


def product_of(rng, parts):
    """The product of systems with labels of their own, its states in a random order."""
    names, labels = [], []
    tuples = list(itertools.product(*(range(len(p.states)) for p in parts)))
    rng.shuffle(tuples)
    named = [(i, t) for i, p in enumerate(parts) for t in range(len(p.labels))]
    rng.shuffle(named)
    labels = [f'{"uvw"[i]}{t}' for i, t in named]
    names = ['_'.join(f'{"pqr"[i]}{k}' for i, k in enumerate(entries)) for entries in tuples]
    arcs = [(n, named.index((i, t)), tuples.index(entries[:i] + (r,) + entries[i + 1:]))
            for n, entries in enumerate(tuples) for i, p in enumerate(parts) for s, t, r in p.arcs if entries[i] == s]
    system = System(names, labels, arcs)
    system.initial = tuples.index(tuple(p.initial for p in parts))
    return system


def judged_system(rng):
    """A random system without an unreachable state or a fork, of at most four states."""
    while True:
        system = random_system(rng) if rng.random() < 0.5 else net_system(rng)
        if system is not None and len(system.states) <= 4 and answer_early(system) is None:
            return system


def renamed(rng, system):
    """The system with other names of states, and with states and labels in another order."""
    states, labels = list(range(len(system.states))), list(range(len(system.labels)))
    rng.shuffle(states)
    rng.shuffle(labels)
    arcs = [(states.index(s), labels.index(t), states.index(r)) for s, t, r in system.arcs]
    made = System([f'z{i}' for i in range(len(states))], [system.labels[t] for t in labels], arcs)
    made.initial = states.index(system.initial)
    return made


def with_a_change(rng, system):
    """The system with one arc that leads elsewhere, has another label, or is gone."""
    arcs = list(system.arcs)
    if not arcs:
        return system
    s, t, r = arcs.pop(rng.randrange(len(arcs)))
    what = rng.random()
    if what < 0.5:
        arcs.append((s, t, rng.randrange(len(system.states))))
    elif what < 0.8:
        arcs.append((s, rng.randrange(len(system.labels)), r))
    changed = System(system.states, system.labels, set(arcs))
    changed.initial = system.initial
    return changed


def forked(rng):
    """A random system with some forks."""
    system = random_system(rng)
    arcs = set(system.arcs)
    for s, t, _ in system.arcs:
        if rng.random() < 0.2:
            arcs.add((s, t, rng.randrange(len(system.states))))
    return System(system.states, system.labels, arcs)


def read_again(system):
    return system, system_text(system), []


def is_passed_over(rng, *systems):
    """Four of five systems that aren't reached whole are passed over, so that most cases say more."""
    return any((answer_early(s) or '').startswith('unreachable') for s in systems) and rng.random() < 0.8


def factor_case(rng, number):
    what = rng.random()
    if what < 0.6:
        system, text, form = read_again(product_of(rng, [judged_system(rng) for _ in range(rng.choice((2, 2, 3)))]))
        if len(system.states) > 24:
            return None
    else:
        system, text, form = in_a_form(rng, random_system(rng))
    if is_passed_over(rng, system):
        return None
    word = random_class(rng) if rng.random() < 0.6 else None
    status, out = factored(system, word)
    jobs = rng.choice([[], [], ['--jobs', '3']])
    asked = [] if word is None else rng.choice([['--class', word], ['--class=' + word]])
    return told(f'{number}: factor', ['factor', 'f', *form, *asked, *jobs], {'f': text}, status, out)


def split_case(rng, number):
    system, text, form = in_a_form(rng, forked(rng) if rng.random() < 0.5 else random_system(rng))
    if is_passed_over(rng, system):
        return None
    as_system = rng.random() < 0.5
    status, out = split(system, as_system)
    jobs = rng.choice([[], [], ['--jobs', '2']])
    return told(f'{number}: split', ['split', 'f', *form, *['--system'] * as_system, *jobs], {'f': text}, status, out)


def isomorphic_case(rng, number):
    system, text, form = in_a_form(rng, random_system(rng) if rng.random() < 0.5 else judged_system(rng))
    what = rng.random()
    other = random_system(rng) if what < 0.15 else renamed(rng, system if what < 0.45 else with_a_change(rng, system))
    second, data, second_form = (other, graph_text(other), ['--from2=graph']) if what < 0.3 and graph_text(other) else read_again(other)
    second = as_read_from_graph(second) if second_form else second
    if is_passed_over(rng, system, second):
        return None
    status, out = isomorphic(system, second)
    return told(f'{number}: isomorphic', ['isomorphic', 'f', 'g', *form, *second_form], {'f': text, 'g': data}, status, out)


def examine_case(rng, number):
    system, text, form = in_a_form(rng, forked(rng) if rng.random() < 0.3 else random_system(rng) if rng.random() < 0.5 else judged_system(rng))
    as_json = rng.random() < 0.5
    return told(f'{number}: examine', ['examine', 'f', *form, *['--json'] * as_json], {'f': text}, 0, examined(system, as_json))


def further_case(rng, number):
    return rng.choice((factor_case, split_case, isomorphic_case, examine_case))(rng, number)


def cases(seed, count, kind):
    rng, made = random.Random(seed), 0
    of = {'': '', 'marking': ', over classes with a marking', 'further': ' of factor, split, isomorphic and examine'}[kind]
    print(f'# {count} random cases{of if kind == "further" else ""} of seed {seed}{of if kind == "marking" else ""}, which checks/second.py has written.')
    while made < count:
        try:
            if kind == 'further':
                case = further_case(rng, made + 1)
            else:
                case = random_case(rng, made + 1, marked_class if kind == 'marking' else random_class)
        except OutOfRange:
            continue
        if case is not None:
            made += 1
            print('\n' + case, end='')


def read(path):
    with open(path) as file:
        lines = [line.strip() for line in file]
    states, labels, arcs = (lines.index(section) for section in ('.states', '.labels', '.arcs'))
    names, words = [line.removesuffix('[initial]') for line in lines[states + 1:labels]], lines[labels + 1:arcs]
    system = System(names, words, [(names.index(a), words.index(b), names.index(c)) for a, b, c in (line.split() for line in lines[arcs + 1:] if line)])
    system.initial = next(i for i, line in enumerate(lines[states + 1:labels]) if line.endswith('[initial]'))
    return system


def main():
    words = sys.argv[1:]
    if len(words) == 3 and words[0] == 'answer':
        status, text = answer(read(words[2]), words[1])
        sys.stdout.write(text)
        return status
    if 2 <= len(words) <= 4 and words[0] == 'compare':
        return not compare(os.path.abspath(words[1]), int(words[2]) if len(words) > 2 else 2000, int(words[3]) if len(words) > 3 else 1)
    if len(words) in (3, 4) and words[0] == 'cases' and words[3:] in ([], ['marking'], ['further']):
        cases(int(words[1]), int(words[2]), ''.join(words[3:]))
        return 0
    status, text = further_answer(words)
    sys.stdout.write(text)
    return status


def further_answer(words):
    """Status and text of one of the four further commands; ends the program where the words ask for none."""
    if len(words) in (2, 3) and words[0] == 'factor':
        return factored(read(words[1]), words[2] if len(words) == 3 else None)
    if len(words) in (2, 3) and words[0] == 'split' and words[2:] in ([], ['system']):
        return split(read(words[1]), len(words) == 3)
    if len(words) == 3 and words[0] == 'isomorphic':
        return isomorphic(read(words[1]), read(words[2]))
    if len(words) in (2, 3) and words[0] == 'examine' and words[2:] in ([], ['json']):
        return 0, examined(read(words[1]), len(words) == 3)
    sys.exit(__doc__)


if __name__ == '__main__':
    sys.exit(main())
