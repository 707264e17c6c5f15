"""The families of systems that the scripts of bench/ and checks/ use, and the cases of crates/worked_runs as the program reads them.

A system is a list of its states, of which the first is the initial one, a list of its labels, and its arcs as triples of names. It is a
module, and no script.
"""
import itertools
import os
import random

TOP = os.path.dirname(os.path.dirname(os.path.abspath(__file__)))
WORKED_RUNS = os.path.join(TOP, 'crates', 'worked_runs')


# ---- families

def grid(n):
    arcs = [(f'g{i}_{j}', t, f'g{i + a}_{j + b}') for i in range(n + 1) for j in range(n + 1)
            for t, a, b in (('right', 1, 0), ('up', 0, 1)) if i + a <= n and j + b <= n]
    return [f'g{i}_{j}' for i in range(n + 1) for j in range(n + 1)], ['right', 'up'], arcs


def doubling(n):
    arcs, states = [], ['q0']
    for k in range(n):
        states += [f'm{k + 1}', f'q{k + 1}']
        arcs += [(f'q{k}', f'a{k}', f'm{k + 1}'), (f'q{k}', f'a{k + 1}', f'q{k + 1}'), (f'm{k + 1}', f'a{k}', f'q{k + 1}')]
    return states, [f'a{k}' for k in range(n + 1)], arcs


def lock(n):
    states = [''.join(letters) for letters in itertools.product('iwc', repeat=n) if letters.count('c') <= 1]
    arcs = []
    for state in states:
        for user in range(n):
            label, after = {'i': ('ask', 'w'), 'w': ('get', 'c'), 'c': ('put', 'i')}[state[user]]
            target = state[:user] + after + state[user + 1:]
            if target.count('c') <= 1:
                arcs.append((state, f'{label}{user + 1}', target))
    return states, [f'{word}{user + 1}' for user in range(n) for word in ('ask', 'get', 'put')], arcs


def philosophers(n):
    """Each takes the left fork, then the right one, eats, and puts both back."""
    labels = [f'{verb}{k}' for k in range(1, n + 1) for verb in ('left', 'right', 'done')]
    start = 't' * n
    seen, todo, arcs = [start], [start], []
    held = lambda w, f: w[f] in 'lb' or w[f - 1] == 'b'
    for w in todo:
        for k in range(n):
            steps = []
            if w[k] == 't' and not held(w, k):
                steps.append(('left', 'l'))
            elif w[k] == 'l' and not held(w, (k + 1) % n):
                steps.append(('right', 'b'))
            elif w[k] == 'b':
                steps.append(('done', 't'))
            for verb, letter in steps:
                to = w[:k] + letter + w[k + 1:]
                arcs.append((w, f'{verb}{k+1}', to))
                if to not in seen:
                    seen.append(to)
                    todo.append(to)
    return seen, labels, arcs


def star(n):
    """From the initial state each label leads to a state of its own."""
    steps = range(1, n + 1)
    return [f's{i}' for i in range(n + 1)], [f't{i}' for i in steps], [('s0', f't{i}', f's{i}') for i in steps]


def turns(n):
    """Twelve labels in turn, one word of so many letters."""
    return path([f'x{i % 12}' for i in range(n)])


def prefixes(n):
    """The prefixes of the words c .. c ti d, with i letters c."""
    states, arcs = [], []
    for i in range(n + 1):
        states += [f'p{i}', f'q{i}', f'r{i}']
        arcs += [(f'p{i}', f't{i}', f'q{i}'), (f'q{i}', 'd', f'r{i}')]
        if i < n:
            arcs.append((f'p{i}', 'c', f'p{i+1}'))
    return states, ['c', 'd'] + [f't{i}' for i in range(n + 1)], arcs


def chain(n):
    """So many labels, one after the other."""
    return path([f't{i}' for i in range(n)])


def ring(n):
    """So many labels, one after the other, and again."""
    return [f's{i}' for i in range(n)], [f't{i}' for i in range(n)], [(f's{i}', f't{i}', f's{(i+1) % n}') for i in range(n)]


def rings(n):
    """So many rings of five labels each, side by side."""
    states = list(itertools.product(range(5), repeat=n))
    name = lambda places: 's' + '_'.join(map(str, places))
    arcs = []
    for places in states:
        for k in range(n):
            to = places[:k] + ((places[k] + 1) % 5,) + places[k + 1:]
            arcs.append((name(places), f't{k}_{places[k]}', name(to)))
    return [name(places) for places in states], [f't{k}_{i}' for k in range(n) for i in range(5)], arcs


def torus(n):
    """Two rings of so many labels, side by side."""
    name = lambda i, j: f's{i}_{j}'
    states = [name(i, j) for i in range(n) for j in range(n)]
    arcs = [arc for i in range(n) for j in range(n)
            for arc in ((name(i, j), f'a{i}', name((i + 1) % n, j)), (name(i, j), f'b{j}', name(i, (j + 1) % n)))]
    return states, [f'a{i}' for i in range(n)] + [f'b{j}' for j in range(n)], arcs


def log(count, length, labels, seed):
    """So many random runs of so many labels, as the tree of their prefixes."""
    rnd = random.Random(seed)
    states, arcs, children = ['s0'], [], {}
    for _ in range(count):
        at = 's0'
        for _ in range(length):
            step = (at, f't{rnd.randrange(labels)}')
            if step not in children:
                children[step] = f's{len(states)}'
                states.append(children[step])
                arcs.append((*step, children[step]))
            at = children[step]
    return states, [f't{i}' for i in range(labels)], arcs


def word(length, labels, seed):
    """One random run."""
    return log(1, length, labels, seed)


def countdown(n):
    """So many labels in a row, then `work` three times, then `done`: no place with at most two tokens counts to three, so in `2-bounded` the
    search branches, and each label of the row doubles its tree."""
    labels = [f't{i}' for i in range(1, n + 1)]
    return path([*labels, 'work', 'work', 'work', 'done'])


def path(steps):
    """The labels of a run, one after the other."""
    labels = list(dict.fromkeys(steps))
    return [f's{i}' for i in range(len(steps) + 1)], labels, [(f's{i}', t, f's{i+1}') for i, t in enumerate(steps)]


def halves(n):
    """So many levels of two arcs and a shortcut by a fresh label, and a third more levels of three arcs and a shortcut: with 42, many problems
    show a number out of range, and a place that is kept separates each of them in the end."""
    states, labels, arcs, at = ['s0'], [], [], 's0'
    for k, (factor, levels) in enumerate(((2, n), (3, n + n // 3))):
        if k:
            states.append('s1')
            arcs.append((at, 'c1', 's1'))
            at = 's1'
        for i in range(1, levels + 1):
            way = [at, *(f'u{k}_{i}_{j}' for j in range(1, factor)), f'r{k}_{i}']
            states += way[1:]
            arcs += [(a, f'a{k}_{i}', b) for a, b in zip(way, way[1:])]
            arcs.append((at, f'a{k}_{i-1}', way[-1]))
            at = way[-1]
        labels += [f'a{k}_{i}' for i in range(levels, -1, -1)]
    return states, ['c1'] + labels, arcs


FAMILIES = {'grid': grid, 'doubling': doubling, 'lock': lock, 'philosophers': philosophers, 'star': star, 'turns': turns, 'prefixes': prefixes,
            'chain': chain, 'ring': ring, 'rings': rings, 'halves': halves, 'torus': torus, 'log': log, 'word': word, 'countdown': countdown}


# ---- texts

def text(states, labels, arcs):
    lines = ['.type LTS', '.states', states[0] + '[initial]', *states[1:], '.labels', *labels, '.arcs']
    return '\n'.join(lines + [' '.join(a) for a in arcs]) + '\n'


def parsed(system):
    """The states, labels and arcs of an APT text."""
    lines = system.split('\n')
    states, labels, arcs = (lines.index(section) for section in ('.states', '.labels', '.arcs'))
    names = [line.removesuffix('[initial]') for line in lines[states + 1:labels]]
    return names, lines[labels + 1:arcs], [tuple(line.split()) for line in lines[arcs + 1:] if line]


def problems(states, labels, arcs):
    enabled = len({(s, t) for s, t, _ in arcs})
    return len(states) * len(labels) - enabled + len(states) * (len(states) - 1) // 2


def written(family, *numbers):
    """The text of a system of a family."""
    return text(*FAMILIES[family](*numbers))


# ---- cases of whole runs

def numbered(n, piece):
    return piece.replace('%', '\1').replace('#', str(n)).replace('\1', str(n + 1)).replace('\\', '\n')


def with_piece(texts, text, word, rest):
    if word == '|':
        return text + rest + '\n'
    if word == '>':
        return text + rest
    if word == 'x':
        return text + ''.join(chr(int(byte, 16)) for byte in rest.split())
    if word == 'use':
        return text + texts[rest]
    if word == 'repeat':
        n, name = rest.split(' ', 1)
        return text + texts[name] * int(n)
    if word == 'generate':
        kind, n = rest.split()
        return text + written(kind, int(n))
    if word == 'times':
        n, piece = rest.split(' ', 1)
        return text + piece * int(n)
    if word in ('count', 'list'):
        a, b, piece = rest.split(' ', 2)
        return text + ''.join(numbered(n, piece) + ('\n' if word == 'count' else '') for n in range(int(a), int(b) + 1))
    if word == 'cut':
        return text[:int(rest)]
    return None


class Case:
    def __init__(self, name, file):
        self.name, self.origin = name, file
        self.runs, self.files, self.status, self.out, self.err, self.differs = [], [], None, '', '', False


def cases():
    """The cases of the files that the stored run of worked_runs names, in order."""
    texts, found = {}, []
    for name in open(os.path.join(WORKED_RUNS, 'args')).read().split():
        into = None
        for line in open(os.path.join(WORKED_RUNS, 'data', os.path.basename(name))).read().split('\n'):
            if not line or line.startswith('#'):
                continue
            word, _, rest = line.partition(' ')
            if into is not None:
                owner, key = into
                before = texts[key] if owner is None else owner.files[key][1] if isinstance(key, int) else getattr(owner, key)
                text = with_piece(texts, before, word, rest)
                if text is not None:
                    if owner is None:
                        texts[key] = text
                    elif isinstance(key, int):
                        owner.files[key][1] = text
                    else:
                        setattr(owner, key, text)
                    continue
            into = None
            if word == 'text':
                texts[rest] = ''
                into = (None, rest)
            elif word == 'case':
                found.append(Case(rest, os.path.basename(name)))
            elif word == 'words':
                found[-1].runs.append(rest.split())
            elif word == 'word':
                found[-1].runs[-1].append(rest)
            elif word == 'file':
                found[-1].files.append([rest, ''])
                into = (found[-1], len(found[-1].files) - 1)
            elif word in ('out', 'err'):
                into = (found[-1], word)
            elif word == 'status':
                found[-1].status = int(rest)
            elif word == 'differs':
                found[-1].differs = True
    return found
