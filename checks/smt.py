#!/usr/bin/python3
"""Synthesis by an SMT solver, a plain second way, and a table that compares the program with it.

    checks/smt.py synthesize CLASS FILE [OUT]
    checks/smt.py compare crates/regions/out/regions [SECONDS [FAMILY or CLASS ..]]
    checks/smt.py agree crates/regions/out/regions [SYSTEMS [SEED]]

It is written from docs/theory.md alone: unknown numbers for a place's start, for what each label takes and puts and for the tokens of
each state, the conditions of a region and of the class, and for each separation problem that no region found so far separates the
question for one that does. `synthesize` writes the net that they make, which `regions check CLASS FILE OUT` judges (status 0), or the
first problem without a region (status 1); it prunes no place and gives no certificate. FILE is a system in the plain layout that the
program writes. CLASS is as in docs/formats.md ("Classes").

`compare` prints a table: for the families of bench/families.py, each in some sizes up to that of `families.py speed`, and each class
(none, pure, safe and pure,plain,safe; those that are named, if some are) the processor seconds, user and system, and after them the MiB of memory
at the peak, of the program and, after a stroke, of the solver. Where the solver takes more than SECONDS (100 unless a number is named)
it isn't asked for larger sizes of that family and class. Each net of the solver is judged by `check`, and a no is compared with the
program's; if the problems that are named differ, a line below the table says so. `agree` compares both on random systems of checks/second.py
for random classes. It is run by hand and is no test; it needs Debian's python3-z3.
"""
import os
import random
import resource
import subprocess
import sys
import tempfile

import second
import systems

CLASSES = ('none', 'pure', 'safe', 'pure,plain,safe')
SIZES = {'grid': (10, 20, 63), 'lock': (3, 5, 7), 'philosophers': (3, 5, 8), 'ring': (10, 20, 60, 120), 'chain': (10, 20, 60, 120),
         'star': (10, 40, 120), 'prefixes': (5, 10, 30), 'rings': (2, 3, 5), 'doubling': (5, 10, 100, 127)}


class Conditions:
    """The conditions of a class."""

    def __init__(self, word):
        words = word.split(',')
        numbers = {w.split('-')[1]: int(w.split('-')[0]) for w in words if w[0].isdigit()}
        self.pure, self.plain, self.nonbranching = (w in words for w in ('pure', 'plain', 'output-nonbranching'))
        self.bound, self.marking = 1 if 'safe' in words else numbers.get('bounded'), numbers.get('marking', 1)


class Place:
    """A place with the tokens of each state."""

    def __init__(self, model, start, tokens, takes, puts):
        number = lambda term: model.eval(term, model_completion=True).as_long()
        self.start, self.tokens = number(start), {s: number(m) for s, m in tokens.items()}
        self.takes, self.puts = ({t: number(w) for t, w in weights.items()} for weights in (takes, puts))

    def separates(self, problem):
        kind, s, other = problem
        return self.tokens[s] < self.takes[other] if kind == 'event' else self.tokens[s] != self.tokens[other]


def regions(states, labels, arcs, conditions):
    """A solver that knows what a region of the class is, and its unknown numbers."""
    import z3
    tokens = {s: z3.Int(f'tokens {s}') for s in states}
    takes, puts = ({t: z3.Int(f'{verb} {t}') for t in labels} for verb in ('takes', 'puts'))
    start, steps, solver = tokens[states[0]], z3.Int('steps'), z3.SolverFor("QF_LIA")
    solver.add(*(n >= 0 for n in [*tokens.values(), *takes.values(), *puts.values()]))
    for s, t, r in arcs:
        solver.add(tokens[s] >= takes[t], tokens[r] == tokens[s] - takes[t] + puts[t])
    if conditions.bound is not None:
        solver.add(*(m <= conditions.bound for m in tokens.values()))
    if conditions.plain:
        solver.add(*(w <= 1 for w in [*takes.values(), *puts.values()]))
    if conditions.pure:
        solver.add(*(z3.Or(takes[t] == 0, puts[t] == 0) for t in labels))
    if conditions.nonbranching:
        solver.add(*(z3.Or(takes[t] == 0, takes[u] == 0) for i, t in enumerate(labels) for u in labels[:i]))
    if conditions.marking > 1:
        solver.add(steps >= 0, start == conditions.marking * steps)
    return solver, (start, tokens, takes, puts)


def problems(states, labels, arcs):
    enabled = {(s, t) for s, t, _ in arcs}
    for s in states:
        yield from (('event', s, t) for t in labels if (s, t) not in enabled)
    for i, s in enumerate(states):
        yield from (('states', s, r) for r in states[i + 1:])


def unsolvable(states, arcs):
    """The first state that can't be reached, or that has a fork; None where there is neither."""
    targets, reached, todo = {}, {states[0]}, [states[0]]
    for s, t, r in arcs:
        targets.setdefault(s, {}).setdefault(t, set()).add(r)
    while todo:
        new = {r for some in targets.get(todo.pop(), {}).values() for r in some} - reached
        reached |= new
        todo += new
    for s in states:
        if s not in reached:
            return 'unreachable', s
    return next((('fork', s) for s in states if any(len(some) > 1 for some in targets.get(s, {}).values())), None)


def synthesize(word, states, labels, arcs):
    """The places of a net, and None; or None, and why there is none."""
    import z3
    why = unsolvable(states, arcs)
    if why is not None:
        return None, why
    solver, unknowns = regions(states, labels, arcs, Conditions(word))
    _, tokens, takes, _ = unknowns
    places = []
    for problem in problems(states, labels, arcs):
        if any(place.separates(problem) for place in places):
            continue
        kind, s, other = problem
        solver.push()
        solver.add(tokens[s] < takes[other] if kind == 'event' else tokens[s] != tokens[other])
        found = solver.check()
        if found == z3.unknown:
            sys.exit(f'the solver gives up at {problem}')
        if found == z3.unsat:
            return None, problem
        places.append(Place(solver.model(), *unknowns))
        solver.pop()
    return places, None


def net_text(labels, places):
    prefix = next(p for p in ('p', *(f'p{i}_' for i in range(1, 258))) if not any(t.startswith(p) for t in labels))
    held = lambda numbers: '{' + ', '.join(f'{n}*{prefix}{i}' for i, n in enumerate(numbers) if n) + '}'
    lines = ['.type PN', '.places', *(f'{prefix}{i}' for i in range(len(places))), '.transitions', *labels, '.flows']
    lines += [f'{t}: {held([p.takes[t] for p in places])} -> {held([p.puts[t] for p in places])}' for t in labels]
    return '\n'.join([*lines, '.initial_marking ' + held([p.start for p in places])]) + '\n'


# ---- compared with the program

def spent(words, seconds=None):
    """The status, the processor seconds, the peak of memory in MiB and out of a run; it ends where it takes more than these seconds."""
    def limit():
        if seconds is not None:
            resource.setrlimit(resource.RLIMIT_CPU, (seconds, seconds))
    ran = subprocess.run(['/usr/bin/time', '-q', '-f', '%U %S %M', *words], capture_output=True, text=True, preexec_fn=limit)
    user, system, peak = ran.stderr.strip().split('\n')[-1].split()
    return ran.returncode, float(user) + float(system), int(peak) / 1024, ran.stdout


def judged(program, word, path, net, mine, theirs):
    """What is wrong with the solver's answer; the empty text where nothing is."""
    if theirs[0] not in (0, 1):
        return f'the program has status {theirs[0]}, the solver {mine[0]}'
    if mine[0] != theirs[0]:
        return 'THE ANSWERS DIFFER'
    if mine[0] == 1:
        reason = theirs[3].split('\n')[2]
        return '' if f'{reason} '.startswith(f'{mine[3].strip()} ') else f'the solver names {mine[3].strip()}, the program {reason}'
    ran = subprocess.run([program, 'check', word, path, net], capture_output=True, text=True)
    return '' if ran.stdout == 'yes\n' else f'THE NET IS WRONG: {ran.stdout}{ran.stderr}'


def cell(program, word, path, seconds):
    """The text of a cell, whether the solver is asked for larger sizes, and what is wrong; without seconds the program alone is run."""
    net = path + '.net'
    theirs = spent([program, 'synthesize', word, path])
    text = {0: '', 1: 'no: '}.get(theirs[0], f'status {theirs[0]}: ') + f'{theirs[1]:.2f} ({theirs[2]:.0f}) / '
    if seconds is None:
        return text + '-', False, ''
    mine = spent([sys.executable, os.path.abspath(__file__), 'synthesize', word, path, net], seconds)
    if mine[0] not in (0, 1) or mine[1] > seconds:
        return text + f'over {seconds}', False, ''
    return text + f'{mine[1]:.2f} ({mine[2]:.0f})', True, judged(program, word, path, net, mine, theirs)


def compare(program, seconds, sizes_of, classes):
    for line in (['system', 'states', 'problems', *classes], ['---'] * (3 + len(classes))):
        print('| ' + ' | '.join(line) + ' |', flush=True)
    notes = []
    with tempfile.TemporaryDirectory() as folder:
        for family, sizes in sizes_of.items():
            within = dict.fromkeys(classes, True)
            for n in sizes:
                path = os.path.join(folder, f'{family}{n}.apt')
                with open(path, 'w') as file:
                    file.write(systems.written(family, n))
                states, labels, arcs = systems.parsed(open(path).read())
                line = [f'{family} {n}', f'{len(states):,}', f'{systems.problems(states, labels, arcs):,}']
                for word in classes:
                    text, within[word], note = cell(program, word, path, seconds if within[word] else None)
                    line.append(text)
                    notes += [f'{family} {n}, {word}: {note}'] if note else []
                print('| ' + ' | '.join(line) + ' |', flush=True)
    print('\n'.join(['', *(notes or ['All answers are the same, and each net is judged yes.'])]))


def agree(program, count, seed):
    rng, differences, made = random.Random(seed), 0, 0
    with tempfile.TemporaryDirectory() as folder:
        path, net = os.path.join(folder, 'system'), os.path.join(folder, 'net')
        while made < count:
            system = rng.choice((second.random_system, second.net_system))(rng)
            if system is None:
                continue
            made += 1
            word = rng.choice((second.random_class, second.marked_class))(rng)
            with open(path, 'w') as file:
                file.write(system.text())
            ran = subprocess.run([program, 'synthesize', word, path], capture_output=True, text=True)
            places, why = synthesize(word, *systems.parsed(system.text()))
            with open(net, 'w') as file:
                file.write(net_text(system.labels, places or []))
            mine = (0, 0, 0, '') if places is not None else (1, 0, 0, ' '.join(why))
            note = judged(program, word, path, net, mine, (ran.returncode, 0, 0, ran.stdout))
            if note:
                differences += 1
                print(f'class {word}: {note}\n{system.text()}')
    print(f'{made} systems, {differences} differences')
    return differences == 0


def main():
    words = sys.argv[1:]
    if len(words) in (3, 4) and words[0] == 'synthesize':
        with open(words[2]) as file:
            states, labels, arcs = systems.parsed(file.read())
        places, why = synthesize(words[1], states, labels, arcs)
        if why is not None:
            print(' '.join(why))
            return 1
        with open(words[3], 'w') if words[3:] else sys.stdout as out:
            out.write(net_text(labels, places))
        return 0
    if len(words) >= 2 and words[0] == 'compare':
        sizes_of = {family: SIZES[family] for family in words[3:] if family in SIZES} or SIZES
        compare(os.path.abspath(words[1]), int(words[2]) if words[2:] else 100, sizes_of, [w for w in words[3:] if w not in SIZES] or CLASSES)
        return 0
    if 2 <= len(words) <= 4 and words[0] == 'agree':
        return not agree(os.path.abspath(words[1]), int(words[2]) if words[2:] else 300, int(words[3]) if words[3:] else 1)
    sys.exit(__doc__)


if __name__ == '__main__':
    sys.exit(main())
