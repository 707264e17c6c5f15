#!/usr/bin/env python3
"""Compares tools/check_certificate.py with the program's `verify`, on certificates as they are written and changed.

    checks/certificates.py crates/regions/out/regions [CERTIFICATES [SEED ..]]

For each seed (1 unless some are named) it makes random systems until `synthesize` has written so many certificates (100 unless a
number is named), for random classes of all words, with bounds and markings. Each is judged by both as it is written, and changed: of
each eighth one by every change that is listed below, of the others by some twenty of them. It prints each difference, and after each
seed a table of all so far: how many certificates both accept, both refuse, and where only the program refuses, by rule 4 of
docs/certificates.md (`sum passes`), which the checker leaves out. Each other difference is an error, and status 1. One in a hundred is
judged by the checker's command line too. It is run by hand and is no test.

A changed line is: left out; doubled; swapped with the next; with a blank, a carriage return or a word more, or a word less; and for
each word of it a number changed, a name by each other name, a row's word by each other word. A changed tree has a split more above a
leaf, with both sides or with one; or the rows of a leaf multiplied, shuffled, left out, or written in parts whose sum is the same, of
which one may be 0 or below. Another file is the system without each of its arcs, with an arc more or with another start, another
random system, or a broken text.
"""
import collections
import importlib.util
import os
import random
import subprocess
import sys
import tempfile

import second

TOP = os.path.dirname(os.path.dirname(os.path.abspath(__file__)))
CHECKER = os.path.join(TOP, 'tools', 'check_certificate.py')
ROWS = ('arc', 'tokens', 'cap', 'up', 'down', 'makes', 'stop', 'block', 'empty', 'full', 'keep', 'apart', 'above')
WORDS = (*ROWS, 'unreachable', 'fork', 'event', 'states', 'split', 'leaf', 'case', 'end', 'start', 'effect')
CLASSES = ('none', 'pure', 'plain', 'safe', '2-bounded', '3-bounded', 'pure,plain,safe', 'output-nonbranching', '2-marking',
           'plain,2-marking', 'safe,3-marking', 'safe,pure', 'pure,pure', '0-bounded', '256-bounded', 'bounded', '')


def load_checker():
    spec = importlib.util.spec_from_file_location('check_certificate', CHECKER)
    module = importlib.util.module_from_spec(spec)
    spec.loader.exec_module(module)
    return module


# ---- systems and classes

def larger_system(rng):
    """Up to 10 states on a way, some of them reached again."""
    states, labels = rng.randint(4, 10), rng.randint(1, 3)
    arcs = {(s, rng.randrange(labels)): s + 1 for s in range(states - 1)}
    for _ in range(rng.randint(0, 4)):
        arcs.setdefault((rng.randrange(states), rng.randrange(labels)), rng.randrange(states))
    return second.System([f's{i}' for i in range(states)], list('abc')[:labels], [(s, t, r) for (s, t), r in arcs.items()])


def any_system(rng):
    while True:
        system = rng.choice((second.random_system, second.net_system, larger_system, larger_system))(rng)
        if system is not None:
            return system


def any_class(rng):
    words = [w for w in ('pure', 'plain', 'output-nonbranching') if rng.random() < 0.35]
    words += rng.choice(([], [], ['safe'], ['1-bounded'], ['2-bounded'], ['3-bounded'], ['7-bounded'], ['255-bounded']))
    words += rng.choice(([], [], [f'{rng.choice((1, 2, 2, 3, 4, 6, 255))}-marking']))
    rng.shuffle(words)
    return ','.join(words) or 'none'


# ---- changes

def is_number(word):
    return word.lstrip('-').isdigit()


def numbers_beside(word):
    number = int(word)
    others = [number + 1, number - 1, -number, 0, 2 * number, 2**127 - 1, 2**127, -2**127, 2**63 - 1, 2**63, 2**32 - 1, 2**32]
    return [str(n) for n in dict.fromkeys(others) if n != number] + ['0' + word, '+' + word, '-0', word + '_', '']


def words_beside(system, word):
    if is_number(word):
        return numbers_beside(word)
    if word in system.states:
        return [name for name in system.states if name != word] + [*system.labels, 'nowhere', word.upper() + 'x']
    if word in system.labels:
        return [name for name in system.labels if name != word] + [*system.states, 'nothing']
    return [other for other in WORDS if other != word] + [word.upper(), word + 's']


def changed_lines(system, lines):
    """Every change of every line."""
    for i, line in enumerate(lines):
        before, behind, words = lines[:i], lines[i + 1:], line.split(' ')
        yield before + behind
        yield before + [line, line] + behind
        if behind:
            yield before + [behind[0], line] + behind[1:]
        for other in (line + ' ', ' ' + line, line + '\r', line.replace(' ', '  ', 1), line + ' ' + words[-1], ' '.join(words[:-1]), ''):
            if other != line:
                yield before + [other] + behind
        yield before + ['', line] + behind
        for k, word in enumerate(words):
            for other in words_beside(system, word):
                yield before + [' '.join([*words[:k], other, *words[k + 1:]])] + behind


def leaves(lines):
    """Where each leaf begins and where its rows end."""
    for i, line in enumerate(lines):
        if line == 'leaf':
            end = i + 1
            while end < len(lines) and is_number(lines[end].split(' ')[0]):
                end += 1
            yield i, end


def changed_trees(rng, system, lines):
    """A split more above a leaf, and the rows of a leaf multiplied."""
    for i, end in leaves(lines):
        before, leaf, behind = lines[:i], lines[i:end], lines[end:]
        state = rng.choice(system.states)
        splits = [f'split tokens {state} {rng.randint(-2, 3)}', f'split tokens {state} {2**63 - 1}', f'split tokens {state} {-2**63}',
                  f'split start {rng.randint(-1, 2)}']
        splits += [f'split effect {rng.choice(system.labels)} {rng.randint(-2, 3)}'] if system.labels else []
        for split in splits:
            yield before + [split] + leaf + leaf + behind
            yield before + [split] + leaf + behind
        yield before + splits[:1] + leaf + splits[-1:] + leaf + leaf + behind
        rows = [row.split(' ', 1) for row in leaf[1:]]
        for times in (2, 7, 2**62, 2**125, 2**126, 0, -1):
            yield before + ['leaf', *(f'{int(n) * times} {row}' for n, row in rows)] + behind
        yield before + ['leaf', *rng.sample(leaf[1:], len(rows))] + behind
        yield before + ['leaf', *(row for row in leaf[1:] for _ in range(2))] + behind
        yield before + ['leaf'] + behind
        yield before + ['leaf', *(row for row in leaf[1:] if ' arc ' in row)] + behind
        for k, (n, row) in enumerate(rows, i + 1):
            for part in (0, -1, 1, int(n)):
                yield lines[:k] + [f'{int(n) - part} {row}', f'{part} {row}'] + lines[k + 1:]


def changed_heads(lines):
    """Another version, and another class."""
    for version in ('certificate 1', 'certificate 2', 'certificate 3', 'certificate 01', 'certificate', 'certificates 1'):
        if version != lines[0]:
            yield [version, *lines[1:]]
    for word in CLASSES:
        for version in ('certificate 1', 'certificate 2'):
            if [version, f'class {word}'] != lines[:2]:
                yield [version, f'class {word}', *lines[2:]]


def other_files(rng, system, text):
    """Other texts of a system for the same certificate."""
    arcs = list(system.arcs)
    for gone in arcs:
        yield second.System(system.states, system.labels, [a for a in arcs if a != gone]).text()
    if arcs:
        turned = rng.sample(arcs, len(arcs))
        yield text[:text.index('.arcs')] + '.arcs\n' + ''.join(
            f'{system.states[s]} {system.labels[t]} {system.states[r]}\n' for s, t, r in turned + turned[:1])
    if system.labels:
        more = (rng.randrange(len(system.states)), rng.randrange(len(system.labels)), rng.randrange(len(system.states)))
        yield second.System(system.states, system.labels, list({*arcs, more})).text()
    yield text.replace('[initial]', '', 1).replace('s0\n', 's0[initial]\n', 1) if rng.random() < 0.5 else text.replace('[initial]', '')
    start = rng.choice(system.states)
    yield text.replace('[initial]', '', 1).replace(f'\n{start}\n', f'\n{start}[x, initial = "true"]\n', 1)
    yield any_system(rng).text()
    for _ in range(3):
        at = rng.randrange(len(text))
        yield text[:at] + rng.choice(['', ' ', '.', '[', 's1', '/*', '"', '\n', '//', '+', '.name "x"\n']) + text[at + rng.randint(0, 2):]


# ---- both judges

class Judges:
    def __init__(self, program, folder):
        self.program, self.checker = program, load_checker()
        self.file, self.cert = os.path.join(folder, 'file'), os.path.join(folder, 'cert')
        self.counts, self.facts, self.differences = collections.Counter(), collections.Counter(), 0

    def write(self, file, text):
        with open(file, 'w', newline='') as out:
            out.write(text)

    def by_checker(self, system, cert):
        """What its last lines do."""
        try:
            return 'accepted: no net of class ' + self.checker.Checker(self.checker.System(system), cert).check() + '\n'
        except self.checker.Refused as why:
            return f'refused: {why}\n'
        except self.checker.BadFile as why:
            return f'no system file: {why}\n'

    def by_program(self, system, cert):
        self.write(self.file, system)
        self.write(self.cert, cert)
        ran = subprocess.run([self.program, 'verify', self.file, self.cert], capture_output=True)
        return ran.returncode, (ran.stdout + ran.stderr).decode()

    def judge(self, kind, system, cert):
        first, (status, line) = self.by_checker(system, cert), self.by_program(system, cert)
        if first.startswith('accepted'):
            agree = 'both accept' if (status, line) == (0, first) else None
            if status == 1 and line.endswith(': sum passes\n'):
                agree = 'rule 4'
        else:
            agree = 'both refuse' if status in (1, 3) else None
        if agree is None or kind == 'as written' and agree != 'both accept':
            agree = 'other'
            self.differences += 1
            print(f'{kind}: the checker: {first}the program: {status} {line}{system}\n{cert}', flush=True)
        self.counts[kind, agree] += 1
        return agree, first

    def by_command_line(self, agree, first):
        """The checker's own run over the two files that were judged last: its line and its status."""
        ran = subprocess.run([sys.executable, CHECKER, self.file, self.cert], capture_output=True, text=True)
        accepts, unread = first.startswith('accepted'), first.startswith('no system file')
        holds = ran.stdout == first if accepts else not ran.stdout if unread else ran.stdout.startswith('refused: ')
        if not holds or ran.returncode != (0 if accepts else 2 if unread else 1) or bool(ran.stderr) != unread:
            self.differences += 1
            print(f'by the command line: {ran.returncode} {ran.stdout}{ran.stderr}, and {first}')
        self.counts['by the command line', agree] += 1


def changes(rng, system, text, lines, every):
    """The kind of each change, the text of the system, and the lines."""
    by_line = list(changed_lines(system, lines))
    by_tree = list(changed_trees(rng, system, lines))
    by_head = list(changed_heads(lines))
    if not every:
        by_line, by_tree, by_head = (rng.sample(some, min(count, len(some))) for some, count in ((by_line, 10), (by_tree, 6), (by_head, 2)))
    for kind, some in (('a line changed', by_line), ('a tree changed', by_tree), ('another version or class', by_head)):
        for changed in some:
            if changed != lines:
                yield kind, text, '\n'.join([*changed, '']) if changed else ''
    whole = '\n'.join([*lines, ''])
    for other in (whole[:-1], whole + '\n', whole + 'end\n', whole.replace('\n', '\r\n'), '\n' + whole):
        if every or rng.random() < 0.2:
            yield 'a line changed', text, other
    for other in other_files(rng, system, text):
        if every or rng.random() < 0.3:
            yield 'another file', other, whole


def compare(judges, count, seed):
    rng, facts = random.Random(seed), judges.facts
    due = facts['certificates'] + count
    while facts['certificates'] < due:
        system, word = any_system(rng), any_class(rng)
        text = system.text()
        judges.write(judges.file, text)
        ran = subprocess.run([judges.program, 'synthesize', word, judges.file], capture_output=True)
        if ran.returncode != 1:
            continue
        whole = ran.stdout.decode()
        lines = whole.split('\n')[:-1]
        has_split = any(line.startswith('split') for line in lines)
        # certificates without a case and without a split are the commonest: many of them are passed over
        if rng.random() < (0.8 if 'case' not in lines else 0 if has_split else 0.6):
            continue
        facts['certificates'] += 1
        facts['with splits'] += has_split
        facts['with several cases'] += lines.count('case') > 1
        facts['of version 2'] += lines[0] == 'certificate 2'
        facts[f'for `{lines[2].split(" ")[0]}`'] += 1
        judges.judge('as written', text, whole)
        for kind, file, cert in changes(rng, system, text, lines, facts['certificates'] % 8 == 0 and len(lines) < 40):
            judged = judges.judge(kind, file, cert)
            if rng.random() < 0.01:
                judges.by_command_line(*judged)


def table(counts, facts, seeds):
    columns = ('both accept', 'both refuse', 'rule 4', 'other')
    print(f'seeds {" ".join(map(str, seeds))}: ' + ', '.join(f'{number} {fact}' for fact, number in facts.items()))
    print('| certificates | judged | both accept | both refuse | the checker accepts, `verify` says `sum passes` | any other difference |')
    print('|---|---|---|---|---|---|')
    kinds = list(dict.fromkeys(kind for kind, _ in counts))
    total = [kind for kind in kinds if kind != 'by the command line']
    for name, some in [*((kind, [kind]) for kind in total), ('together', total), ('by the command line', ['by the command line'])]:
        numbers = [sum(counts[kind, column] for kind in some) for column in columns]
        print(f'| {name} | {sum(numbers):,} | ' + ' | '.join(f'{n:,}' for n in numbers) + ' |', flush=True)


def main():
    words = sys.argv[1:]
    if not words or not all(word.isdigit() for word in words[1:]):
        sys.exit(__doc__)
    count, *seeds = [int(word) for word in words[1:]] or [100]
    seeds = seeds or [1]
    with tempfile.TemporaryDirectory() as folder:
        judges = Judges(os.path.abspath(words[0]), folder)
        for k, seed in enumerate(seeds):
            compare(judges, count, seed)
            table(judges.counts, judges.facts, seeds[:k + 1])
        return judges.differences != 0


if __name__ == '__main__':
    sys.exit(main())
