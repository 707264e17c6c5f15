#!/usr/bin/env python3
"""For each answer of each command: how many cases of crates/worked_runs end so, and the largest one.

    checks/largest_cases.py                     the rows of the table in docs/dev/cases.md
    checks/largest_cases.py --below SIZE        the answers of which no case has SIZE or more, with the name of the largest one

An answer is a command, a status and the first words of what is written (or of the second line of a certificate). The size of
a run is the number of states and labels of its largest system, plus the lines that it writes or those of its second
file (of a refused file: its own): the numbers at which a body could give up with want of memory. Nothing is run.
"""
import re
import sys

from systems import cases


def size_of_system(text):
    """States and labels of a text in any form, roughly: by its sections, its arcs, or its words."""
    if '.type LTS' in text[:400] or '.states' in text:
        sections = {}
        for section, body in re.findall(r'\.(\w+)([^.]*)', text):
            sections.setdefault(section, body.split())
        return len(sections.get('states', [])), len(sections.get('labels', []))
    if '.state graph' in text:
        arcs = [line.split() for line in text.split('.state graph', 1)[1].split('\n')]
        arcs = [arc for arc in arcs if len(arc) == 3 and not arc[0].startswith('.')]
        return len({name for arc in arcs for name in (arc[0], arc[2])}), len({arc[1] for arc in arcs})
    words = text.split()
    return min(len(words) + 1, 4096), len(set(words))


OPTIONS = ('--class', '--system', '--json')


def form_of(words, file):
    option = '--from' if file == 1 else '--from2'
    for i, word in enumerate(words):
        if word.split('=')[0] == option:
            return word.split('=')[1] if '=' in word else words[i + 1]
    return 'net' if file == 2 and words[0] == 'check' else 'certificate' if file == 2 and words[0] == 'verify' else 'apt'


def answer_of(case):
    """The first words of what is written, without names and numbers."""
    written = case.out or case.err
    lines = written.split('\n')
    first = lines[0]
    if first.startswith('certificate'):
        splits = ' with splits' if '\nsplit ' in written else ''
        return f'{first}: {lines[2].split()[0]}{splits}'
    if first.startswith('too wide'):
        return ':'.join(first.split(':')[:2]) if first.count(':') > 1 else 'too wide'
    if first.startswith(('accepted', 'yes', '.', 'no: one block', 'no: sizes', '{', 'factors', 'grid', 'states')):
        return re.split(r'[: ](?! *[a-z])|(?<=accepted):', first.replace('no: ', 'no_'))[0].replace('no_', 'no: ')[:14]
    first = re.sub(r'refused: line \d+', 'refused: line ..', first)
    first = re.sub(r' (at|line \d+).*', '', first)
    first = re.sub(r'^no: file (\d): (\w+) .*', r'no: file \1: \2 ..', first)
    first = re.sub(r'^no: (step|label) file (\d) .*', r'no: \1 file \2 ..', first)
    for words in ('factor', 'unreachable', 'fork', 'not enabled', 'same marking', 'enabled', 'wrong step', 'not pure', 'not plain', 'over', 'branching',
                  'not multiple', 'target', 'class word', 'label', 'state'):
        found = re.match(rf'(no: |usage: |file \d: )({words})\b', first)
        if found and '..' not in first:
            tail = re.search(r'(unsolvable|has no arc|bad number|repeated|unknown|twice)', first)
            return found.group(1) + words + (' .. ' + tail.group(1) if tail else ' ..')
    first = re.sub(r'case \d+ node \d+', 'case .. node ..', first)
    first = re.sub(r'case \d+', 'case ..', first)
    return re.sub(r'left over (tokens|effect) \S+', r'left over \1 ..', first)


def kind_of(case, words):
    command = ' '.join([words[0] if words else '', *sorted({w.split('=')[0] for w in words[1:]} & set(OPTIONS))])
    answer = answer_of(case)
    if case.status == 2:
        return 'any', '2', answer
    if case.status == 3:
        file = int(answer[5])
        return f'any that reads {form_of(words, file)}', '3', answer[8:]
    return command, str(case.status), answer


def main():
    below = int(sys.argv[2]) if sys.argv[1:2] == ['--below'] else None
    answers = {}
    for case in cases():
        if case.differs:
            continue
        systems = case.files if case.runs and case.runs[0][:1] == ['isomorphic'] else case.files[:1]
        states, labels = max([size_of_system(text) for _, text in systems] or [(0, 0)])
        lines = max([case.out.count('\n') + case.err.count('\n')] + [text.count('\n') for name, text in case.files[case.status != 3:]])
        for words in case.runs:
            kind = kind_of(case, words)
            count, largest = answers.get(kind, (0, None))
            entry = (states + labels + lines, states, labels, lines, case.name, case.origin)
            answers[kind] = (count + 1, max(largest or entry, entry))
    for kind in sorted(answers):
        count, (size, states, labels, lines, name, file) = answers[kind]
        if below is None:
            print(f'| {kind[0] or "no word"} | {kind[1]} | {kind[2]} | {count} | {states} | {labels} | {lines} | {file.removesuffix(".cases")} |')
        elif size < below:
            print(f'{kind[0]} | {kind[1]} | {kind[2]} | {count} | {states} states, {labels} labels, {lines} lines: {name} ({file})')


if __name__ == '__main__':
    main()
