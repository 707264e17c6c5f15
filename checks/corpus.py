#!/usr/bin/env python3
"""Writes the corpus of certificates, or judges it by both checkers.

    checks/corpus.py write                      tools/certificates from the cases of crates/worked_runs
    checks/corpus.py judge [PROGRAM]            `verify` of the program, where one is named, and tools/check_certificate.py

A pair is a case of `verify` whose system is an APT file: each one of checkers.cases, under its name, and a few of each kind of line
of the other files, of at most 4,000 bytes together. The verdict and the line are those of the case, which were worked by hand or by
checks/second.py. A third column `or accepted` marks sums beyond 128 bits that a checker with numbers of any size accepts. The
independent checker has to accept what is accepted or marked so, and to refuse the rest; it words its refusals by itself.
"""
import os
import re
import subprocess
import sys

from systems import TOP, cases

FOLDER = os.path.join(TOP, 'tools', 'certificates')
FILES = ('certificates.cases', 'marking.cases', 'single.cases', 'large.cases', 'random.cases', 'random_marking.cases')
MOST = {'accepted': 40, 'refused': 45}
NAMED = 'checkers.cases'
# a checker with numbers of any size refuses these too: the sum of a column isn't 0, or that of the constants isn't negative
REFUSED_BY_ALL = ('a-sum-of-2-to-the-128-is-not-0', 'constants-of-2-to-the-128-are-positive')


def form_of_line(line):
    """The line with its numbers and its last name left out."""
    return re.sub(r'\d+', 'N', re.sub(r'(tokens|effect) \w+$', r'\1', line))


def pairs():
    """The pairs that are numbered, by verdict: for each kind of line a few, so that each kind is there."""
    found, seen = {'accepted': [], 'refused': []}, {}
    whole = [c for c in cases() if c.origin in FILES and len(c.files) == 2 and c.runs[0] == ['verify', 'f', 'c'] and not c.differs]
    for few in (2, 4, 40):
        for case in whole:
            (_, system), (_, cert) = case.files
            if len(system) + len(cert) > 4000 or case.status > 1 or (system, cert) in seen:
                continue
            verdict = 'accepted' if case.status == 0 else 'refused'
            kind = form_of_line(case.out) + cert.split('\n')[2].split(' ')[0] if verdict == 'accepted' else form_of_line(case.out)
            if len(found[verdict]) < MOST[verdict] and sum(k == kind for k in seen.values()) < few:
                seen[system, cert] = kind
                found[verdict].append((case.name, system, cert, case.out.rstrip('\n')))
    return found


def all_pairs():
    """The name, the texts and the line of each pair: the numbered ones, then those of checkers.cases by name."""
    for verdict, all_of_it in pairs().items():
        for number, (_, system, cert, line) in enumerate(all_of_it, 1):
            yield f'{verdict}{number:02}', system, cert, line
    for case in sorted((c for c in cases() if c.origin == NAMED), key=lambda c: c.name):
        (_, system), (_, cert) = case.files
        yield re.sub(r'\W+', '-', re.sub(r'-(?=\d)', 'minus ', case.name.removeprefix('checkers: '))), system, cert, case.out.rstrip('\n')


def write():
    os.makedirs(FOLDER, exist_ok=True)
    rows = []
    for stem, system, cert, line in all_pairs():
        for ending, text in (('apt', system), ('cert', cert)):
            with open(os.path.join(FOLDER, f'{stem}.{ending}'), 'w', newline='', encoding='latin-1') as file:
                file.write(text)
        or_accepted = line.endswith('sum passes') and stem not in REFUSED_BY_ALL
        rows.append(f'{stem}\t{line}' + '\tor accepted' * or_accepted + '\n')
    with open(os.path.join(FOLDER, 'verdicts.tsv'), 'w', encoding='ascii') as file:
        file.writelines(rows)


def verdicts():
    """The name of each pair, its two files, its line, and whether a checker with numbers of any size accepts it all the same."""
    for row in open(os.path.join(FOLDER, 'verdicts.tsv'), encoding='ascii'):
        stem, line, *mark = row.rstrip('\n').split('\t')
        yield stem, [os.path.join(FOLDER, f'{stem}.{ending}') for ending in ('apt', 'cert')], line, mark == ['or accepted']


def judge(program):
    differ, count = 0, 0
    for stem, files, line, or_accepted in verdicts():
        wanted = 0 if line.startswith('accepted') else 1
        by_checker = subprocess.run([sys.executable, os.path.join(TOP, 'tools', 'check_certificate.py'), *files], capture_output=True, text=True)
        right = or_accepted and by_checker.returncode == 0 or by_checker.returncode == wanted and (wanted == 1 or by_checker.stdout == line + '\n')
        if program is not None:
            by_program = subprocess.run([program, 'verify', *files], capture_output=True, text=True)
            right = right and (by_program.returncode, by_program.stdout) == (wanted, line + '\n')
        count += 1
        if not right:
            differ += 1
            print(f'{stem}: {line}: the checker ends with {by_checker.returncode} {by_checker.stdout}{by_checker.stderr}')
    print(f'{count} pairs, {differ} differ')
    return differ != 0


if __name__ == '__main__':
    words = sys.argv[1:]
    if words == ['write']:
        write()
    elif words[:1] == ['judge'] and len(words) < 3:
        sys.exit(judge(os.path.abspath(words[1]) if len(words) == 2 else None))
    else:
        sys.exit(__doc__)
