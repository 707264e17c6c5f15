#!/usr/bin/env python3
"""Which files of definitions a statement rests on.

    checks/definitions.py [FILE.antt ..]

Prints for each FILE how many files of crates/*/specs it reaches by `use` (itself with them), and how many lines they have,
then the same for all FILEs together, then their names. Without a FILE: the six that say what `synthesize` on an APT file
promises. Files of the standard library aren't counted.
"""
import os
import re
import sys

TOP = os.path.join(os.path.dirname(os.path.abspath(__file__)), '..')
HEART = ['rg_theory/specs/Solves.antt', 'rg_theory/specs/Class.antt', 'rg_apt/specs/Spells.antt',
         'rg_net/specs/NetText.antt', 'rg_cert/specs/Text.antt', 'rg_cert_meaning/specs/Refutes.antt']


def file_of(module):
    """The file of a module of the project, or None: Rattle.rg_net.specs.NetText is rg_net/specs/NetText.antt."""
    words = module.split('.')
    if words[0] != 'Rattle':
        return None
    while len(words) > 2:
        path = os.path.join(TOP, 'crates', *words[1:]) + '.antt'
        if os.path.exists(path):
            return os.path.normpath(path)
        words.pop()
    return None


def uses(path):
    with open(path, encoding='utf-8') as text:
        for line in text:
            found = re.match(r'(?:pub )?use (Rattle(?:\.[A-Za-z0-9_]+)+)', line)
            if found:
                file = file_of(found.group(1))
                if file:
                    yield file


def closure(paths):
    seen, todo = set(), list(paths)
    while todo:
        path = todo.pop()
        if path not in seen:
            seen.add(path)
            todo.extend(uses(path))
    return seen


def lines(paths):
    return sum(len(open(path, encoding='utf-8').readlines()) for path in paths)


def main(words):
    paths = [os.path.normpath(word) for word in words] or [os.path.normpath(os.path.join(TOP, 'crates', name)) for name in HEART]
    for path in paths:
        files = closure([path])
        print(f'{len(files):4} files {lines(files):6} lines  {os.path.relpath(path, TOP)}')
    files = closure(paths)
    print(f'{len(files):4} files {lines(files):6} lines  together')
    for path in sorted(files):
        print('  ' + os.path.relpath(path, TOP))


if __name__ == '__main__':
    main(sys.argv[1:])
