#!/usr/bin/env python3
"""Compares the pages with the repository; prints what doesn't agree, and ends with 1 if there is something.

    checks/check_pages.py

Of README.md, docs/, docs/dev/ and the README.md of bench/, checks/, tools/ and examples/ it checks:
  names   each name in backquotes with an underscore or two capitals is one of the code, its definitions, its tests or its scripts
  paths   each path in backquotes and each target of a link exists, and so does the heading after a `#`
  counts  "N cases", "N must-fail edits", "N files and M lines" of definitions and the like are what is counted
  pairs   of "`NAME` in `PATH`" and "`NAME` of `CRATE`" the file or the crate has the name
  cases   the cases and tests that checks/wrong_bodies.tsv names are in the files that it names with them
  lines   docs/messages.md has each fault of a file that a case expects, as a whole
  trusted the crates that docs/proof.md lists as trusted are those of crates.txt that have no folder in crates/
  width   no line of prose has more than 120 characters
  words   none of the words that the pages avoid, but in names in backquotes
  shown   no command line is indented so that docs/try.sh would pass over it
"""
import glob
import os
import re
import subprocess
import sys

TOP = os.path.normpath(os.path.join(os.path.dirname(os.path.abspath(__file__)), '..'))
PAGES = sorted(['README.md', 'bench/README.md', 'checks/README.md', 'tools/README.md', 'examples/README.md', 'docs/regions.1']
               + [os.path.relpath(p, TOP) for p in glob.glob(os.path.join(TOP, 'docs/**/*.md'), recursive=True)])
# what the pages say of other tools and of the outside
ELSEWHERE = {'OpenSSL', 'GitHub', 'LibreOffice', 'write_sg', 'a_minus', 'a_plus_1', 'a_plus_2', 'a_toggle', 'gI_J', 'gI_', 'k_j'}
AVOIDED = re.compile(r'\b(noes|is due|tells?|told|telling|stands?|standing|stood|behind|beside)\b', re.IGNORECASE)
# whose lines name cases and tests
WRONG_BODIES = 'checks/wrong_bodies.tsv'


def read(path):
    with open(os.path.join(TOP, path), encoding='utf-8', errors='replace') as file:
        return file.read()


def prose(text):
    """The lines outside blocks of code, with their numbers."""
    inside = False
    for number, line in enumerate(text.split('\n'), 1):
        if line.lstrip().startswith('```'):
            inside = not inside
        elif not inside and not line.startswith('    '):
            yield number, line


def anchors(text):
    found = set()
    for _, line in prose(text):
        if re.match(r'#+ ', line):
            words = re.sub(r'[^\w\- ]', '', line.lstrip('#').strip().lower().replace('`', ''))
            found.add(words.replace(' ', '-'))
    return found


def known_words():
    """All words of the repository but for its pages."""
    words = set()
    for folder, _, files in os.walk(TOP):
        if any(part in folder for part in ('/.git', '/out', '/unlanded', '/target')):
            continue
        for name in files:
            path = os.path.join(folder, name)
            if name.endswith(('.rt', '.antt', '.py', '.awk', '.sh', '.cases', '.args', '.txt', '.apt', '.sg', '.edit', '.words')):
                words.update(re.findall(r'\w+', read(path)))
    return words


def is_identifier(name):
    return bool(re.fullmatch(r'[A-Za-z_][A-Za-z0-9_]*', name)) and ('_' in name or len(re.findall('[A-Z]', name)) >= 2 and re.search('[a-z]', name))


def check_names(page, text, words):
    for number, line in prose(text):
        for quoted in re.findall(r'`([^`]+)`', line):
            for name in re.split(r'::|\(', quoted.rstrip(')')):
                if is_identifier(name) and name not in words and name not in ELSEWHERE:
                    yield f'{page}:{number}: no {name} in the repository'


def check_paths(page, text):
    for number, line in prose(text):
        for quoted in re.findall(r'`([^`]+)`', line):
            path = quoted.split()[0] if quoted.split() else ''
            path = re.sub(r'^(?=(rg_\w+|worked_runs|benches)/)', 'crates/', path)
            if re.match(r'(crates|docs|bench|checks|tools|examples|specs|proofs)/', path) and not re.search(r'[A-Z]{3,}|\.\.\.|NAME', path.replace('DECISIONS', '').replace('README', '')):
                for option in re.findall(r'\{([^}]*)\}', path) or ['']:
                    for one in option.split(','):
                        whole = re.sub(r'\{[^}]*\}', one.strip(), path).rstrip('.,;:')
                        if path.startswith(('specs/', 'proofs/')):
                            whole = 'crates/*/' + whole
                        if not glob.glob(os.path.join(TOP, whole)):
                            yield f'{page}:{number}: no {whole}'
        for target in re.findall(r'\]\(([^)\s]+)\)', line):
            if re.match(r'https?:|mailto:', target):
                continue
            path, _, anchor = target.partition('#')
            whole = os.path.normpath(os.path.join(os.path.dirname(page), path)) if path else page
            if not os.path.exists(os.path.join(TOP, whole)):
                yield f'{page}:{number}: no {target}'
            elif anchor and anchor not in anchors(read(whole)):
                yield f'{page}:{number}: no heading {target}'


def files_of(place):
    """The files of a path, or of a crate; None if it is neither."""
    whole = os.path.join(TOP, re.sub(r'^(?=rg_\w+/)', 'crates/', place))
    if os.path.isfile(whole):
        return [whole]
    if re.fullmatch(r'rg_\w+', place) and os.path.isdir(os.path.join(TOP, 'crates', place)):
        return [path for end in ('rt', 'antt', 'edit') for path in glob.glob(os.path.join(TOP, 'crates', place, '**/*.' + end), recursive=True)
                if '/out/' not in path]
    return None


def check_pairs(page, text):
    joined = '\n'.join(line for _, line in prose(text))
    for named, place in re.findall(r'`([\w:]+)`\s+(?:in|of)\s+`([\w/.]+)`', joined):
        files = files_of(place)
        if files is not None and not any(re.search(r'\b%s\b' % re.escape(named), read(path)) for path in files):
            name = named.split('::')[-1]
            if not any(re.search(r'\b%s\b' % re.escape(name), read(path)) for path in files):
                yield f'{page}: no {named} in {place}'


def cases_in(name):
    """The names of the cases of a file of worked_runs, each with what the page may leave out."""
    return [line[5:] for line in read(f'crates/worked_runs/data/{name}').split('\n') if line.startswith('case ')]


def check_cases(page, text):
    for number, line in prose(text):
        for name, said in re.findall(r'`(\w+\.cases)`: ((?:(?!`\w+\.cases`)[^\t])*)', line):
            cases = cases_in(name)
            for part in said.strip().rstrip(';').split('; '):
                words = re.sub(r'^(of|for) .*', '', part.strip().rstrip(',')).strip()
                if words and not any(words in case for case in cases) and not all(any(word.strip() in case for case in cases) for word in words.split(', ')):
                    yield f'{page}:{number}: no case {words!r} in {name}'


def check_messages(text):
    expected = set()
    for path in glob.glob(os.path.join(TOP, 'crates/worked_runs/data/*.cases')):
        expected.update(re.findall(r'^\| file [12]: ([a-zA-Z ]+?)( at | at line |)(?:\d+)?$', read(path), re.MULTILINE))
    for words, where in sorted(expected):
        whole = f'`{words}{where}{"L" if "line" in where else "P" if where else ""}`'
        if whole not in text and not ('line' in where and f'`{words} at P`' in text):
            yield f'docs/messages.md: no {whole}'


def counted():
    """What is counted: a pattern of a page, and the numbers that it should have."""
    edits = len(glob.glob(os.path.join(TOP, 'crates/*/must-fail/*.edit')))
    stdout = read('crates/worked_runs/stdout') if os.path.exists(os.path.join(TOP, 'crates/worked_runs/stdout')) else ''
    cases = re.search(r'(\d+) cases', stdout)
    crates = len([c for c in os.listdir(os.path.join(TOP, 'crates')) if os.path.isdir(os.path.join(TOP, 'crates', c))])
    heart = subprocess.run([sys.executable, os.path.join(TOP, 'checks/definitions.py')], capture_output=True, text=True).stdout
    files, lines = re.search(r'(\d+) files\s+(\d+) lines\s+together', heart).groups()
    yield r'([\d,]+) must-fail edits', [edits]
    if cases:
        yield r'([\d,]+) cases of whole runs', [int(cases.group(1))]
    yield r'([\d,]+) crates in all', [crates]
    yield r'([\d,]+) files with ([\d,]+) lines together', [int(files), int(lines)]
    whole = subprocess.run([sys.executable, os.path.join(TOP, 'checks/definitions.py'), 'crates/rg_top/specs/Run.antt'], cwd=TOP, capture_output=True, text=True).stdout
    yield r'reach ([\d,]+) files and ([\d,]+) lines', [int(number) for number in re.search(r'(\d+) files\s+(\d+) lines\s+together', whole).groups()]


def check_counts(page, text):
    for pattern, numbers in counted():
        for found in re.finditer(pattern, text.replace('\n', ' ')):
            said = [int(group.replace(',', '')) for group in found.groups()]
            if said != numbers:
                yield f'{page}: "{found.group(0)}" is {numbers}'


def check_trusted(text):
    names = set()
    for line in read('crates.txt').split('\n'):
        if ':' in line and not line.startswith('#'):
            names.update(line.split(':')[1].split())
    outside = {name for name in names if not os.path.isdir(os.path.join(TOP, 'crates', name))}
    section = text.split('## What is trusted')[1].split('\n## ')[0]
    said = {name for name in re.findall(r'`(\w+)`', section)}
    for name in sorted(outside - said):
        yield f'docs/proof.md: {name} of crates.txt is trusted and not listed'


def check_style(page, text):
    for number, line in prose(text):
        if len(line) > 120 and not line.lstrip().startswith('|'):
            yield f'{page}:{number}: {len(line)} characters'
        for found in AVOIDED.finditer(re.sub(r'`[^`]*`', '', line)):
            yield f'{page}:{number}: {found.group(0)}'


def check_shown(page, text):
    for number, line in enumerate(text.split('\n'), 1):
        if re.match(r'( {1,3}| {5,}|\t)\$ ', line):
            yield f'{page}:{number}: docs/try.sh passes over this command line'


def main():
    words = known_words()
    found = []
    for page in PAGES:
        text = read(page)
        found += check_names(page, text, words)
        found += check_counts(page, text)
        found += check_style(page, text)
        if page.endswith('.md'):
            found += check_paths(page, text)
            found += check_shown(page, text)
            found += check_pairs(page, text)
    found += check_cases(WRONG_BODIES, read(WRONG_BODIES))
    found += check_names(WRONG_BODIES, read(WRONG_BODIES), words)
    found += check_messages(read('docs/messages.md'))
    found += check_trusted(read('docs/proof.md'))
    print('\n'.join(found) if found else f'{len(PAGES)} pages agree')
    return 1 if found else 0


if __name__ == '__main__':
    sys.exit(main())
