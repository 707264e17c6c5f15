#!/usr/bin/env python3
"""Writes texts of systems at the limits, in each form, and measures how long they take to be read.

Usage: bench/reading.py [PROGRAM]
PROGRAM is crates/benches/out/benches unless it is named. Each file has 16,777,216 bytes: a system file and a state
graph of 4,096 states, 256 labels and 262,144 arcs, a word list of 4,096 prefixes and 256 labels whose words come again and
again, and one that is a single remark of short words. `seconds` is the time of the one call that reads, and `MB` the peak
memory of the whole program, in which the bytes themselves are. It is run by hand and is no test.
"""
import os
import re
import subprocess
import sys
import tempfile

STATES, LABELS, ARCS, MOST_BYTES = 4096, 256, 262_144, 16_777_216


def arcs():
    for i in range(ARCS):
        s, t = i % STATES, i // STATES * 4 % LABELS + i % 4
        yield i, s, t, (s * 7 + i // STATES) % STATES


def system_file():
    yield '.name "limits"\n.description "as many states, labels and arcs as a system may have"\n.type LTS\n.states\n'
    for s in range(STATES):
        yield f's{s}[initial="true", note="first"]\n' if s == 0 else f's{s}[note=x] // state {s}\n'
    yield '.labels\n'
    for t in range(LABELS):
        yield f'label_{t}[uncontrollable] /* label {t} */\n'
    yield '.arcs\n'
    for i, s, t, target in arcs():
        yield f's{s} label_{t} s{target} [weight="{i}", kept] // {i}\n'


def state_graph():
    yield '.model limits\n.inputs ' + ' '.join(f'label_{t}' for t in range(LABELS)) + '\n.state graph # arcs\n'
    for i, s, t, target in arcs():
        yield f's{s} label_{t} s{target} # arc {i}\n'
    yield '.marking {s0}\n'


def words():
    """The words of a tree of 4,096 prefixes: 15 of 256 labels and one of 255, no two of which begin alike."""
    return [' '.join(f'{(start + i) % LABELS:02x}' for i in range(LABELS - (start == 15))) + '\n' for start in range(16)]


def word_list():
    whole = ''.join(words())
    yield whole * (MOST_BYTES // len(whole))


# What is measured: the form, its lines, and what fills the file up to the last byte, before, in between and after.
TEXTS = (('system', 'system file', system_file, ('/*', '-', '*/')),
         ('graph', 'state graph', state_graph, ('#', '-', '\n.end')),
         ('words', 'word list', word_list, ('#', '-', '')),
         ('words', 'remark', lambda: (), ('#', ' a', '')))


def filled(lines, before, between, behind):
    text = ''.join(lines)
    rest = MOST_BYTES - len(text) - len(before) - len(behind)
    assert rest >= 0, f'{-rest} bytes too many'
    return text + before + (between * rest)[:rest] + behind


def measured(program, form, path):
    with subprocess.Popen([program, 'read', form, path], stdout=subprocess.PIPE, stderr=subprocess.PIPE, text=True) as ran:
        out, err = ran.stdout.read(), ran.stderr.read()
        _, status, usage = os.wait4(ran.pid, 0)
        ran.returncode = os.waitstatus_to_exitcode(status)
    spent = re.search(r'^(\d+) nanoseconds$', err, re.M)
    assert ran.returncode == 0 and spent, f'{form}: status {ran.returncode}, {out}{err}'
    return out.strip(), int(spent.group(1)) / 1e9, usage.ru_maxrss / 1024


def main():
    program = sys.argv[1] if len(sys.argv) > 1 else os.path.join(
        os.path.dirname(os.path.abspath(__file__)), '..', 'crates', 'benches', 'out', 'benches')
    print('text | what was read | seconds | MB')
    with tempfile.TemporaryDirectory() as folder:
        for form, name, lines, filling in TEXTS:
            path = os.path.join(folder, name.replace(' ', '_'))
            with open(path, 'w') as file:
                file.write(filled(lines(), *filling))
            assert os.path.getsize(path) == MOST_BYTES
            out, seconds, peak = measured(program, form, path)
            print(f'{name} | {out} | {seconds:.2f} | {peak:.0f}')


if __name__ == '__main__':
    main()
