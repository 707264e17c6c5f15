#!/usr/bin/env python3
"""Measures the judge of nets, with the built program benches, and prints a table.

    bench/judging.py crates/regions/out/regions [crates/benches/out/benches]

The nets are those that the first program writes for the grid of 63 and the lock of nine users, for the class `none`, and two made
ones of 16,384 places for 4,096 states and 262,144 arcs, which they solve, so that every chord is compared on every place: in the first
one each label but one moves tokens on two places, in the second on 8,192, which makes a net file of 10 MB. `seconds` is what the judge
takes beyond reading, `in all` and `MiB` are those of the whole run. It is run by hand and is no test.
"""
import os
import re
import subprocess
import sys
import tempfile
import time

sys.path.insert(0, os.path.join(os.path.dirname(os.path.abspath(__file__)), '..', 'checks'))
from systems import grid, lock, text

HEAD = ('system', 'states', 'arcs', 'labels', 'places', 'verdict', 'seconds', 'in all', 'MiB')

SIDE, COPIES = 64, 4_096


def steps(up, down):
    """The steps of one counter, each with its label's word."""
    return [(k, f'u{k}') for k in range(1, up + 1)] + [(-k, f'd{k}') for k in range(1, down + 1)]


def made():
    """Two counters from 0 to 63 that move by up to 19, and a loop while the first is at least 27."""
    moves = {'a': steps(19, 19), 'b': steps(19, 18)}
    labels = [axis + word for axis in moves for _, word in moves[axis]] + ['loop']
    states, arcs = [f's{i}_{j}' for i in range(SIDE) for j in range(SIDE)], []
    for i in range(SIDE):
        for j in range(SIDE):
            here = f's{i}_{j}'
            arcs += [(here, 'a' + word, f's{i+k}_{j}') for k, word in moves['a'] if 0 <= i + k < SIDE]
            arcs += [(here, 'b' + word, f's{i}_{j+k}') for k, word in moves['b'] if 0 <= j + k < SIDE]
            if i >= 27:
                arcs.append((here, 'loop', here))
    return states, labels, arcs


def members(axis, kind, weight, moved):
    return ', '.join(f'{weight * n}*{axis}{kind}{n}' for n in range(1, moved + 1))


def made_net(moved):
    """A net for the made system. Each counter has 4,096 places for what it has and 4,096 for what it lacks: so many multiples, and
    the others without any token."""
    places = [f'{axis}{kind}{n}' for axis in 'ab' for kind in ('has', 'lacks') for n in range(1, COPIES + 1)]
    moves = {'a': steps(19, 19), 'b': steps(19, 18)}
    flows = []
    for axis in moves:
        for k, word in moves[axis]:
            less, more = ('lacks', 'has') if k > 0 else ('has', 'lacks')
            flows.append(f'{axis}{word}: {{{members(axis, less, abs(k), moved)}}} -> {{{members(axis, more, abs(k), moved)}}}')
    loop = members('a', 'has', 27, moved)
    flows.append(f'loop: {{{loop}}} -> {{{loop}}}')
    labels = made()[1]
    start = ', '.join(members(axis, 'lacks', SIDE - 1, moved) for axis in moves)
    lines = ['.type PN', '.places', *places, '.transitions', *labels, '.flows', *flows, f'.initial_marking {{{start}}}']
    return '\n'.join(lines) + '\n'


def synthesized(program, path):
    return subprocess.run([program, 'synthesize', 'none', path], capture_output=True, check=True).stdout.decode()


def judged(program, system, net):
    begin = time.monotonic()
    ran = subprocess.run(['/usr/bin/time', '-q', '-f', '%M', program, 'judge', system, net], capture_output=True, text=True, check=True)
    seconds = time.monotonic() - begin
    spent = re.search(r'^judged: (\d+) nanoseconds$', ran.stderr, re.M)
    peak = int(ran.stderr.strip().split('\n')[-1]) / 1024
    if spent is None:
        sys.exit(ran.stderr)
    return ran.stdout.strip(), f'{int(spent[1]) / 1e9:.3f}', f'{seconds:.3f}', f'{peak:.1f}'


def main():
    if len(sys.argv) not in (2, 3):
        sys.exit(__doc__)
    here = os.path.dirname(os.path.abspath(__file__))
    judge = sys.argv[2] if len(sys.argv) == 3 else os.path.join(here, '..', 'crates', 'benches', 'out', 'benches')
    print(' | '.join(HEAD))
    with tempfile.TemporaryDirectory() as folder:
        system_path, net_path = os.path.join(folder, 'system.apt'), os.path.join(folder, 'net')
        for name, system, moved in (('grid 63', grid(63), 0), ('lock 9', lock(9), 0), ('made', made(), 1), ('made, dense', made(), COPIES)):
            with open(system_path, 'w') as file:
                file.write(text(*system))
            net = made_net(moved) if moved else synthesized(sys.argv[1], system_path)
            with open(net_path, 'w') as file:
                file.write(net)
            lines = net.split('\n')
            places = lines.index('.transitions') - lines.index('.places') - 1
            counts = [f'{n:,}' for n in (len(system[0]), len(system[2]), len(system[1]), places)]
            print(' | '.join([name, *counts, *judged(judge, system_path, net_path)]), flush=True)


if __name__ == '__main__':
    main()
