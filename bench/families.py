#!/usr/bin/env python3
"""Families of systems: writes one, or measures the program on all of them.

    bench/families.py write philosophers 6 > philosophers6.apt
    bench/families.py write log 100 20 30 1 > log.apt
    bench/families.py run PROGRAM [none pure ..]
    bench/families.py compare EARLIER PROGRAM [none pure ..]
    bench/families.py speed EARLIER PROGRAM [none pure ..]
    bench/families.py jobs PROGRAM [none pure ..]
    bench/families.py threads PROGRAM [none pure ..]
    bench/families.py blocks crates/benches/out/benches [none pure ..]
    bench/families.py growth PROGRAM [none pure ..]
    bench/families.py commands PROGRAM
    bench/families.py slow PROGRAM [100]
    bench/families.py pair EARLIER PROGRAM 15 ring:120 chain:120 log:100:20:30:1

PROGRAM is `regions`, as `rt run` makes it in crates/regions/out; EARLIER is that of an earlier commit. The classes are `none`, `pure`,
`safe`, `plain`, `plain,safe` and `pure,plain,safe`, and `2-bounded` alone for the family that branches, unless some are named. It is run
by hand and is no test.

`write FAMILY NUMBER ..` prints a system as APT text. Most families take one number. `log RUNS LENGTH LABELS SEED` is the tree of the
prefixes of random runs, `word LENGTH LABELS SEED` one random run.
`run` prints the status, the seconds, the peak memory as GNU time gives it, the numbers of states and of separation problems, how many
places the net has or how many nodes (splits and leaves) the certificate's trees have, how many bytes are written to standard output, and
what is written to standard error.
`compare` runs an earlier program first, and prints its seconds, memory and places in columns of their own.
`speed` runs both programs five times by turns, and prints the least and the middle processor seconds and the peak of memory of each. It
says so if the bytes differ, which they never may.
`jobs` prints the seconds and the memory with 1, 2, 4 and 16 jobs, and says so if the bytes differ.
`threads` prints the middle of five runs' seconds of the clock with 1, 2 and 4 jobs, by turns, and the seconds of four simultaneous runs
with one job each, which show how much the machine's processors slow each other down.
`blocks` prints how many problems all blocks have, as a gate counts them, and the places of the net: no kept place separated such a
problem when its block was formed, so no more problems are solved.
`growth` prints the least processor seconds of three runs for growing sizes, and the peak of memory; what takes 5 seconds runs once.
`commands` prints the least seconds and the peak of memory of `split`, `factor`, `check`, `verify`, `examine`, `isomorphic` and `convert` on
some large systems.
`slow` prints what some runs that take long come to within so many seconds.
`pair` prints the middle seconds of the clock of so many runs by turns, of both programs with 1, 2 and 4 jobs.

checks/systems.py has the families.
"""
import os
import re
import subprocess
import sys
import tempfile
import time

sys.path.insert(0, os.path.join(os.path.dirname(os.path.abspath(__file__)), '..', 'checks'))
from systems import FAMILIES, log, parsed, problems, text, written

CLASSES = ('none', 'pure', 'safe', 'plain', 'plain,safe', 'pure,plain,safe')
# the classes in which a family is measured, where they aren't all
OWN_CLASSES = {'countdown': ('2-bounded',)}
LOG, WORD = ('log', 100, 20, 30, 1), ('word', 300, 60, 1)
SIZES = (*(('grid', n) for n in (10, 20, 40, 63)), *(('lock', n) for n in (2, 3, 4, 5, 6)), *(('doubling', n) for n in (20, 40, 100, 127)),
         *(('philosophers', n) for n in (3, 4, 5, 6)), ('star', 40), ('star', 120), ('turns', 60), ('turns', 200), ('prefixes', 10),
         ('prefixes', 30), ('chain', 60), ('chain', 120), ('ring', 60), ('ring', 120), ('rings', 3), ('rings', 4), ('halves', 42),
         ('torus', 16), ('countdown', 10), LOG, WORD)
SPEED = (('grid', 63), ('lock', 7), ('philosophers', 8), ('ring', 60), ('ring', 120), ('chain', 60), ('chain', 120), ('star', 120),
         ('prefixes', 30), ('rings', 5), ('doubling', 100), ('torus', 32), ('countdown', 14), LOG, WORD)
GROWTH = (('ring', (30, 60, 120, 240)), ('chain', (30, 60, 120, 240)), ('star', (30, 60, 120, 240)), ('torus', (8, 16, 32, 64)),
          ('philosophers', (5, 6, 7, 8)), ('rings', (3, 4, 5)), ('grid', (10, 20, 40, 63)))
# what doesn't end soon
SLOW = ((('countdown', 18), '2-bounded'), (('countdown', 24), '2-bounded'), (('log', 300, 30, 60, 1), 'none'), (('word', 1000, 250, 1), 'pure'))
RUNS = 5


def measure(program, class_word, path, *options):
    begin = time.monotonic()
    words = [program, 'synthesize', class_word, path, *options]
    child = subprocess.run(['/usr/bin/time', '-q', '-f', '%M', *words], capture_output=True)
    seconds = time.monotonic() - begin
    *said, peak = child.stderr.decode().strip().split('\n')
    return child.returncode, seconds, int(peak) / 1024, child.stdout, ' '.join(said)


def places(out):
    """The entries of the net's list of places."""
    lines = out.decode().split('\n')
    if '.places' not in lines:
        return 0
    first = lines.index('.places') + 1
    return lines.index('.transitions') - first


def nodes(out):
    """The splits and leaves of the certificate's trees."""
    return sum(line == 'leaf' or line.startswith('split ') for line in out.decode().split('\n'))


def named(system):
    return ' '.join(map(str, system))


def put(folder, system):
    """Writes the file of a system, and returns its path."""
    path = os.path.join(folder, '_'.join(map(str, system)) + '.apt')
    with open(path, 'w') as file:
        file.write(written(*system))
    return path


def measured(systems, classes):
    """Each system's name and file, with each class in which it is measured."""
    with tempfile.TemporaryDirectory() as folder:
        for system in systems:
            path = put(folder, system)
            for class_word in OWN_CLASSES.get(system[0], classes) if classes is CLASSES else classes:
                yield named(system), path, class_word


def run(programs, classes):
    columns = ['status', 'seconds', 'MiB', 'places', 'nodes', 'bytes'] * len(programs)
    print(' | '.join(['family', 'class', 'states', 'problems', *columns, 'err']))
    for name, path, class_word in measured(SIZES, classes):
        system = parsed(open(path).read())
        line = [name, class_word, f'{len(system[0]):,}', f'{problems(*system):,}']
        for program in programs:
            status, seconds, peak, out, said = measure(program, class_word, path)
            line += [str(status), f'{seconds:.2f}', f'{peak:.1f}', f'{places(out):,}', f'{nodes(out):,}', f'{len(out):,}']
        print(' | '.join([*line, said]), flush=True)


def slow(program, limit):
    """What a run comes to within so many seconds."""
    print(' | '.join(['family', 'class', 'status', 'seconds', 'MiB', 'nodes', 'bytes']))
    with tempfile.TemporaryDirectory() as folder:
        for system, class_word in SLOW:
            path = put(folder, system)
            try:
                ran = subprocess.run(['/usr/bin/time', '-q', '-f', '%e %M', program, 'synthesize', class_word, path], capture_output=True, timeout=limit)
            except subprocess.TimeoutExpired:
                print(f'{named(system)} | {class_word} | | over {limit} | | |', flush=True)
                continue
            seconds, peak = ran.stderr.decode().strip().split('\n')[-1].split()
            print(f'{named(system)} | {class_word} | {ran.returncode} | {seconds} | {int(peak) / 1024:.0f} | {nodes(ran.stdout):,} | {len(ran.stdout):,}', flush=True)


def processor(program, class_word, path):
    """The status, the processor seconds, the peak of memory in MiB, and the bytes of a run."""
    words = [program, 'synthesize', class_word, path]
    child = subprocess.run(['/usr/bin/time', '-q', '-f', '%U %S %M', *words], capture_output=True)
    user, system, peak = child.stderr.decode().strip().split('\n')[-1].split()
    return child.returncode, float(user) + float(system), int(peak) / 1024, child.stdout


def speed(programs, classes):
    columns = [f'{what}, {which}' for which in ('earlier', 'new') for what in ('least', 'middle', 'MiB')]
    print(' | '.join(['family', 'class', 'status', *columns]))
    for name, path, class_word in measured(SPEED, classes):
        ran = [[processor(program, class_word, path) for program in programs] for _ in range(RUNS)]
        line = [name, class_word, str(ran[0][-1][0])]
        for k in range(len(programs)):
            seconds = sorted(both[k][1] for both in ran)
            line += [f'{seconds[0]:.2f}', f'{seconds[RUNS // 2]:.2f}', f'{max(both[k][2] for both in ran):.1f}']
        if any((one[0], one[3]) != (ran[0][0][0], ran[0][0][3]) for both in ran for one in both):
            line.append('THE BYTES DIFFER')
        print(' | '.join(line), flush=True)


def with_jobs(program, classes):
    counts = ('1', '2', '4', '16')
    columns = [f'{what} with {count}' for count in counts for what in ('seconds', 'MiB')]
    print(' | '.join(['family', 'class', 'status', *columns]))
    for name, path, class_word in measured(SIZES, classes):
        ran = [measure(program, class_word, path, '--jobs', count) for count in counts]
        line = [name, class_word, str(ran[0][0])]
        line += [part for one in ran for part in (f'{one[1]:.2f}', f'{one[2]:.1f}')]
        if any((one[0], one[3]) != (ran[0][0], ran[0][3]) for one in ran):
            line.append('THE BYTES DIFFER')
        print(' | '.join(line), flush=True)


def clock(program, class_word, path, jobs, count):
    """The seconds of the clock until so many runs that are begun at once have ended."""
    begun = time.monotonic()
    words = [program, 'synthesize', class_word, path, '--jobs', jobs]
    for child in [subprocess.Popen(words, stdout=subprocess.DEVNULL, stderr=subprocess.DEVNULL) for _ in range(count)]:
        child.wait()
    return time.monotonic() - begun


def threads(program, classes):
    print(' | '.join(['family', 'class', '1 job', '2 jobs', '4 jobs', 'four runs at once']))
    for name, path, class_word in measured(SPEED, classes):
        ways = (('1', 1), ('2', 1), ('4', 1), ('1', 4))
        ran = [[clock(program, class_word, path, *way) for way in ways] for _ in range(RUNS)]
        middle = [sorted(column)[RUNS // 2] for column in zip(*ran)]
        print(' | '.join([name, class_word, *(f'{seconds:.2f}' for seconds in middle)]), flush=True)


def least(words, times):
    """The least processor seconds, the peak of memory in MiB, the status and the bytes of so many runs, or of one that takes 5 seconds."""
    ran = []
    while len(ran) < times and (not ran or ran[0][0] < 5):
        child = subprocess.run(['/usr/bin/time', '-q', '-f', '%U %S %M', *words], capture_output=True)
        user, system, peak = child.stderr.decode().strip().split('\n')[-1].split()
        ran.append((float(user) + float(system), int(peak) / 1024, child.returncode, child.stdout))
    return min(ran)


def growth(program, classes):
    print(' | '.join(['family', 'size', 'states', 'labels', *classes, 'MiB']))
    with tempfile.TemporaryDirectory() as folder:
        for family, sizes in GROWTH:
            for n in sizes:
                system = written(family, n)
                names, labels, _ = parsed(system)
                path = os.path.join(folder, 'system.apt')
                with open(path, 'w') as file:
                    file.write(system)
                ran = [least([program, 'synthesize', class_word, path], 3) for class_word in classes]
                line = [family, str(n), f'{len(names):,}', str(len(labels)), *(f'{one[0]:.2f}' for one in ran)]
                print(' | '.join([*line, f'{max(one[1] for one in ran):.0f}']), flush=True)


def commands(program):
    print(' | '.join(['command', 'status', 'seconds', 'MiB']))
    with tempfile.TemporaryDirectory() as folder:
        os.chdir(folder)

        def put(name, content):
            with open(name, 'wb') as file:
                file.write(content if isinstance(content, bytes) else content.encode())

        def show(what, *words):
            seconds, peak, status, out = least([program, *words], 3)
            print(' | '.join([what, str(status), f'{seconds:.2f}', f'{peak:.0f}']), flush=True)
            return out

        for family, n in (('star', 120), ('torus', 64)):
            put(f'{family}{n}.apt', written(family, n))
        put('log.apt', text(*log(50, 20, 13, 1)))
        put('random.apt', text(*log(30, 12, 10, 2)))
        for name in ('star120', 'torus64'):
            put(f'{name}.net', subprocess.run([program, 'synthesize', 'none', f'{name}.apt'], capture_output=True).stdout)
            show(f'check none {name}', 'check', 'none', f'{name}.apt', f'{name}.net')
        show('factor torus64', 'factor', 'torus64.apt')
        for class_word in ('none', 'pure', 'safe'):
            show(f'factor --class {class_word} torus64', 'factor', 'torus64.apt', '--class', class_word)
        show('split log of 50 runs of 20 out of 13 labels', 'split', 'log.apt')
        show('split log of 30 runs of 12 out of 10 labels', 'split', 'random.apt')
        states = [f's{i}' for i in range(1024)]
        around = [(f's{i}', f't{i % 64}', f's{(i + 1) % 1024}') for i in range(1024)]
        put('turns.apt', text(states, [f't{i}' for i in range(64)], around))
        put('turns.cert', show('synthesize output-nonbranching, 16 turns of 64 labels', 'synthesize', 'output-nonbranching', 'turns.apt'))
        show('verify its certificate', 'verify', 'turns.apt', 'turns.cert')
        forked = [(f's{i}', f't{k}', f's{(i * 7 + k * 13 + j) % 4096}') for i in range(64) for k in range(32) for j in range(64)]
        put('forked.apt', text([f's{i}' for i in range(4096)], [f't{i}' for i in range(32)], sorted(set(forked))))
        show('examine 4,096 states, forks to 64 states', 'examine', 'forked.apt')
        show('examine torus64', 'examine', 'torus64.apt')
        show('isomorphic torus64 torus64', 'isomorphic', 'torus64.apt', 'torus64.apt')
        show('convert graph torus64', 'convert', 'graph', 'torus64.apt')


def pair(programs, times, families, classes):
    print(' | '.join(['family', 'class', *(f'{which}, {jobs} jobs' for which in ('earlier', 'new') for jobs in (1, 2, 4))]))
    systems = [(name, *map(int, numbers)) for name, *numbers in (family.split(':') for family in families)]
    for name, path, class_word in measured(systems, classes):
        ran = [[clock(program, class_word, path, jobs, 1) for program in programs for jobs in '124'] for _ in range(times)]
        middle = [sorted(column)[times // 2] for column in zip(*ran)]
        print(' | '.join([name, class_word, *(f'{seconds:.2f}' for seconds in middle)]), flush=True)


def blocks(program, classes):
    print(' | '.join(['family', 'class', 'status', 'problems', 'in blocks', 'places']))
    for name, path, class_word in measured(SIZES, classes):
        ran = subprocess.run([program, 'solve', 'synthesize', class_word, path, '--jobs', '2'], capture_output=True)
        last = ran.stdout.decode().strip().split('\n')[-1]
        status, entered = re.fullmatch(r'status (\d+), (\d+) problems in blocks', last).groups()
        of_system = problems(*parsed(open(path).read()))
        print(f'{name} | {class_word} | {status} | {of_system:,} | {int(entered):,} | {places(ran.stdout):,}', flush=True)


def main():
    words = sys.argv[1:]
    if len(words) >= 3 and words[0] == 'write' and words[1] in FAMILIES:
        sys.stdout.write(text(*FAMILIES[words[1]](*map(int, words[2:]))))
    elif len(words) >= 2 and words[0] == 'run':
        run(words[1:2], words[2:] or CLASSES)
    elif len(words) >= 2 and words[0] == 'jobs':
        with_jobs(words[1], words[2:] or CLASSES)
    elif len(words) >= 2 and words[0] == 'threads':
        threads(words[1], words[2:] or CLASSES)
    elif len(words) >= 2 and words[0] == 'blocks':
        blocks(words[1], words[2:] or CLASSES)
    elif len(words) >= 2 and words[0] == 'growth':
        growth(os.path.abspath(words[1]), words[2:] or CLASSES)
    elif len(words) == 2 and words[0] == 'commands':
        commands(os.path.abspath(words[1]))
    elif len(words) in (2, 3) and words[0] == 'slow':
        slow(os.path.abspath(words[1]), int(words[2]) if words[2:] else 100)
    elif len(words) >= 5 and words[0] == 'pair':
        pair([os.path.abspath(word) for word in words[1:3]], int(words[3]), words[4:], CLASSES)
    elif len(words) >= 3 and words[0] == 'compare':
        run(words[1:3], words[3:] or CLASSES)
    elif len(words) >= 3 and words[0] == 'speed':
        speed(words[1:3], words[3:] or CLASSES)
    else:
        sys.exit(__doc__)


if __name__ == '__main__':
    main()
