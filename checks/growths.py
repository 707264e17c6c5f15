#!/usr/bin/env python3
"""Refuses each growth of memory once, and looks at how the program ends.

    checks/growths.py all crates/regions/out/regions
    checks/growths.py try [N ..]

Each case below is run without a refusal first. Then its Nth growth is refused: the run has to end with status 7 and nothing
written, or as without the refusal. `all` preloads a shim that counts the calls of `malloc` and `realloc` and lets the
Nth give no memory; it takes every N up to the count, and of a case with more than 5,000 growths the first 2,000 and then every
97th. With more than one job the Nth growth may be another one in each run. A growth before `main` has its words counts too, and ends
with 7. It needs a C compiler (`cc`). `try` has the toolchain
refuse the growths (`rt try --fail-alloc N`, the numbers 1 to 20 unless some are named), which builds anew for each number: half a
minute and more. Both print each N that is neither, and at last `N refusals, M failures`. It is run by hand and is no test.
"""
import os
import re
import subprocess
import sys
import tempfile

from systems import written

SIDE = """.name "side"
.description "a loop, then b"
.type LTS

.states
s0[initial="true"] s1[final]
.labels
a[uncontrollable] b
.arcs
s0 a s0 // the loop
s0 b s1
"""

NET = """.type PN
.places
p0
.transitions
a
b
.flows
a: {p0} -> {p0}
b: {p0} -> {}
.initial_marking {p0}
"""

# two arcs of one label leave s0
FORK = """.type LTS
.states
s0[initial]
s1
s2
.labels
a
b
.arcs
s0 a s1
s0 a s2
s2 b s0
"""

# two toggles that don't know of each other
TOGGLES = """.type LTS
.states
s0[initial]
s1
s2
s3
.labels
a
b
c
d
.arcs
s0 a s1
s1 b s0
s0 c s2
s2 d s0
s1 c s3
s3 d s1
s2 a s3
s3 b s2
"""

CERTIFICATE = """certificate 1
class pure
event s1 a
case
leaf
1 block
1 tokens s1
1 arc s0 a s0
end
"""


FILES = {'side.apt': SIDE, 'side.net': NET, 'side.cert': CERTIFICATE, 'open.apt': '.type LTS /* x', 'aba.words': 'a b a',
         'doubling.apt': written('doubling', 127), 'fork.apt': FORK, 'toggles.apt': TOGGLES}

CASES = [
    ['synthesize', 'none', 'side.apt'],
    ['synthesize', 'pure', 'side.apt'],
    ['synthesize', 'none', 'open.apt'],
    ['verify', 'side.apt', 'side.cert'],
    ['check', 'none', 'side.apt', 'side.net'],
    ['convert', 'graph', 'aba.words', '--from', 'words'],
    ['generate', 'grid', '1'],
    ['selftest', '1'],
    [],
    ['synthesize', 'none', 'doubling.apt'],
    ['synthesize', 'plain', 'toggles.apt'],
    ['synthesize', '2-bounded', 'toggles.apt'],
    ['synthesize', 'plain,output-nonbranching', 'side.apt'],
    ['synthesize', '2-marking', 'side.apt'],
    ['synthesize', 'pure', 'toggles.apt', '--jobs', '4'],
    ['split', 'fork.apt'],
    ['split', 'side.apt', '--jobs', '4'],
    ['factor', 'toggles.apt'],
    ['factor', 'toggles.apt', '--class', 'safe', '--jobs', '4'],
    ['factor', 'side.apt'],
    ['isomorphic', 'toggles.apt', 'side.apt'],
    ['isomorphic', 'toggles.apt', 'toggles.apt'],
    ['examine', 'fork.apt'],
    ['examine', 'toggles.apt', '--json'],
]

SHIM = r"""
#define _GNU_SOURCE
#include <dlfcn.h>
#include <stdio.h>
#include <stdlib.h>
#include <sys/syscall.h>
#include <unistd.h>
static long calls, fail = -1;
static void *(*plain_malloc)(size_t), *(*plain_realloc)(void *, size_t);
static int refused(void) { return __atomic_add_fetch(&calls, 1, __ATOMIC_RELAXED) == fail; }
__attribute__((constructor)) static void begin(void) {
  plain_malloc = dlsym(RTLD_NEXT, "malloc"); plain_realloc = dlsym(RTLD_NEXT, "realloc");
  const char *number = getenv("FAIL_ALLOC"); calls = 0; if (number) fail = atol(number); }
__attribute__((destructor)) static void end(void) {
  const char *path = getenv("COUNT_ALLOC"); if (!path) return;
  long all = calls; fail = -1; FILE *file = fopen(path, "w"); if (file) { fprintf(file, "%ld", all); fclose(file); } }
void _exit(int status) { end(); syscall(SYS_exit_group, status); for (;;) {} }
void *malloc(size_t n) { if (!plain_malloc) plain_malloc = dlsym(RTLD_NEXT, "malloc"); return refused() ? NULL : plain_malloc(n); }
void *realloc(void *p, size_t n) { if (!plain_realloc) plain_realloc = dlsym(RTLD_NEXT, "realloc"); return refused() ? NULL : plain_realloc(p, n); }
"""


def ended(child):
    return child.returncode, child.stdout, child.stderr


def is_right(ran, without):
    return ran == without or ran == (7, b'', b'')


def report(case, number, ran, failures):
    print(f'{" ".join(case) or "no word"}: growth {number}: {ran}', flush=True)
    return failures + 1


def run_all(program):
    program = os.path.abspath(program)
    refusals = failures = 0
    with tempfile.TemporaryDirectory() as folder:
        for name, text in FILES.items():
            with open(os.path.join(folder, name), 'w') as file:
                file.write(text)
        shim, source, count = (os.path.join(folder, name) for name in ('shim.so', 'shim.c', 'count'))
        with open(source, 'w') as file:
            file.write(SHIM)
        subprocess.run(['cc', '-shared', '-fPIC', '-O1', '-o', shim, source, '-ldl'], check=True)
        for case in CASES:
            run = lambda **more: ended(subprocess.run([program, *case], cwd=folder, capture_output=True,
                                                      env={**os.environ, 'LD_PRELOAD': shim, **more}, timeout=60))
            without = run(COUNT_ALLOC=count)
            with open(count) as file:
                growths = int(file.read())
            numbers = range(1, growths + 1)
            if growths > 5000:
                numbers = [*range(1, 2001), *range(2001, growths + 1, 97)]
            for number in numbers:
                ran = run(FAIL_ALLOC=str(number))
                refusals += 1
                if not is_right(ran, without):
                    failures = report(case, number, ran, failures)
            print(f'{" ".join(case) or "no word"}: status {without[0]}, {growths} growths, {len(numbers)} refused', flush=True)
    print(f'{refusals} refusals, {failures} failures')
    return failures


def run_try(numbers):
    crate = os.path.join(os.path.dirname(os.path.abspath(__file__)), '..', 'crates', 'regions')
    refusals = failures = 0
    with tempfile.TemporaryDirectory() as folder:
        data = []
        for name, text in FILES.items():
            path = os.path.join(folder, name)
            with open(path, 'w') as file:
                file.write(text)
            data += ['--data', f'{name}={path}']
        for case in CASES:
            for number in numbers:
                words = ['rt', 'try', '--fail-alloc', str(number), *data, '--', *case]
                child = subprocess.run(words, cwd=crate, capture_output=True, text=True)
                said = re.search(r'status=(\d+)', child.stdout + child.stderr)
                refusals += 1
                if not said or int(said.group(1)) > 7:
                    failures = report(case, number, (child.returncode, child.stdout[-300:], child.stderr[-300:]), failures)
    print(f'{refusals} refusals, {failures} failures')
    return failures


def main():
    words = sys.argv[1:]
    if len(words) == 2 and words[0] == 'all':
        sys.exit(1 if run_all(words[1]) else 0)
    if words[:1] == ['try']:
        sys.exit(1 if run_try([int(word) for word in words[1:]] or range(1, 21)) else 0)
    sys.exit(__doc__)


if __name__ == '__main__':
    main()
