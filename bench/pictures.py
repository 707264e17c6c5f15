#!/usr/bin/env python3
"""Makes the pictures of the pages, docs/img/*.svg, from the repository's own data.

    bench/pictures.py PROGRAM                  all pictures (Graphviz's `dot` draws the graphs)

Systems and nets are drawn by tools/lts2dot.awk and tools/net2dot.awk from what PROGRAM writes, the plots from the tables in
bench/measured.
"""
import math
import os
import re
import subprocess
import sys

TOP = os.path.dirname(os.path.dirname(os.path.abspath(__file__)))
IMG = os.path.join(TOP, 'docs', 'img')
COLORS = ('#1f77b4', '#d62728', '#2ca02c', '#9467bd', '#8c564b', '#ff7f0e', '#17becf', '#7f7f7f')


def run(words, text=''):
    return subprocess.run(words, input=text, capture_output=True, text=True, check=False, cwd=TOP).stdout


def draw(name, graph):
    svg = run(['dot', '-Tsvg'], graph)
    svg = re.sub(r'<!--.*?-->\n?', '', svg, flags=re.S)
    with open(os.path.join(IMG, name + '.svg'), 'w', encoding='utf-8') as file:
        file.write(svg)


def draw_system(program, name, words):
    draw(name, run(['awk', '-f', 'tools/lts2dot.awk'], run([program, 'convert', 'apt', *words])))


def draw_net(program, name, words, renamed_by=None):
    net = run([program, 'synthesize', *words])
    if renamed_by is not None:
        with open(os.path.join(IMG, 'net.tmp'), 'w', encoding='ascii') as file:
            file.write(net)
        net = run(['awk', '-f', 'examples/old-names.awk', renamed_by, os.path.join(IMG, 'net.tmp')])
        os.remove(os.path.join(IMG, 'net.tmp'))
    draw(name, run(['awk', '-f', 'tools/net2dot.awk'], net))


def peterson(program):
    """What the certificate of Peterson's algorithm says of its system."""
    cert = os.path.join(IMG, 'cert.tmp')
    with open(cert, 'w', encoding='ascii') as file:
        file.write(run([program, 'synthesize', 'none', 'examples/peterson.apt']))
    draw('peterson-why', run(['tools/why', 'examples/peterson.apt', cert, '--dot']))
    os.remove(cert)


def celement(program):
    """The state graph of the C-element with its signals, and its net."""
    plain = os.path.join(IMG, 'plain.tmp')
    with open(plain, 'w', encoding='ascii') as file:
        file.write(run(['awk', '-f', 'examples/plain-names.awk', 'examples/celement.sg']))
    graph = run(['awk', '-f', 'tools/lts2dot.awk'], run([program, 'convert', 'apt', plain, '--from', 'graph']))
    draw('celement', re.sub(r'label="(\w)_(plus|minus)"', lambda m: f'label="{m[1]}{"+" if m[2] == "plus" else "-"}"', graph))
    draw_net(program, 'celement-net', ['pure,safe', plain, '--from', 'graph'], plain)
    os.remove(plain)


def certificate():
    """The certificate with a split, as a tree: rows with their multipliers, and what they add up to."""
    lines = open(os.path.join(TOP, 'examples', 'cycle3-plain.cert'), encoding='ascii').read().split('\n')
    leaves, leaf = [], None
    for line in lines[5:-2]:
        if line == 'leaf':
            leaf = []
            leaves.append(leaf)
        else:
            leaf.append(line)
    boxes = [rows + ['adds up to -1 >= 0'] for rows in leaves]
    label = lambda rows: '\\l'.join(rows) + '\\l'
    draw('certificate', f'''digraph certificate {{
  node [shape=box, fontname=monospace, fontsize=11];
  root [label="event s0 b, class plain\\nsplit effect a 0"];
  low [label="{label(boxes[0])}"];
  high [label="{label(boxes[1])}"];
  root -> low [label="E(a) <= 0"];
  root -> high [label="E(a) >= 1"];
}}
''')


def chain():
    """The way from the command line to the answer, in three rows: what is proved, what is tested, what is trusted."""
    rows = (('proved', '#cfe8cf', ('words: what they ask', 'files: what they spell', 'solver: yes or no', 'net or certificate', 'judges: check, verify', 'text that is written')),
            ('tested', '#fdf2c0', ('main, exit status', 'FolderShelf: real files', 'StdSink: standard', 'output and error', 'threads that run', 'verdicts of selftest')),
            ('trusted', '#f3d0d0', ('operating system', 'C library, LLVM', 'Rattle: prover', 'and compilers', 'its standard library', 'clap, serde_json, ..')))
    body = []
    for k, (title, color, words) in enumerate(rows):
        top = 10 + 70 * k
        body.append(f'<rect x="80" y="{top}" width="650" height="60" fill="{color}" stroke="#999"/>'
                    f'<text x="10" y="{top + 34}" font-size="13" font-weight="bold">{title}</text>')
        for i, word in enumerate(words):
            body.append(f'<text x="{100 + 215 * (i // 2)}" y="{top + 24 + 22 * (i % 2)}" font-size="13">{word}</text>')
    save('chain', svg_of(740, 225, body))


def classes():
    """The classes without numbers: an arrow leads to a class that admits more nets."""
    words = ('pure', 'plain', 'safe')
    sets = [tuple(w for i, w in enumerate(words) if k >> i & 1) for k in range(8)]
    name = lambda chosen: ','.join(chosen) or 'none'
    arrows = [f'  "{name(more)}" -> "{name(less)}";' for more in sets for less in sets if set(less) < set(more) and len(more) == len(less) + 1]
    arrows.append('  "safe" -> "2-bounded" -> "3-bounded" -> "none";')
    arrows.remove('  "safe" -> "none";')
    draw('classes', 'digraph classes {\n  rankdir=BT; bgcolor=white; node [shape=box, fontname=monospace, fontsize=11];\n' + '\n'.join(arrows) + '\n}\n')


def square():
    """Two labels with a square at s, and two with a broken one."""
    draw('square', '''digraph square {
  rankdir=LR; bgcolor=white; node [shape=circle, fontsize=11];
  s -> s1 [label="t"]; s -> s2 [label="u"]; s1 -> s3 [label="u"]; s2 -> s3 [label="t"];
  q -> q1 [label="t"]; q -> q2 [label="u"]; q1 -> q3 [label="u"];
}
''')


# ---- plots

def svg_of(width, height, body):
    return f'<svg xmlns="http://www.w3.org/2000/svg" width="{width}" height="{height}" font-family="sans-serif" font-size="11">\n<rect width="100%" height="100%" fill="white"/>\n' + '\n'.join(body) + '\n</svg>\n'


def table_rows(name):
    """The head and the rows of a table of bench/measured."""
    with open(os.path.join(TOP, 'bench', 'measured', name + '.tsv'), encoding='utf-8') as file:
        rows = [line.rstrip('\n').split('\t') for line in file]
    return rows[0], rows[1:]


def panel(left, top, title, horizontal, exponents, points):
    """A log-log plot: points are (size, seconds, color, mark), lines (x, y pairs, color) join the points of one color."""
    width, height, (low, high) = 300, 200, exponents
    x = lambda n: left + width * (math.log10(n) - low) / (high - low)
    y = lambda s: top + height * (1 - (math.log10(max(s, 0.005)) + 2.4) / 4.2)
    body = [f'<rect x="{left}" y="{top}" width="{width}" height="{height}" fill="none" stroke="#999"/>',
            f'<text x="{left + width / 2:.0f}" y="{top - 6}" text-anchor="middle">{title}</text>',
            f'<text x="{left + width / 2:.0f}" y="{top + height + 30}" text-anchor="middle">{horizontal}</text>']
    for k in range(math.ceil(low), math.floor(high) + 1):
        body.append(f'<text x="{x(10 ** k):.0f}" y="{top + height + 14}" text-anchor="middle">10<tspan dy="-4" font-size="8">{k}</tspan></text>')
    for k in (0.01, 0.1, 1, 10):
        body.append(f'<text x="{left - 4}" y="{y(k) + 4:.0f}" text-anchor="end">{k} s</text>'
                    f'<line x1="{left}" x2="{left + width}" y1="{y(k):.0f}" y2="{y(k):.0f}" stroke="#ddd"/>')
    body.append(f'<text x="{left - 4}" y="{y(0.005) + 4:.0f}" text-anchor="end">less</text>')
    for n, seconds, color, mark in points:
        at, up = x(n), y(seconds)
        body.append({'dot': f'<circle cx="{at:.1f}" cy="{up:.1f}" r="3" fill="{color}"/>',
                     'square': f'<rect x="{at - 3:.1f}" y="{up - 3:.1f}" width="6" height="6" fill="{color}"/>',
                     'cross': f'<path d="M{at - 4:.1f} {up - 4:.1f}l8 8m0 -8l-8 8" stroke="{color}" fill="none"/>'}[mark])
    for color in dict.fromkeys(point[2] for point in points):
        way = sorted((n, seconds) for n, seconds, other, mark in points if other == color and mark == 'dot')
        body.append(f'<polyline points="{" ".join(f"{x(n):.1f},{y(s):.1f}" for n, s in way)}" stroke="{color}" fill="none"/>')
    return body


def second_method():
    """Seconds over the number of problems, of this program and of the second method, a panel for each class."""
    head, rows = table_rows('second-method')
    body = [f'<text x="60" y="16" fill="{COLORS[0]}">regions (a cross: status 4)</text>'
            f'<text x="300" y="16" fill="{COLORS[1]}">second method (a cross: stopped at 20 s)</text>']
    for k, class_word in enumerate(head[3:]):
        points = []
        for row in rows:
            if len(row) != len(head) or not re.match(r'[\d,]+$', row[2]):
                continue
            ours, theirs = [part.strip() for part in re.sub(r'\(\d+\)|no:|status 4:', '', row[3 + k]).split('/')]
            stopped, wide, n = theirs.startswith('over'), 'status 4' in row[3 + k], int(row[2].replace(',', ''))
            points.append((n, float(ours), COLORS[0], 'cross' if wide else 'square'))
            points.append((n, 20.0 if stopped else float(theirs), COLORS[1], 'cross' if stopped else 'square'))
        body += panel(60 + 370 * (k % 2), 50 + 270 * (k // 2), class_word, 'separation problems', (2, 7), points)
    save('second-method', svg_of(740, 570, body))


def growth():
    """Seconds over the number of labels or states of each family, a panel for each class."""
    head, rows = table_rows('growth')
    families = list(dict.fromkeys(row[0] for row in rows))
    body = [f'<text x="{60 + 100 * i}" y="16" fill="{COLORS[i]}">{family}</text>' for i, family in enumerate(families)]
    classes = head[4:-1]
    for k, class_word in enumerate(classes):
        points = [(int(row[2].replace(',', '')), float(row[4 + k]), COLORS[families.index(row[0])], 'dot') for row in rows]
        body += panel(60 + 370 * (k % 2), 50 + 270 * (k // 2), class_word, 'states', (1.3, 3.7), points)
    save('growth', svg_of(740, 30 + 270 * ((len(classes) + 1) // 2), body))


def region():
    """The region that docs/theory.md works out: the tokens of its place at each state of examples/aba.apt, and each arc's effect."""
    tokens = {'s0': 1, 's1': 0, 's2': 1, 's3': 0}
    system = open(os.path.join(TOP, 'examples', 'aba.apt'), encoding='ascii').read()
    arcs = re.findall(r'\b(s\d) (\w+) (s\d)\b', system[system.index('.arcs'):])
    nodes = [f'  {s} [label="{s}\\n{n}"];' for s, n in tokens.items()]
    lines = [f'  {s} -> {to} [label="{label} ({tokens[to] - tokens[s]:+d})"];' for s, label, to in arcs]
    draw('region', 'digraph region {\n  rankdir=LR; node [shape=circle, fontsize=11];\n' + '\n'.join(nodes + lines) + '\n}\n')


def speed_up():
    """How many times as fast two and four jobs are as one, for each row of the table of threads with 0.05 seconds at least."""
    head, rows = table_rows('threads')
    body, height = [], 30
    for row in rows:
        if len(row) != len(head):
            continue
        one, two, four = (float(row[i]) for i in (2, 3, 4))
        if one < 0.05:
            continue
        body.append(f'<text x="250" y="{height + 11}" text-anchor="end">{row[0]}, {row[1]}</text>')
        for k, (jobs, seconds) in enumerate(((2, two), (4, four))):
            width = 60 * one / seconds
            body.append(f'<rect x="256" y="{height + 8 * k}" width="{width:.0f}" height="7" fill="{COLORS[k]}"/><text x="{260 + width:.0f}" y="{height + 8 * k + 7}" font-size="8">{one / seconds:.1f}</text>')
        height += 20
    body.append(f'<text x="256" y="20" fill="{COLORS[0]}">2 jobs</text><text x="310" y="20" fill="{COLORS[1]}">4 jobs: so many times as fast as one</text>')
    save('speed-up', svg_of(560, height + 10, body))


def save(name, text):
    with open(os.path.join(IMG, name + '.svg'), 'w', encoding='utf-8') as file:
        file.write(text)


def main():
    if len(sys.argv) != 2:
        sys.exit(__doc__)
    program = os.path.abspath(sys.argv[1])
    os.makedirs(IMG, exist_ok=True)
    draw_system(program, 'cycle3', ['examples/cycle3.apt'])
    draw_net(program, 'cycle3-net', ['pure', 'examples/cycle3.apt'])
    celement(program)
    peterson(program)
    certificate()
    chain()
    classes()
    square()
    draw_system(program, 'log', ['examples/orders.words', '--from', 'words'])
    region()
    second_method()
    growth()
    speed_up()


if __name__ == '__main__':
    main()
