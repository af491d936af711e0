#!/usr/bin/env python3
"""docs/costs.svg: what JN, RD and SV cost, ours and core.rs's, by the table docs/costs.tsv, which `oracle/bench.sh costs` measures.

  tools/costs.py             writes docs/costs.svg
  tools/costs.py --check     says whether it is as made here, and writes nothing

Both scales of each plot go by powers of ten.
"""
import math, os, sys

DOCS = os.path.join(os.path.dirname(os.path.abspath(__file__)), '../docs')
SIDES = {'ours': '#1f77b4', 'core.rs': '#d62728'}
WIDE, HIGH, LEFT, TOP, ACROSS, DOWN = 230, 170, 62, 46, 300, 230


def table():
    """(axis, record): side: its points"""
    plots = {}
    for line in open(os.path.join(DOCS, 'costs.tsv')):
        if not line.startswith('#'):
            axis, record, side, x, ns = line.rstrip('\n').split('\t')
            plots.setdefault((axis, record), {s: [] for s in SIDES})[side].append((int(x), max(int(ns), 1)))
    return plots


def powers(numbers):
    """the powers of ten around these"""
    return math.floor(math.log10(min(numbers))), math.ceil(math.log10(max(numbers)))


def told(power):
    return ['1', '10', '100', '1,000'][power]


def time(power):
    return [f'{10 ** (power % 3)} {unit}' for unit in ('ns', 'us', 'ms', 's')][power // 3]


def plot(axis, record, sides, low, high, xs, x0, y0):
    left, right = xs
    across = lambda x: x0 + WIDE * (math.log10(x) - left) / (right - left)
    up = lambda ns: y0 + HIGH - HIGH * (math.log10(ns) - low) / (high - low)
    parts = [f'<text x="{x0 + WIDE / 2:.0f}" y="{y0 - 10:.0f}" font-weight="bold">{record}, by {axis}</text>']
    for p in range(left, right + 1):
        x = across(10 ** p)
        parts.append(f'<path class="grid" d="M{x:.1f} {y0} V{y0 + HIGH}"/><text x="{x:.0f}" y="{y0 + HIGH + 16}">{told(p)}</text>')
    for p in range(low, high + 1):
        y = up(10 ** p)
        parts.append(f'<path class="grid" d="M{x0} {y:.1f} H{x0 + WIDE}"/><text x="{x0 - 6}" y="{y + 4:.0f}" text-anchor="end">{time(p)}</text>')
    for side, colour in SIDES.items():
        points = ' '.join(f'{across(x):.1f},{up(ns):.1f}' for x, ns in sides[side])
        parts.append(f'<polyline points="{points}" stroke="{colour}"/>')
        parts += [f'<circle cx="{across(x):.1f}" cy="{up(ns):.1f}" r="3" fill="{colour}"><title>{side}: {x}: {ns} ns</title></circle>' for x, ns in sides[side]]
    return parts


def svg(plots):
    axes, records = list(dict.fromkeys(a for a, _ in plots)), list(dict.fromkeys(r for _, r in plots))
    low, high = powers([ns for sides in plots.values() for points in sides.values() for _, ns in points])
    wide, high_of_all = LEFT + len(axes) * ACROSS, TOP + len(records) * DOWN + 24
    parts = [
        f'<svg xmlns="http://www.w3.org/2000/svg" viewBox="0 0 {wide} {high_of_all}" font-family="sans-serif" font-size="12" text-anchor="middle">',
        '<style>.grid{stroke:#ddd}polyline{fill:none;stroke-width:2}</style>',
        f'<rect width="{wide}" height="{high_of_all}" fill="#fff"/>',
    ]
    for row, record in enumerate(records):
        for column, axis in enumerate(axes):
            xs = powers([x for r in records for points in plots[axis, r].values() for x, _ in points])
            parts += plot(axis, record, plots[axis, record], low, high, xs, LEFT + column * ACROSS, TOP + row * DOWN)
    for k, (side, colour) in enumerate(SIDES.items()):
        x, y = LEFT + k * 110, high_of_all - 14
        parts.append(f'<rect x="{x}" y="{y - 9}" width="22" height="10" fill="{colour}"/><text x="{x + 30}" y="{y}" text-anchor="start">{side}</text>')
    return '\n'.join(parts + ['</svg>', ''])


def main():
    out, text = os.path.join(DOCS, 'costs.svg'), svg(table())
    if '--check' in sys.argv[1:]:
        if open(out).read() != text:
            sys.exit('docs/costs.svg is stale: run tools/costs.py')
    else:
        open(out, 'w').write(text)


main()
