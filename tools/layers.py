#!/usr/bin/env python3
"""docs/layers.svg: the crates of crates.txt, each above those that stand on it; an arrow leads from a crate to one that needs it.

  tools/layers.py             writes docs/layers.svg
  tools/layers.py --check     says whether it is as made here, and writes nothing

A need that follows from others is left out.
"""
import os, sys

ROOT = os.path.join(os.path.dirname(os.path.abspath(__file__)), '..')
GROUPS = [
    ('believed', '#f5d76e', 'definition theorems pieces test_replay'),
    ('the lent words', '#aed6f1', 'names refusals table snapshot sound_fields sound_rows sound_tables sound'),
    ("core.rs's functions", '#a9dfbf', 'shapes subst ends canonical ready arms merge join tparams instantiate abilities failing constraints'),
    ('bytes in and out', '#d7bde2', 'cursor marks heads reader needs fields record writer log_lines payload answer'),
    ('a slow engine', '#f9e79f', 'history old_subst old_merge old_join old_ready recheck checklog'),
    ('a record', '#f5b7b1', 'run failures solve expand many keep verdict step'),
    ('calls, programs', '#d5dbdb', 'limits lent split lines engine columns turns joinlog exports test_edges test_traps test_shared'),
]
WIDE, HIGH, COLUMN, ROW = 94, 28, 112, 74


def needs():
    """NAME: what it needs, without what follows from the rest"""
    listed = {}
    for line in open(os.path.join(ROOT, 'crates.txt')):
        if ':' in line and not line.startswith('#'):
            name, rest = line.split(':')
            listed[name.split()[0]] = rest.split()
    for name in listed: # the kit's libraries are left out
        listed[name] = [d for d in listed[name] if d in listed]

    def below(name):
        return set(listed[name]).union(*map(below, listed[name]))

    return {n: [d for d in ds if not any(d in below(e) for e in ds)] for n, ds in listed.items()}


def rows(need):
    """by level, those near what they need side by side"""
    level, at, out = {}, {}, []
    for name in need:
        level[name] = max([level[d] + 1 for d in need[name]], default=0)
    for k in range(max(level.values()) + 1):
        row = [n for n in need if level[n] == k]
        row.sort(key=lambda n: (sum(at[d] for d in need[n]) / max(1, len(need[n])), n))
        at.update({n: (i + 1) / (len(row) + 1) for i, n in enumerate(row)})
        out.append(row)
    return out


def svg(need, rows):
    across, place, parts = max(map(len, rows)) * COLUMN, {}, []
    colour = {n: c for _, c, names in GROUPS for n in names.split()}
    for k, row in enumerate(rows):
        for i, n in enumerate(row):
            place[n] = ((i + 0.5) * across / len(row), 40 + k * ROW)
    for n, (x, y) in place.items():
        for d in need[n]:
            a, b = place[d]
            parts.append(f'<path d="M{a:.0f} {b + HIGH / 2:.0f} C{a:.0f} {b + 48:.0f} {x:.0f} {y - 50:.0f} {x:.0f} {y - HIGH / 2 - 2:.0f}"/>')
    for n, (x, y) in place.items():
        parts.append(f'<rect x="{x - WIDE / 2:.0f}" y="{y - HIGH / 2:.0f}" width="{WIDE}" height="{HIGH}" rx="4" fill="{colour.get(n, "#fff")}"/>')
        parts.append(f'<text x="{x:.0f}" y="{y + 4:.0f}">{n}</text>')
    down = 40 + len(rows) * ROW
    for i, (name, c, _) in enumerate(GROUPS):
        x = (i + 0.5) * across / len(GROUPS)
        parts.append(f'<rect x="{x - 62:.0f}" y="{down - HIGH / 2}" width="124" height="{HIGH}" rx="4" fill="{c}" stroke="none"/>')
        parts.append(f'<text x="{x:.0f}" y="{down + 4}">{name}</text>')
    head = f'<svg xmlns="http://www.w3.org/2000/svg" viewBox="0 0 {across} {down + 40}" font-family="sans-serif" font-size="13" text-anchor="middle">'
    style = '<style>path{fill:none;stroke:#777;marker-end:url(#a)}rect{stroke:#555}</style>'
    arrow = '<defs><marker id="a" viewBox="0 0 8 8" refX="7" refY="4" markerWidth="7" markerHeight="7" orient="auto"><polygon points="0,0 8,4 0,8" fill="#777"/></marker></defs>'
    back = f'<rect width="{across}" height="{down + 40}" fill="#fff" style="stroke:none"/>'
    return '\n'.join([head, style, arrow, back] + parts + ['</svg>', ''])


def main():
    need = needs()
    out, text = os.path.join(ROOT, 'docs/layers.svg'), svg(need, rows(need))
    if '--check' in sys.argv[1:]:
        if open(out).read() != text:
            sys.exit('docs/layers.svg is stale: run tools/layers.py')
    else:
        open(out, 'w').write(text)


main()
