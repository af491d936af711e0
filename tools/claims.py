#!/usr/bin/env python3
"""docs/STATEMENTS.md: where each theorem that docs/CLAIMS.md names with its file or crate is stated, by file and line.

  tools/claims.py             writes docs/STATEMENTS.md
  tools/claims.py --check     says whether it is as made here, and writes nothing

A name behind which CLAIMS gives a file is sought in that file, one of a table with a column 'crate' in the contracts and proofs of that crate, one of a column
'call' in those of `engine` and `split`, a field of `the_book` or `deep_book` where these are stated (Book.antt of the definition, BookDeep.antt).
"""
import glob, os, re, sys

ROOT = os.path.join(os.path.dirname(os.path.abspath(__file__)), '..')
HOMES = ['theorems', 'definition', 'pieces']
CITED = re.compile(r'((?:`[\w.]+`(?:, | and | or )?)+)\s\((?:crates/)?(?:[\w./]*/)?([A-Z]\w+)(?:\.antt)?(?: of `(\w+)`)?[,;)]')
HEAD = """# Where each theorem is stated

Made from [CLAIMS.md](CLAIMS.md) by tools/claims.py, and made again by tests/docs.sh. Of a contract the line is that of
its function.

| name | file | line |
|---|---|---|
"""


def declared(path, name):
    """the first line that declares the name, 0 if none does"""
    last = re.escape(name.split('.')[-1])
    head = re.compile(r'^\s*(?:pub |abbrev |unfoldable |lemma |record |data |module |extern "C" |const )*(?:fn )?%s(?= *[:({<]| *$)' % last)
    for n, line in enumerate(open(path, encoding='utf-8'), 1):
        if head.match(line):
            return n
    return 0


def place(name, paths):
    return next(((p, n) for p in sorted(paths, key=lambda p: (p.endswith('.antt'), p)) for n in [declared(p, name)] if n), None)


def named():
    """NAME and the files that may declare it, in CLAIMS's order"""
    fields, columns = [], []
    for line in open('docs/CLAIMS.md', encoding='utf-8').read().replace('\n   ', ' ').split('\n'):
        for names, file, crate in CITED.findall(line):
            where = [crate] if crate else HOMES
            for name in re.findall(r'`([\w.]+)`', names):
                yield name, [p for c in where for k in ('proofs', 'specs') for p in glob.glob('crates/%s/%s/%s.antt' % (c, k, file))]
        cells = [c.strip() for c in line.strip('|').split('|')] if line.startswith('|') else []
        if not cells:
            columns = []
        elif not columns:
            columns = cells
        elif not set(line) <= set('|-'):
            row = dict(zip(columns, cells))
            crate = re.fullmatch(r'`(\w+)`', row.get('crate', ''))
            for name in re.findall(r'`(\w+)`', row.get('name', '')) if crate else []:
                yield name, glob.glob('crates/%s/src/*.rt' % crate[1]) + glob.glob('crates/%s/specs/*.antt' % crate[1]) + glob.glob('crates/%s/proofs/*.antt' % crate[1])
            for name in re.findall(r'`(\w+)`', row.get('field', '')):
                yield name, ['crates/definition/specs/Book.antt', 'crates/theorems/proofs/BookDeep.antt']
            call = re.fullmatch(r'`(\w+)`', row.get('call', ''))
            if call:
                yield call[1], ['crates/engine/src/lib.rt', 'crates/split/src/lib.rt']


def made():
    rows, wrong = [], []
    for name, paths in dict.fromkeys((n, tuple(p)) for n, p in named()):
        at = place(name, paths)
        if at:
            rows.append('| `%s` | %s | %d |\n' % (name, at[0], at[1]))
        else:
            wrong.append('%s is declared in none of: %s' % (name, ', '.join(paths) or 'no file'))
    return HEAD + ''.join(dict.fromkeys(rows)), wrong


def main():
    os.chdir(ROOT)
    text, wrong = made()
    if wrong:
        sys.exit('\n'.join(wrong))
    if sys.argv[1:] == ['--check']:
        if open('docs/STATEMENTS.md', encoding='utf-8').read() != text:
            sys.exit('docs/STATEMENTS.md is not as tools/claims.py makes it')
    else:
        open('docs/STATEMENTS.md', 'w', encoding='utf-8').write(text)


main()
