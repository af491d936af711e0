#!/usr/bin/env python3
"""Paths and names in the documents, and in the comments of crates/*/specs, held to the tree. Prints what is not there; exits non-zero where something is.

- A link leads to a file or folder, and behind a '#' to a heading of it.
- A path that begins with a folder of the repository is there, wherever it stands; so is one in backticks with a '/' and a file's ending. What a tool makes
  (target/, out/) and words in capitals that stand for a name are left out.
- `name` (File), `name`, `name` (File, ..), with a file of theorems', definition's or pieces' proofs or specs: the name is declared in it.
- In docs/TRACE.md each name of a row stands in one of its files. In docs/CLAIMS.md each `name` beside a crate is declared in that crate, and each edit is an edit,
  also in prose: names before "(`CRATE`)" or "in `CRATE`)" are that crate's.
"""
import glob, os, re, sys

os.chdir(os.path.join(os.path.dirname(os.path.abspath(__file__)), '..'))
DOCUMENTS = sorted(['README.md', 'CONTRIBUTING.md', 'oracle/README.md', 'tools/README.md'] + glob.glob('docs/**/*.md', recursive=True) + glob.glob('rust/*/README.md'))
SPECS = sorted(glob.glob('crates/*/specs/*.antt'))
TOP = [d for d in os.listdir('.') if os.path.isdir(d) and not d.startswith('.') and d != 'target']
PATH = re.compile(r'(?<![\w./-])((?:\.\./)*(?:%s)/[\w./*-]*[\w*/]|\.ci/run)' % '|'.join(TOP))
TICKED = re.compile(r'`((?:\./)?[\w.*-]+(?:/[\w.*-]+)+\.(?:antt|rt|md|py|rs|sh|h|c|list|txt|edit))`')
CITED = re.compile(r'((?:`[\w.]+`(?:, | and | or )?)+)\s\(((?:crates/)?(?:[\w./]*/)?)([A-Z]\w+)(?:\.antt)?(?: of `(\w+)`)?[,;)]')
EDITS = re.compile(r'((?:\b[a-z]\w*_\w+,\s+)*\b[a-z]\w*_\w+)\s+(?:\(`(\w+)`\)|in `(\w+)`\))')
GENERIC = re.compile(r'(?<![a-z])[A-Z][A-Z_]+\b')
HOMES = ['theorems', 'definition', 'pieces']
wrong = []


def say(path, line, what):
    wrong.append('%s:%d: %s' % (path, line, what))


def text_of(path):
    return open(path, encoding='utf-8').read()


# what docs/PORT.md tells of that is gone
GONE = {'tools/quick_build.sh', 'tools/bind_paths.py', 'proofs/F/Proof.antt', 'proofs/Loan.antt'}


def there(path, beside):
    """from the root, the document, crates/ or core.rs's folder, a star for any; what a tool makes is believed"""
    if beside == 'docs/PORT.md' and path in GONE:
        return not os.path.exists(path)
    if GENERIC.search(path) and not os.path.exists(path) or '/target/' in '/%s/' % path or '/out/' in '/%s/' % path:
        return True
    places = ['.', os.path.dirname(beside), 'crates', 'oracle/upstream']
    return any(glob.glob(os.path.join(at, path.rstrip('/') + end)) for at in places for end in ('', '.antt'))


def anchors(path):
    heads = re.findall(r'^#+ (.*)$', text_of(path), re.M)
    return {re.sub(r'[^\w -]', '', h.replace('`', '').lower()).replace(' ', '-') for h in heads}


def link(path, n, target):
    file, _, anchor = target.partition('#')
    at = os.path.join(os.path.dirname(path), file) if file else path
    if not os.path.exists(at):
        say(path, n, 'no file behind the link ' + target)
    elif anchor and anchor not in anchors(at):
        say(path, n, 'no heading behind the link ' + target)


def declares(text, name):
    last = re.escape(name.split('.')[-1])
    return re.search(r'^\s*(?:pub |abbrev |unfoldable |record |data |fn |const |struct |enum |\| )*%s(?= *[:({<\n]| \()|^\s*[{;|(]?\s*%s :|\b(?:fn|lemma|record|data|pub) %s\b' % (last, last, last), text, re.M)


def files_named(name, folder, crate):
    where = [crate] if crate else HOMES
    kinds = [k for k in ('proofs', 'specs') if k in folder.split('/')] or ['proofs', 'specs']
    found = [p for c in where for k in kinds for p in glob.glob('crates/%s/%s/%s.antt' % (c, k, name))]
    return found or (glob.glob(folder + name + '.antt') if folder.startswith('crates/') else [])


def cited(path, n, m):
    names, folder, file, crate = m.groups()
    found = files_named(file, folder, crate)
    if not found and folder:
        say(path, n, 'no file %s%s' % (folder, file))
    for name in re.findall(r'`([\w.]+)`', names):
        if found and not any(declares(text_of(p), name) for p in found):
            say(path, n, '`%s` is not declared in %s' % (name, file))


def line_of(text, at):
    return text.count('\n', 0, at) + 1


def document(path):
    text = text_of(path)
    for m in re.finditer(r'\]\(([^)\s]+)\)', text):
        if ':' not in m[1]:
            link(path, line_of(text, m.start()), m[1])
    bare = re.sub(r'\]\([^)]*\)', lambda m: ' ' * len(m[0]), text)
    for pattern in (PATH, TICKED):
        for m in pattern.finditer(bare):
            if not there(m[1], path):
                say(path, line_of(bare, m.start()), 'no ' + m[1])
    for m in CITED.finditer(text):
        cited(path, line_of(text, m.start()), m)


def specs(path):
    for n, line in enumerate(text_of(path).split('\n'), 1):
        comment = line.partition('--')[2]
        for m in PATH.finditer(comment):
            if not there(m[1], path):
                say(path, n, 'no ' + m[1])
        for m in re.finditer(r'((?:crates/)?(?:\w+/)?(?:proofs|specs)/\w+)(?:\.antt)?', comment):
            at = m[1].removeprefix('crates/')
            own = os.path.dirname(os.path.dirname(path)) + '/' + at
            if not any(os.path.exists(p + '.antt') for p in ('crates/' + at, own)):
                say(path, n, 'no file ' + m[1])
        for m in re.finditer(r'`(\w+)`(?: of| in) ((?:\w+/)?proofs)/(\w+)\.antt|\b(\w+) in (\w+/proofs)/(\w+)\.antt', comment):
            name, folder, file = m.groups()[:3] if m[1] else m.groups()[3:]
            at = 'crates/%s/%s.antt' % (folder, file)
            if os.path.exists(at) and not declares(text_of(at), name):
                say(path, n, '%s is not declared in %s' % (name, at))


def claims(path='docs/CLAIMS.md'):
    edits = {os.path.basename(e)[:-5] for e in glob.glob('crates/*/must-fail/*.edit')}
    prose = re.sub(r'^\|.*$', '', text_of(path), flags=re.M)
    for m in EDITS.finditer(prose):
        for e in re.findall(r'\w+', m[1]):
            if not os.path.exists('crates/%s/must-fail/%s.edit' % (m[2] or m[3], e)):
                say(path, line_of(prose, m.start()), 'no edit %s of %s' % (e, m[2] or m[3]))
    columns = []
    for n, line in enumerate(text_of(path).split('\n'), 1):
        cells = [c.strip() for c in line.strip('|').split('|')] if line.startswith('|') else []
        if not cells:
            columns = []
        elif not columns:
            columns = cells
        elif not set(line) <= set('|-'):
            row = dict(zip(columns, cells))
            for e in re.findall(r'\b[a-z]\w*_\w+\b', re.sub(r'\([^)]*\)', '', row.get('edits', ''))) + ([row['edit']] if 'edit' in row else []):
                if e not in edits:
                    say(path, n, 'no edit ' + e)
            crate = re.fullmatch(r'`(\w+)`', row.get('crate', ''))
            for name in re.findall(r'`(\w+)`', row.get('name', '')) if crate else []:
                if not any(declares(text_of(p), name) for p in glob.glob('crates/%s/*/**/*.*t' % crate[1], recursive=True)):
                    say(path, n, '`%s` is not declared in %s' % (name, crate[1]))


def trace(path='docs/TRACE.md'):
    for n, line in enumerate(text_of(path).split('\n'), 1):
        cells = [c.strip() for c in line.strip('|').split('|')] if line.startswith('|') else []
        if len(cells) != 3 or cells[1] in ('file', '—') or set(line) <= set('|-'):
            continue
        files = [f.strip().rpartition('/')[2] for f in cells[1].split(',')]
        texts = [text_of(p) for f in files for p in files_named(f, '', None)]
        if not texts:
            say(path, n, 'no file ' + cells[1])
        for name in re.findall(r'`([\w.]+)`(?! \()', cells[2]):
            if not any(re.search(r'\b%s\b' % re.escape(name), t) for t in texts):
                say(path, n, '`%s` does not stand in %s' % (name, cells[1]))


for d in DOCUMENTS:
    document(d)
for s in SPECS:
    specs(s)
claims()
trace()
print('\n'.join(dict.fromkeys(wrong)))
sys.exit(bool(wrong))
