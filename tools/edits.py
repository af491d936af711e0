#!/usr/bin/env python3
"""rt must-fail definition pieces | tools/edits.py: the first error of each edit names the line that docs/CLAIMS.md gives it. Exits non-zero where one does not.

What `rt ci` prints will do too, and a file of it may be named.
"""
import fileinput, os, re, sys

ROOT = os.path.join(os.path.dirname(os.path.abspath(__file__)), '..')
CRATES = 'definition', 'pieces'
TOLD = re.compile(r'^rt: must-fail (\w+)/(\w+)\.edit: refused.*?proofs/(\w+)\.antt:\d+:\d+: error: `([^`]*)`')

found = filter(None, map(TOLD.match, fileinput.input()))
errors = {m[2]: '`%s` (%s)' % (m[4], m[3]) for m in found if m[1] in CRATES}
claims = open(os.path.join(ROOT, 'docs/CLAIMS.md')).read().split('## Edits of the definition')[1]
told = dict(re.findall(r'^\| (\w+) \|.*\| (`[^`]*` \(\w+\)) \|$', claims, re.M))
edits = [e[:-5] for c in CRATES for e in sorted(os.listdir(os.path.join(ROOT, 'crates', c, 'must-fail')))]
wrong = [e for e in edits if e not in told or told[e] != errors.get(e)]
for edit in wrong:
    print('%s: CLAIMS has %s, the prover says %s' % (edit, told.get(edit), errors.get(edit)))
print('%d edits, %d of them not as told' % (len(edits), len(wrong)))
sys.exit(bool(wrong or set(told) - set(edits)))
