#!/usr/bin/env python3
"""oracle/replay.list (core.rs's answers) as checks of the definition and as a program's input.

  tools/jobs.py antt [DIR]       Jobs1.antt, Jobs2.antt, .. of sixty jobs each in crates/test_replay/proofs, or in DIR
  tools/jobs.py antt --check     says whether they are as made here, and writes nothing
  tools/jobs.py program DIR      DIR/stdin: each job behind its length, u32 little-endian; DIR/stdout: for each
                                 job a line `= NAME`, then its log
"""
import os, struct, sys

ROOT = os.path.join(os.path.dirname(os.path.abspath(__file__)), '..')
EACH = 60
HEAD = '''-- Jobs with the log that core.rs gives of each, computed: a line for each job, under its name. Made by tools/jobs.py from oracle/replay.list. Assumes nothing.
use mathlib.Core.Path.{◌≡◌, refl}
use Rattle.definition.proofs.Computed.{log_of}
use Rattle.definition.proofs.Spelling.{hex, text}
'''
JOB = '''
%s : log_of (hex "%s") ≡ text "%s"
unfolding log_of
%s = refl
'''


def read_list(path):
    """name, stream in hexadecimal and log lines of each job; every answer is 0 to 4"""
    jobs = []
    for block in open(path).read().split('\n\n'):
        lines = [l for l in block.split('\n') if l and not l.startswith('#')]
        if not lines:
            continue
        name, stream, log = lines[0], lines[1], lines[2:]
        if not name.startswith('job '):
            raise SystemExit('`job NAME` is wanted at ' + name)
        for line in log:
            if line.split()[1] not in ('0', '1', '2', '3', '4'):
                raise SystemExit('%s: not an answer of core.rs: %s' % (name, line))
        jobs.append((name[4:], stream, log))
    return jobs


def antt(jobs):
    """each file's name and text"""
    for k in range(0, len(jobs), EACH):
        rows = ''.join(JOB % (n, stream, ''.join(l + '\\n' for l in log), n)
                       for n, stream, log in ((name.replace('-', '_'), stream, log) for name, stream, log in jobs[k:k + EACH]))
        yield 'Jobs%d.antt' % (k // EACH + 1), HEAD + rows


def program(jobs, where):
    os.makedirs(where, exist_ok=True)
    streams = [bytes.fromhex(stream) for _, stream, _ in jobs]
    with open(os.path.join(where, 'stdin'), 'wb') as f:
        f.write(b''.join(struct.pack('<I', len(s)) + s for s in streams))
    with open(os.path.join(where, 'stdout'), 'w') as f:
        f.write(''.join('= %s\n%s' % (name, ''.join(l + '\n' for l in log)) for name, _, log in jobs))


def main():
    jobs = read_list(os.path.join(ROOT, 'oracle/replay.list'))
    what, where = (sys.argv[1:] + [None, None])[:2]
    proofs = os.path.join(ROOT, 'crates/test_replay/proofs')
    if what == 'antt' and where == '--check':
        stale = [name for name, text in antt(jobs) if open(os.path.join(proofs, name)).read() != text]
        if stale:
            raise SystemExit('stale, run tools/jobs.py antt: ' + ' '.join(stale))
    elif what == 'antt':
        for name, text in antt(jobs):
            with open(os.path.join(where or proofs, name), 'w') as f:
                f.write(text)
    elif what == 'program' and where:
        program(jobs, where)
    else:
        raise SystemExit(__doc__)


main()
