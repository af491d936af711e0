#!/usr/bin/env python3
"""The jobs of the program crates/test_edges, and what it must print.

  tools/edges.py             crates/test_edges/stdin and stdout
  tools/edges.py --check     says whether they are as made here, and writes nothing

The marked calls have 01's logs (oracle/marked.txt), the streams of crates/test_replay/proofs/EdgeStreams.antt the logs that the definition
computes. The jobs below stand at 01's limits: their answers 0 to 4 are core.rs's (oracle log), and each refusal is given here by the rule
that it stands beside. A refused record leaves the state as it was, so core.rs is run without it. Wants oracle and rust/joblog built.
"""
import os, re, struct, subprocess, sys

ROOT = os.path.join(os.path.dirname(os.path.abspath(__file__)), '..')
ORACLE = os.path.join(ROOT, 'oracle/target/release/oracle')
JOBLOG = os.path.join(ROOT, 'rust/joblog/target/release/joblog')
KEPT = 7  # the program prints the last seven lines of a log


def run(*words, given=b''):
    return subprocess.run(list(words), input=given, stdout=subprocess.PIPE, check=True).stdout


def asm(text):
    return run(JOBLOG, 'asm', given=text.encode())


# ---- jobs whose logs are written elsewhere

def marked():
    blocks = open(os.path.join(ROOT, 'oracle/marked.txt')).read().split('\n\n')[1:]
    for block in blocks:
        name, rest = block.split('\n', 1)
        job, log = rest.split('log\n')
        yield name[4:], asm(job), log.strip().split('\n')


def computed():
    text = open(os.path.join(ROOT, 'crates/test_replay/proofs/EdgeStreams.antt')).read()
    for name, stream, log in re.findall(r'^edge_(\S+) : log_of \(hex "([0-9a-f]*)"\) ≡ text "(.*)"$', text, re.M):
        yield name.replace('_', '-'), bytes.fromhex(stream), log.replace('\\n', '\n').strip().split('\n')


# ---- jobs at the limits

def limit(name, *parts):
    """Each part is lines of text, or a pair: a line and the number that refuses it."""
    lines = []
    for part in parts:
        lines += [part] if isinstance(part, tuple) else [(line, None) for line in part.split('\n') if line]
    passed = run(ORACLE, 'log', given=asm('\n'.join(line for line, number in lines if number is None))).decode().split('\n')
    log, k = [], 0
    for i, (line, number) in enumerate(lines):
        if number is None:
            _, answer = passed[k].split(' ', 1)
            if answer.split()[0] not in ('0', '1', '2', '3', '4'):
                raise SystemExit('%s: not an answer of core.rs: %s' % (name, line))
            log.append('%d %s' % (i, answer))
            k += 1
        else:
            log.append('%d %d' % (i, number))
    return name, asm('\n'.join(line for line, _ in lines)), log


def list_of(*parts):
    return '(' + ', '.join(parts) + (',)' if len(parts) < 2 else ')')


EIGHT = list_of(*['()'] * 8)            # 9 nodes, 8 places
SIXTY_FOUR = list_of(*[EIGHT] * 8)      # 73 nodes, 72 places, 7 + 8 * 47 bytes
BIG = list_of(*[SIXTY_FOUR] * 8)        # 585 nodes, 584 places, 7 + 8 * 383 bytes


def vectors(n, inner):
    return 'vector<' * n + inner + '>' * n


def chains(last):
    """V0 .. V3 and V4 .. V7: each bound to 63 vectors around the next, the last of each to so many around ()"""
    lines = ['FV'] * 8
    for v in (0, 4):
        lines += ['JN V%d, %s' % (v + k, vectors(63, 'V%d' % (v + k + 1))) for k in range(3)]
        lines.append('JN V%d, %s' % (v + 3, vectors(last, '()')))
    return '\n'.join(lines)


def limits():
    # 1,024 variables; a join that takes none goes on
    yield limit('variables', 'FV\n' * 1023 + 'NV', ('FV', 7), ('NV', 7), 'UF V1023\nJN V1023, u8\nUF V1023')
    # a merge wants one more
    yield limit('variables of a merge', 'FV\n' * 1024, ('JN V0, V1', 7), ('JL V0, V1', 7), 'JN V0, u8\nUF V0')
    # 512 constraints
    yield limit('constraints', 'BC ()\n' * 511 + 'SC ()', ('NC numeric u8', 7), ('BC u8', 7), ('SC u8', 7), 'UF u8')
    # 256 declarations
    yield limit('structs', 'SD {} <{}>\n' * 255 + 'SD {copy} <{drop}, phantom {}>', ('SD {}', 7), 'UF S255<u8, u8>\nUF S0<bool>')
    # 2,048 nodes: JN of () twice takes two. UF wants one meanwhile
    yield limit('nodes', 'JN (), ()\n' * 1024, ('JN (), ()', 7), ('UF ()', 7), ('UL ()', 7), 'FV')
    yield limit('nodes, one left', 'JN (), ()\n' * 1023 + 'BC ()', ('JN (), ()', 7), 'UF ()', 'BC ()', ('UF ()', 7))
    # JN of u8 twice takes two for reading and one for the result: 682 of them leave two
    yield limit('nodes, built', 'JN u8, u8\n' * 682, ('JN u8, u8', 7), 'JN u8, ()', ('UF ()', 7))
    # 4,096 argument places: 2 * 72 read, 72 built by each of 54 joins, 8 read by each of 8 BC. Nodes are left
    filled = 'FV\nFV\nJN V0, %s\nJN V1, %s\n' % (SIXTY_FOUR, SIXTY_FOUR) + 'JN V0, V1\n' * 54
    yield limit('places', filled, ('JN V0, V1', 7), ('BC ' + SIXTY_FOUR, 7), ('BC ' + EIGHT + '\n') * 8, ('BC (u8,)', 7), ('UF vector<u8>', 7), 'BC u8\nUF ()')
    # an error, a result and failures that would have more than 4,096 bytes: two types of 3,071 bytes or more
    yield limit('payloads', 'FV\nFV\nJN V0, %s\nJN V1, vector<%s>' % (BIG, BIG), ('JN V0, V1', 14), ('RD (V0, V0)', 14), 'NC numeric V0\nNC bits V1', ('SV', 14), 'FV\nRD V2')
    # the first call and the merges' at 1, 2, 65, 66, 129, 130, 193 and 194, then one for each vector and its part
    yield limit('depth 256', chains(62), 'JN V0, V4\nUF V0')
    yield limit('depth 257', chains(63), ('JN V0, V4', 8), ('JL V0, V4', 8), 'UF V0\nJN V1, V5\nFV')
    # a chain of references ends the job at its first record
    yield limit('chain of references', 'FV\nFV', ('JN V0, %sV1' % ('&' * 63), 18))


def told():
    """R-3: IN where a table has just what RM tells, and one less; RM where nothing is left. RM's answers are 02's table (oracle log)."""
    one, open_one = 'vector<u8>', 'vector<_>'   # 5 nodes, 2 places, 1 variable, 2 constraints; 9, 2, 3, 2
    yield limit('told: nodes', 'JN (), ()\n' * 1021 + 'BC ()\nRM %s\nIN %s\nRM %s' % (one, one, one), ('IN ()', 7))
    yield limit('told: a node less', 'JN (), ()\n' * 1022 + 'RM ' + one, ('IN ' + one, 7), 'IN &u8\nRM ()', ('IN ()', 7))
    filled = 'FV\nFV\nJN V0, %s\nJN V1, %s\n' % (SIXTY_FOUR, SIXTY_FOUR) + 'JN V0, V1\n' * 54 + ('BC ' + EIGHT + '\n') * 7
    six, seven = list_of(*['u8'] * 6), list_of(*['u8'] * 7)
    yield limit('told: places', filled + 'BC %s\nRM %s\nIN %s\nRM %s' % (six, one, one, one), ('IN ' + one, 7), 'IN u8')
    yield limit('told: a place less', filled + 'BC %s\nRM %s' % (seven, one), ('IN ' + one, 7), 'IN u8')
    yield limit('told: variables', 'FV\n' * 1021 + 'RM %s\nIN %s\nRM %s' % (open_one, open_one, open_one), ('IN _', 7), 'IN u8')
    yield limit('told: a variable less', 'FV\n' * 1022 + 'RM ' + open_one, ('IN ' + open_one, 7), 'IN ' + one)
    yield limit('told: constraints', 'BC ()\n' * 510 + 'RM %s\nIN %s\nRM %s' % (one, one, one), ('IN &u8', 7), 'IN u8')
    yield limit('told: a constraint less', 'BC ()\n' * 511 + 'RM ' + one, ('IN ' + one, 7), 'IN &u8')
    # no node, variable or constraint
    yield limit('told: nothing left', 'FV\n' * 1024 + 'BC ()\n' * 512 + 'JN (), ()\n' * 768, ('IN ()', 7), 'RM (_, &u8, vector<_>)')
    # 4,081 bytes
    eight = list_of(*['_'] * 8)
    many = list_of(*[eight] * 8)
    yield limit('told: most', 'RM ' + list_of(list_of(*[many] * 8), many, many, *[eight] * 5))
    # a variable, wherever it stands, once all is read
    yield limit('told: variable', 'FV', ('RM (u8, vector<(u8, V0)>)', 11), ('RM V0', 11), 'RM u8')
    yield end('told: a struct after a variable', asm('FV\nRM (V0, S0)'), '0 0 06000000000000', '1 6')
    ref = asm('UF &u8')
    yield end('told: doubled', b'RM' + ref[2:8] + ref[2:], '0 18')


def solved(name, *parts):
    """limit, where the driver gives every refusal too: 7 of variables and constraints, 9, 14 and 16"""
    name, stream, log = limit(name, *parts)
    if run(ORACLE, 'log', given=stream).decode().split('\n')[:-1] != log:
        raise SystemExit('%s: the driver of core.rs answers otherwise' % name)
    return name, stream, log


def abilities():
    """R-1: the list filled, solved and filled again; 14, 9 and 16, and which of them comes first."""
    one = 'IN vector<u8>\n'                 # two constraints, of which none fails
    yield solved('solved: a full list', one * 256, ('IN &u8', 7), ('IN vector<u8>', 7), 'SV\nSV\nIN &u8\n' + one)
    # 02's worked rows
    yield solved('solved: declarations', 'SD {copy, drop, store, key} <{copy}, phantom {key}>\nIN S0<signer@3, u8@4>@2\nSV\nSV')
    yield solved('solved: an argument', 'SD {} <{copy}>\nIN S0<vector<signer@4>@3>@2\nSV\nIN S0<vector<u8@4>{}@3>@2', ('SV', 16), ('SV', 16), 'FV')
    # what (), a reference and a parameter lack nothing grants
    yield solved('solved: no arguments', 'SD {} <{key}>\nFV\nIN S0<_>\nIN S0<_>\nIN S0<P1{copy}>\nJN V3, ()\nJN V6, &vector<u8>\nSV')
    # the place is counted among all arguments: the second is phantom, and lacks too
    yield solved('solved: place 2', 'SD {} <{copy}>\nSD {copy} <{}, phantom {}, {}>\nIN S0<S1<u8, signer, signer>>\nSV')
    # S0 asks all of each of eight, S1 copy. A signer lacks three of four, each in 14 bytes, a vector of it copy in 22, a parameter in 17
    begin = 'SD {} <%s>\nSD {} <{copy}>\n' % ', '.join(['{copy, drop, store, key}'] * 8)
    many = 'IN S0<%s>\n' % ', '.join(['signer'] * 8)
    yield solved('solved: 4,096 bytes', begin + many * 12 + 'IN S1<signer>\n' * 3 + 'IN S1<vector<signer>>\nSV\nSV')
    yield solved('solved: 4,097 bytes', begin + many * 12 + 'IN S1<signer>\n' + 'IN S1<P1>\n' * 3, ('SV', 14), ('SV', 14), 'UF u8')
    # V0 and V1 in a circle, V2 of an ability constraint; 14 before, and the first on the list decides
    circle = 'FV\nFV\nJN V0, vector<V1>\nJN V1, vector<V0>\n'
    asks = circle + 'SD {} <{copy}>\nIN S0<_>\n'
    later = 'IN S1<vector<u8>{}>'
    long = begin + circle + many * 13
    nine = 'IN S1<_>\nJN V108, V0'
    yield solved('solved: 14, then 9', long, ('SV', 14), nine, ('SV', 9), later, ('SV', 9))
    yield solved('solved: 14, then 16', long, ('SV', 14), later, ('SV', 16), nine.replace('108', '110'), ('SV', 16))
    yield solved('solved: 9, then 16', asks + 'JN V2, V0\nIN S0<u8{drop}>', ('SV', 9), 'UF u8')
    yield solved('solved: 16, then 9', asks + 'JN V2, u8{drop}', ('SV', 16), 'IN S0<_>\nJN V9, V0', ('SV', 16), 'UF u8')
    # of one constraint 9 comes before 16; through a phantom argument, under a mark, and though nothing is asked
    yield solved('solved: 9 before 16', asks + 'JN V2, vector<V0>{}', ('SV', 9), 'UF u8')
    yield solved('solved: 9, phantom', asks + 'SD {copy} <phantom {}>\nJN V2, S1<V0>', ('SV', 9), 'UF u8')
    yield solved('solved: 9, under a mark', asks + 'JN V2, vector<V0>{copy}', ('SV', 9), 'UF u8')
    yield solved('solved: 9, under a reference', asks + 'JN V2, &V0', ('SV', 9), 'UF u8')
    yield solved('solved: 9, nothing asked', circle + 'IN vector<_>\nJN V2, V0', ('SV', 9), 'UF u8')
    # the numeric step wants two nodes, and comes first
    marked = 'NV\nSD {} <{copy}>\nIN S0<u8{drop}>\nBC ()\n' + 'JN (), ()\n' * 1020     # 6 nodes, 2,040 nodes
    yield limit('solved: 7 before 16', marked + 'BC ()', ('SV', 7), 'UF u8')
    yield solved('solved: 16 with room', marked, ('SV', 16), 'UF u8')


def again(name, text, number=0):
    """limit, and the last answer sent back in a CN: it is answered with itself, or with this number."""
    name, stream, log = limit(name, text)
    payload = log[-1].split(' ')[2]
    log.append('%d %s' % (len(log), number or '0 ' + payload))
    return name, stream + b'CN' + bytes.fromhex(payload), log


def spelled():
    """R-12: CN at the limits of a payload and of a record, what may be sent back, and what it needs there."""
    def eights(ends):
        rows = [list_of(*ends[i:i + 8]) for i in range(0, len(ends), 8)]
        return [list_of(*rows[i:i + 8]) for i in range(0, len(rows), 8)]

    def all_but_one(ends):
        """a list of 512 parts in lists of eight, 511 bytes of it the variable V512: a record of all would be too long"""
        first, *rest = eights(ends)
        return 'FV\n' * 513 + 'JN V512, %s\n' % first + 'CN ' + list_of('V512', *rest)

    variables = ['V%d' % v for v in range(512)]
    yield again('spelled: 512 variables', all_but_one(variables[::-1]), 5)
    yield limit('spelled: 4,096 bytes', 'SD {}\n' + all_but_one(['S0'] + variables[1:]))
    *before, last = ('SD {}\n' + all_but_one(['S0', 'S0'] + variables[2:])).split('\n')
    yield limit('spelled: 4,097 bytes', '\n'.join(before), (last, 14), 'CN V512')
    yield again('spelled: 4,094 bytes', 'FV\n' * 512 + 'CN ' + list_of(*eights(['P7', '()', '()'] + variables[3:])))
    # () is handed back, a type with parts and a variable are made
    yield limit('spelled: one node left', 'FV\n' + 'JN (), ()\n' * 1023 + 'BC ()', ('CN u8', 7), ('CN V0', 7), 'CN ()', ('RD u8', 7))
    yield limit('spelled: two nodes left', 'FV\n' + 'JN (), ()\n' * 1023, ('CN &u8', 7), 'CN u8\nCN V0')


def tree(leaves):
    while len(leaves) > 1:
        leaves = [list_of(*leaves[i:i + 8]) for i in range(0, len(leaves), 8)]
    return leaves[0]


def finals():
    """R-5: XP's type and codes, 7, 9, 14 and 17, and which of them comes first."""
    # 02's worked values, and what XP answers once more
    yield solved('final: open', 'FV\nXP vector<V0@9>@2\nXP vector<!@9>{copy, drop, store}@2')
    yield solved('final: phantom', 'SD {copy, drop, store, key} <phantom {}>\nFV\nJN V0, vector<u8@4>@3\nXP S0<V0>@6', ('XP S0<u8>{copy}', 17))
    yield solved('final: anything', 'XP (_@4, signer@7)@8', ('XP (_@4, signer{drop}@7){drop}@8', 17), 'FV\nJN V0, vector<_@5>\nXP V0')
    yield solved('final: merged', 'FV\nFV\nJN V0, V1\nXP (V0@6, V1@7)@5\nXP (V0@6, V0@7)@5')
    yield solved('final: marked builtins', 'XP vector<u8>{}', ('XP vector<(u8,){copy}>{copy}', 17), ('XP (u8, vector<(,){drop}>)', 17), 'FV')
    # a doubled reference by a binding
    yield solved('final: doubled', 'FV\nJN V0, &u8\nXP &V0')
    # 54 lists of seven bytes, and leaves: an open variable has five in the type and five behind it, S0 eight
    leaves = ['V0'] * 366 + ['()'] * 6 + ['u8'] * 4
    yield solved('final: 4,096 bytes', 'FV\nSD {}\nXP ' + tree(leaves))
    yield solved('final: 4,097 bytes', 'FV\nSD {}', ('XP ' + tree(leaves[:-1] + ['S0']), 14), 'JN V0, ()\nXP ' + tree(leaves[:-1] + ['S0']))
    # no node beyond reading, and the last two
    yield limit('final: nodes', 'JN (), ()\n' * 1023 + 'XP vector<u8>\nBC ()', ('XP vector<u8>', 7), ('XP vector<(u8,){copy}>', 7), 'XP u8\nBC ()', ('XP ()', 7))
    yield solved('final: nested 64', 'FV\nXP ' + vectors(63, 'V0'))
    yield end('final: nested 65', asm('FV\nXP ' + vectors(64, 'V0')), '0 0 06000000000000', '1 5')
    # 17 is found behind a payload too long; 9 in any part, and before 17
    yield solved('final: 17 before 14', 'FV\nJN V0, ' + BIG, ('XP (V0, V0)', 14), ('XP (V0, V0, (u8,){copy})', 17), 'XP V0')
    circle = 'FV\nFV\nJN V0, vector<V1>\nJN V1, vector<V0>\nSD {} <phantom {}>\n'
    yield solved('final: 9 before 17', circle, ('XP (V0,){copy}', 9), ('XP ((u8,){copy}, V0)', 9), ('XP S0<V0>', 9), ('XP S0<(u8,){copy}>', 17), 'UF V0')


def literals():
    """R-7: each width just met and just missed, merges, `!`, SN, SV's choice, and the bits that are read."""
    widths = (('u8', 8), ('u16', 16), ('u32', 32), ('u64', 64), ('u128', 128), ('u256', 256))
    for name, bits in widths:
        yield limit('literal: %s met' % name, 'NL @1 %d\nJN V0@2, %s@3\nNL @4 %d\nJN %s@5, V1@6\nJN V0@7, V1@8\nSV\nUF V2@9' % (bits, name, bits, name))
    for name, bits in widths[:-1]:
        yield limit('literal: %s missed' % name, 'NL @1 %d\nJN V0@2, %s@3\nJN %s@4, V0@5\nFV @6\nJN V1@7, %s@8\nSU V0@9, V1@10\nSV\nUF V0@11' % (bits + 1, name, name, name))
    two = 'NL @1 9\nNL @2 100\n'
    yield limit('literal: the second larger', two + 'JN V0@3, V1@4\nJN V0@5, u64@6\nSV\nUF V0@7\nUF V2@8')
    yield limit('literal: the first larger', two + 'JN V1@3, V0@4\nJN V0@5, u64@6\nSV\nUF V0@7\nUF V2@8')
    yield limit('literal: an error', 'NL @1 9\nJN V0@2, !@3\nJN V0@4, u8@5\nJN V0@6, u16@7\nUF V0@8')
    yield limit('literal: an error solved', 'NL @1 129\nJN V0@2, !@3\nSV\nUF V0@4')
    yield limit('literal: SN', 'NL @1 9\nSN V0 @2\nFV @3\nSN V1 @4\nJN V1@5, u8@6\nJN V0@7, u8@8\nJN V0@9, u16@10')
    # put back: what was taken meanwhile needs nothing
    yield limit('literal: put back', 'FV @1\nJN V0@2, bool@3\nNL @4 9\nJN V0@5, V1@6\nSN V2 @7\nJN V2@8, u8@9\nUF V2@10')
    yield limit('literal: variables', 'FV\n' * 1023 + 'NL @1 9', ('NL @2 9', 7), ('FV', 7), 'JN V1023@3, u8@4\nJN V1023@5, u16@6\nUF V1023@7')
    for bits in (0, 257, 65535):
        yield end('literal: %d bits' % bits, asm('NL @1 256\nNL @2 %d' % bits), '0 0 06010000000000', '1 5')
    yield end('literal: cut', asm('NL @1 256\nNL @2 9')[:-1], '0 0 06010000000000', '1 5')
    yield end('literal: cut at 0', asm('NL @1 256\nNL @2 256')[:-1], '0 0 06010000000000', '1 5')


def sized(n):
    """A type of n bytes, 16 or more."""
    few = {5: '()', 7: 'u8', 10: 'P7', 11: '&()', 12: 'vector<()>', 13: '&u8', 16: '&P7', 22: '((), P7)'}
    if n in few:
        return few[n]
    if n < 7 + 8 * 16:
        return 'vector<%s>' % sized(n - 7)
    each, rest = divmod(n - 7, 8)
    return list_of(*[sized(each)] * 7, sized(each + rest))


def links():
    """R-9: 4,092 bytes of both types and 4,093; 64 merges, each over a chain that is two links longer. The largest sums: oracle/tests/lent.rs."""
    other = 'FV\nFV\nFV\nJN V0, %s\nJN V1, vector<%s>\nJN V2, vector<%s>\n' % (BIG, sized(1014), sized(1015))
    yield limit('links: payloads', other + 'JL V0, V1', ('JL V0, V2', 14), 'JN V0, V2\nUL V0\nFV')
    eights = [list_of(*[list_of(*[v] * 8)] * 8) for v in ('V0', 'V1')]
    yield limit('links: a chain', 'FV\nFV\nJL %s, %s\nUL V0\nJL V0, V1\nUL V1\nUL V65' % tuple(eights))


def keeps():
    """R-11: functions that are cleared have nodes, more in all than there are; the same without KP have none. 255 listed, and 6 at the last."""
    instance = 'IN %s' % list_of(*[list_of(*['_'] * 8)] * 8)
    yield limit('keep: functions', ('%s\nSV\nKP\n' % instance) * 5)
    yield limit('keep: functions without it', ('%s\nSV\n' % instance) * 4, (instance, 7), 'KP\n%s\nKP\nFV' % instance)
    most = ', '.join(['V1'] * 254)
    yield limit('keep: 255 listed', 'FV\nFV\nFV\nKP %s, V0\nFV' % most)
    yield limit('keep: the last of 255', 'FV\nFV', ('KP %s, V2' % most, 6))


def end(name, stream, *log):
    return name, stream, list(log)


def ends():
    fv = asm('FV @1')
    answer = '0 06010000000000'
    # an empty rest ends the job without a line; a cut record is 5, and so is one that only begins
    yield end('empty', b'')
    yield end('cut', fv[:5], '0 5')
    yield end('cut later', fv + asm('UF V0')[:8], '0 ' + answer, '1 5')
    # after 5 or 6 nothing is read
    yield end('after 5', fv + b'XX' + fv, '0 ' + answer, '1 5')
    yield end('after 6', fv + asm('UF V1') + fv, '0 ' + answer, '1 6')


def marks():
    # on each integer type a mark without drop is 5
    for name in ('u8', 'u64', 'u128', 'u16', 'u32', 'u256'):
        yield end('copy alone on ' + name, asm('UF %s{copy}' % name), '0 5')


def main():
    where = os.path.join(ROOT, 'crates/test_edges')
    jobs = [j for made in (marked, computed, limits, told, abilities, spelled, finals, literals, links, keeps, ends, marks) for j in made()]
    behind = [(len(name) + 1 + len(stream), name.encode() + b'\n' + stream) for name, stream, _ in jobs]
    texts = {
        'stdin': b''.join(struct.pack('<I', size) + job for size, job in behind),
        'stdout': ''.join('= %s\n' % name + ''.join(line + '\n' for line in log[-KEPT:]) for name, _, log in jobs).encode(),
    }
    room = int(re.search(r'const JOBS: usize = (\d+);', open(os.path.join(where, 'src/main.rt')).read()).group(1))
    if len(texts['stdin']) > room:
        sys.exit('crates/test_edges reads %d bytes, and the jobs have %d' % (room, len(texts['stdin'])))
    if '--check' in sys.argv[1:]:
        stale = [name for name, text in texts.items() if open(os.path.join(where, name), 'rb').read() != text]
        if stale:
            sys.exit('crates/test_edges, stale, run tools/edges.py: ' + ' '.join(stale))
    else:
        for name, text in texts.items():
            open(os.path.join(where, name), 'wb').write(text)


main()
