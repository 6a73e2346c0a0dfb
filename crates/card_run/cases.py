#!/usr/bin/env python3
# Makes `stdin` and `stdout` of this program: cases of the card, and what document 01's section "The card" says of each.
# Written from the document alone, by patterns and dictionaries, so that it shares nothing with the crate that it is held against.
import re, os

LIMIT = 32                                           # the most equations, and the most unknowns
NUM = rb'(0|[1-9][0-9]{0,3})'

def judge(s):
    """(number, place, E, U, name, {(e, u): k}) of an input; 11 to 16, or 0"""
    at, lines = 0, []
    for m in re.finditer(rb'[^\n]*\n|[^\n]+\Z', s):
        lines.append((m.start(), m.group()))
    lines.append((len(s), b''))                      # the line of which no byte is there
    def fault(n, i): return (n, lines[min(i, len(lines) - 1)][0], 0, 0, b'', {})
    text = [l for _, l in lines]
    m = re.fullmatch(rb'rig=([^\n]*)\n', text[0])
    if not m: return fault(11, 0)
    name = m.group(1)
    if not re.fullmatch(rb'[a-z0-9-]{1,24}', name): return fault(12, 0)
    m = re.fullmatch(rb'equations=' + NUM + rb'\n', text[1])
    if not m: return fault(11, 1)
    E = int(m.group(1))
    if not 1 <= E <= LIMIT: return fault(13, 1)
    m = re.fullmatch(rb'unknowns=' + NUM + rb'\n', text[2])
    if not m: return fault(11, 2)
    U = int(m.group(1))
    if not 1 <= U <= LIMIT: return fault(13, 2)
    pairs, before, i = {}, None, 3
    while not text[i].startswith(b'end='):
        m = re.fullmatch(rb'occurs=' + NUM + b',' + NUM + b',' + NUM + rb'\n', text[i])
        if not m: return fault(11, i)
        e, u, k = (int(x) for x in m.groups())
        if not (1 <= e <= E and 1 <= u <= U and k <= 3): return fault(14, i)
        if before is not None and (e, u) <= before: return fault(15, i)
        pairs[(e, u)] = k
        before = (e, u)
        i += 1
    m = re.fullmatch(rb'end=' + NUM + rb'\n', text[i])
    if not m: return fault(11, i)
    if int(m.group(1)) != len(pairs): return fault(16, i)
    if text[i + 1] != b'': return fault(11, i + 1)
    return (0, 0, E, U, name, pairs)

def card(name, E, U, pairs):
    out = b'rig=%s\nequations=%d\nunknowns=%d\n' % (name, E, U)
    for (e, u) in sorted(pairs): out += b'occurs=%d,%d,%d\n' % (e, u, pairs[(e, u)])
    return out + b'end=%d\n' % len(pairs)

def line(s):
    number, place, E, U, name, pairs = judge(s)
    out = '%d %d %d %d %s ' % (number, place, E, U, name.decode())
    codes = [pairs[(e, u)] + 1 if (e, u) in pairs else 0 for e in range(1, E + 1) for u in range(1, U + 1)] if number == 0 else []
    small, buf = number, [9] * 16
    if number == 0:
        if E * U > 16: small = 17
        else: buf[:E * U] = codes
    out += '%d %s ' % (small, ''.join(map(str, buf)))
    if number == 0:
        again = card(name, E, U, pairs)
        out += '0 0 %d %s ' % (len(again), 'same' if again == s else 'differs')
        out += '18 0 0 '                              # a byte less than the card needs
    return out + '\n'

KESTREL = b'rig=kestrel-4\nequations=3\nunknowns=3\noccurs=1,1,1\noccurs=1,3,0\noccurs=2,2,0\noccurs=2,3,0\noccurs=3,1,0\nend=5\n'
HEAD = b'rig=a\nequations=3\nunknowns=3\n'
MOST, MORE = b'%d' % LIMIT, b'%d' % (LIMIT + 1)
END = b'end=%d\n' % LIMIT ** 2
FULL = card(b'abcdefghijklmnopqrstuvwx', LIMIT, LIMIT, {(e, u): 3 for e in range(1, LIMIT + 1) for u in range(1, LIMIT + 1)})
assert len(FULL) == 14847
def head(e, u): return b'rig=a\nequations=' + e + b'\nunknowns=' + u + b'\n'

CASES = [
    KESTREL, b'', b'rig=', b'rig=\n', b'rig', b'rigs=a\n', b'\n',
    KESTREL[:-1], KESTREL + b'x', KESTREL + b'\n', KESTREL + KESTREL, KESTREL[:-2], KESTREL[:40], KESTREL[:39],
    b'rig=a\nend=0\n', b'rig=a\nequations=1\nend=0\n', b'rig=a\nequations=1\n', b'rig=a\nequations=1\nunknowns=1',
    b'rig=abcdefghijklmnopqrstuvwx\nequations=1\nunknowns=1\nend=0\n', b'rig=abcdefghijklmnopqrstuvwxy\nequations=1\nunknowns=1\nend=0\n',
    b'rig=Kestrel\nequations=1\n', b'rig=a b\n', b'rig=0-9\nequations=1\nunknowns=1\nend=0\n', b'rig=a\r\nequations=1\n',
    head(b'', b'3'), head(b'0', b'3'), head(b'00' + MOST, b'3'), head(b'10000', b'3'), head(b'9999', b'3'), head(MORE, b'3'), head(b'+3', b'3'), head(b'3 ', b'3'),
    head(b'0', b''), head(b'3', b''), head(b'3', b'0'), head(b'3', b'00' + MOST), head(b'3', b'10000'), head(b'3', b'9999'), head(b'3', MORE),
    head(MOST, MOST) + b'end=0\n', head(b'1', b'1') + b'end=0\n', head(b'4', b'4') + b'occurs=4,4,3\nend=1\n', head(b'4', b'5') + b'occurs=4,5,3\nend=1\n',
    HEAD + b'occurs=4,1,0\nend=1\n', HEAD + b'occurs=0,1,0\nend=1\n', HEAD + b'occurs=1,4,0\nend=1\n', HEAD + b'occurs=1,0,0\nend=1\n',
    HEAD + b'occurs=1,1,4\nend=1\n', HEAD + b'occurs=1,1,10\nend=1\n', HEAD + b'occurs=9999,9999,9999\nend=1\n', HEAD + b'occurs=1,1,3\nend=1\n',
    HEAD + b'occurs=2,2,0\noccurs=2,2,0\nend=2\n', HEAD + b'occurs=2,2,0\noccurs=2,1,0\nend=2\n', HEAD + b'occurs=2,2,0\noccurs=1,3,0\nend=2\n',
    HEAD + b'occurs=2,2,0\noccurs=2,3,0\noccurs=3,1,0\nend=3\n', HEAD + b'occurs=2,2,0\noccurs=1,4,0\nend=2\n', HEAD + b'occurs=2,2,0\noccurs=1,1,4\nend=2\n',
    HEAD + b'occurs=2,2,0\noccurs=1,1,0x\nend=2\n', HEAD + b'occurs=1,1,0\noccurs=1,1,0\noccurs=9,9,9\nend=3\n',
    HEAD + b'occurs=1,1\nend=1\n', HEAD + b'occurs=1,1,1,1\nend=1\n', HEAD + b'occurs=01,1,1\nend=1\n', HEAD + b'occurs=1,,1\nend=1\n', HEAD + b'occurs=1,1,\nend=1\n',
    HEAD + b'occurs=1,1,00\nend=1\n', HEAD + b'occurs= 1,1,1\nend=1\n', HEAD + b'Occurs=1,1,1\nend=1\n', HEAD + b'occurs=1,1,1\r\nend=1\n', HEAD + b'occurs=10000,1,1\nend=1\n',
    HEAD + b'occurs=1,1,1\nend=0\n', HEAD + b'occurs=1,1,1\nend=2\n', HEAD + b'occurs=1,1,1\nend=2\nmore', HEAD + b'occurs=1,1,1\nend=01\n', HEAD + b'occurs=1,1,1\nend=\n',
    HEAD + b'end=9999\n', HEAD + b'end=10000\n', HEAD + b'end=0', HEAD + b'end=0 \n', HEAD + b'ends=0\n', HEAD + b'occurs=1,1,1\n', HEAD + b'occurs=1,1,1', HEAD,
    FULL, FULL[:-len(END)] + b'occurs=%s,%s,3\nend=%d\n' % (MOST, MOST, LIMIT ** 2 + 1), FULL + b'x',
]
assert all(b'~' not in c for c in CASES) and sum(len(c) + 1 for c in CASES) <= 65536

WRITER = ['12 0 0 '] * 3 + ['13 0 0 '] * 2 + ['2 0 0 ', '4 1 0 ', '18 0 0 ', '0 0 48 ']

here = os.path.dirname(os.path.abspath(__file__))
with open(os.path.join(here, 'stdin'), 'wb') as f: f.write(b''.join(c + b'~' for c in CASES))
with open(os.path.join(here, 'stdout'), 'w') as f:
    for c in CASES: f.write(line(c))
    for w in WRITER: f.write(w + '\n')
print(len(CASES), 'cases,', sum(len(c) + 1 for c in CASES), 'bytes')
