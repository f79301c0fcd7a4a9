#!/usr/bin/env python3
"""Writes crates/reads/stdin and stdout: networks, sound and damaged, each behind its length, and what reading each gives by the oracle."""
import os
import random
import oracle
from oracle import head, record, w16

J = lambda x: (0, x)
NONE = (0, 0)
SOUND = [
    record('GEN', '', 0, 0, J(20), (1, 21), J(5), J(5)),
    record('MAIN', 'GEN', 2, 0, (3, 1), (3, 1), (9, 3), NONE),
    record('STAR', 'MAIN', 3, 0, (2, 5), (2, 5), (1, 2), (1, 1)),
    record('STEP', 'STAR', 4, 11, J(20), J(20), J(20), NONE),
    record('BOOTH-WEST-1', 'STEP', 2, 0, (30, 10), (30, 10), (90, 30), NONE),
]


def net(records, n=None, volts=230, unit=1000):
    return head(volts, unit, len(records) if n is None else n) + b''.join(records)


def put(r, at, data):
    return r[:at] + data + r[at + len(data):]


# one damage for each rule of a record, at offsets of the record
DAMAGE = {
    5: lambda r: put(r, 1, b'X'),
    6: lambda r: put(r, 2, b' '),
    7: lambda r: put(r, 2, oracle.label('GEN')),
    8: lambda r: put(r, 14, oracle.label('NOWHERE')),
    9: lambda r: put(r, 26, bytes([6])),
    10: lambda r: put(r, 28, w16(4096)),
    21: lambda r: put(r, 28, bytes(8)),  # of a source it is 10, of a cable nothing
    11: lambda r: put(r, 28, w16(4095) + w16(4095) + w16(4095) + w16(4095)),
}


def broken(records, r, *rules):
    out = list(records)
    for rule in rules:
        out[r - 1] = DAMAGE[rule](out[r - 1])
    return out


cases = [b'', b'H', net(SOUND)[:7], net(SOUND), put(net(SOUND), 0, b'FT'), put(net(SOUND), 1, b'2')]
for volts, unit in ((0, 1000), (1, 10), (1000, 1000), (1001, 1000), (230, 9), (230, 10), (230, 1001), (65535, 65535)):
    cases.append(net(SOUND, volts=volts, unit=unit))
cases += [net([]), net(SOUND, n=4), net(SOUND, n=6), net(SOUND)[:-1], net(SOUND) + b'\0', net(SOUND, n=257), net(SOUND, n=65535)]
# every rule at the first, a middle and the last record
for r in (1, 3, 5):
    for rule in DAMAGE:
        cases.append(net(broken(SOUND, r, rule)))
# two rules in one record, two records
for a, b in ((5, 6), (6, 8), (7, 8), (8, 9), (9, 10), (5, 10), (6, 10), (5, 21), (8, 21), (9, 21)):
    cases.append(net(broken(SOUND, 4, a, b)))
for early, late in ((11, 5), (9, 7), (10, 6), (8, 5), (11, 21), (10, 21)):
    cases.append(net(broken(broken(SOUND, 2, early), 4, late)))
for early, late in ((21, 5), (21, 10), (21, 11), (21, 21), (10, 21), (11, 21)):
    cases.append(net(broken(broken(SOUND, 3, early), 4, late)))
# labels and feeders
twin = record('BOOTH-WEST-2', 'BOOTH-WEST-1', 2, 0, (1, 1), (1, 1), (1, 1), NONE)
cases += [net(SOUND + [twin]), net(SOUND + [put(twin, 2, oracle.label('BOOTH-WEST-1'))]), net(SOUND + [put(twin, 14, oracle.label('BOOTH-WEST-2'))])]
cases += [net(SOUND[:1] + [put(SOUND[1], 14, oracle.label('STAR'))] + SOUND[2:]), net([put(SOUND[0], 14, oracle.label('GEN'))] + SOUND[1:])]
cases += [net(SOUND[:1] + [put(SOUND[1], 14, b' ' * 12)] + SOUND[2:]), net([put(SOUND[0], 13, b'\x7f')] + SOUND[1:]), net([put(SOUND[0], 2, b'!~!~!~!~!~!~')])]
# 02, R-3: a label typed in another case is used (7) and found (8); bytes beside the letters stay apart
typed = [record(new, old, 2, 0, (1, 1), (1, 1), (1, 1), NONE) for new, old in (
    ('booth-west-1', 'GEN'), ('bOOTH-WEST-2', 'Booth-West-1'), ('BOOTH-WESt-2', 'gen'), ('BOOTH-WES4-1', 'GEN'), ('TENT', 'BOOTH\rWEST-1'), ('TENT', 'BooTh-wEsT-1'))]
cases += [net(SOUND + [t]) for t in typed]
for a, b in ('@`', '[{', '\\|', ']}', '^~', 'Aa', 'Zz', '!A', '9Y'):
    cases.append(net(SOUND[:1] + [record('T' + a, 'gEN', 2, 0, J(1), J(1), J(1), NONE), record('t' + b, 'T' + b, 2, 0, J(1), J(1), J(1), NONE)]))
    cases.append(net(SOUND[:1] + [record('T' + a, 'gEN', 2, 0, J(1), J(1), J(1), NONE), record('U', 't' + b, 2, 0, J(1), J(1), J(1), NONE)]))
# kinds: clocks, rules, earth returns
for kind, clock in ((0, 1), (2, 1), (3, 1), (4, 0), (4, 10), (4, 12), (4, 13), (5, 0), (5, 11), (5, 12), (255, 0), (1, 0)):
    cases.append(net(SOUND[:1] + [record('X', 'GEN', kind, clock, J(9), J(9), NONE, NONE)]))
for zs in ((J(1), J(2), NONE, NONE), (J(1), J(1), NONE, J(1)), (J(4095), J(4095), NONE, NONE), (J(4075), J(4074), NONE, NONE), (J(4075), J(4075), J(4075), NONE), (J(4074), J(4074), J(4075), NONE), (J(4074), J(4074), J(4076), NONE)):
    cases.append(net(SOUND[:1] + [record('X', 'GEN', 2, 0, *zs)]))
for kind in (1, 5):
    for z0, zn in ((J(1), NONE), (NONE, J(1)), (NONE, NONE)):
        base = [record('GEN', '', 1, 0, J(20), J(20), z0, zn)] if kind == 1 else SOUND[:1] + [record('X', 'GEN', 5, 7, J(9), J(9), z0, zn)]
        cases.append(net(base))
        cases.append(net(base + [record('Y', 'X' if kind == 5 else 'GEN', 3, 0, J(1), J(1), (4095, 4095), (4095, 4095))]))
for zn in (1365, 1366):
    cases.append(net([record('GEN', '', 0, 0, J(20), J(20), NONE, J(zn))]))
cases += [net([record('GEN', '', 0, 0, NONE, J(20), J(5), J(5))]), net([record('GEN', '', 0, 0, J(20), NONE, J(5), J(5))])]
# 02, R-6: a transformer with z1 zero, behind 10 and before 11; one part of z1 is enough, no other impedance is, and a cable may be of no length
for kind, clock in ((2, 0), (3, 0), (4, 11), (5, 6)):
    for zs in ((NONE, NONE, NONE, NONE), (J(1), J(1), NONE, NONE), ((1, 0), (1, 0), NONE, NONE), (J(256), J(256), NONE, NONE), ((256, 0), (256, 0), NONE, NONE),
               (NONE, NONE, (3, 4), NONE), (NONE, NONE, NONE, (3, 4)), (NONE, J(1), NONE, NONE), (J(1), NONE, NONE, NONE), (NONE, NONE, J(4096), NONE),
               (NONE, NONE, J(4095), NONE), (NONE, NONE, NONE, J(1366)), (J(1), J(1), NONE, J(1366))):
        cases.append(net(SOUND[:1] + [record('X', 'GEN', kind, clock, *zs)]))
# 21 at record 3 with 11 at record 2, and the other way round; behind a cable of no length
far, nothing = record('FAR', 'GEN', 2, 0, J(4076), J(4076), NONE, NONE), record('HALL', 'GEN', 4, 11, NONE, NONE, J(20), NONE)
cases += [net(SOUND[:1] + [far, nothing]), net(SOUND[:1] + [nothing, far]), net(SOUND[:1] + [record('X', 'GEN', 2, 0, NONE, NONE, NONE, NONE), put(nothing, 14, oracle.label('X'))])]
# as many boards as there may be
many = [SOUND[0]] + [record('B%d' % i, 'GEN' if i < 3 else 'B%d' % (i - 2), 2, 0, J(1), J(1), J(1), NONE) for i in range(1, 256)]
cases += [net(many), net(broken(many, 256, 11))]
# random damage
rng = random.Random(1)
while sum(len(c) + 2 for c in cases) < 64000:
    c = bytearray(net(SOUND[:rng.randint(1, 5)]))
    for _ in range(rng.choice((1, 1, 1, 2, 3))):
        at = rng.randrange(len(c))
        c[at] = rng.choice((0, 1, 2, 3, 4, 5, 6, 11, 12, 15, 16, 32, 33, 126, 127, 255, c[at] ^ 1 << rng.randrange(8)))
    cases.append(bytes(c))

lines = []
for c in cases:
    try:
        lines.append('ACCEPTED %d' % (len(oracle.network(c)[2]) - 1))
    except oracle.Refused as r:
        assert r.part[0] == 'network'
        lines.append('REFUSED %d %d %d %d' % (r.number, r.place, r.part[1], r.part[2]))
where = os.path.join(os.path.dirname(os.path.abspath(__file__)), '..', 'crates', 'reads')
with open(os.path.join(where, 'stdin'), 'wb') as f:
    f.write(b''.join(w16(len(c)) + c for c in cases))
with open(os.path.join(where, 'stdout'), 'w') as f:
    f.write('\n'.join(lines) + '\n')
print(len(cases), 'networks;', len({l.split()[1] for l in lines if l[0] == 'R'}), 'refusal numbers')
