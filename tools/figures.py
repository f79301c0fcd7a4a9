#!/usr/bin/env python3
"""Writes crates/figures/stdin and stdout: the figures of 01 that are run, those of R-2, R-3 and R-6, 003's one-phase example, and what answering each gives by the oracle."""
import os
import oracle
from oracle import fault, head, record, w16

J = lambda x: (0, x)
NONE = (0, 0)
# 01, 'Figures worked through'
GEN = record('GEN', '', 0, 0, J(20), J(20), J(5), J(5))
BOOTH = record('BOOTH-WEST-1', 'GEN', 2, 0, (30, 10), (30, 10), (90, 30), NONE)
HALL = record('HALL', 'GEN', 4, 11, J(20), J(20), J(20), NONE)


def net(*records, n=None, volts=230, unit=1000):
    return head(volts, unit, len(records) if n is None else n) + b''.join(records)


THREE = net(GEN, BOOTH, HALL)
FULL = 13 + 24 * 3
cases = []


def case(network, flt, room):
    cases.append((network, flt, room))


# all four kinds at every board of the three, in every phase; room for one number more than there are
for name in ('GEN', 'BOOTH-WEST-1', 'HALL'):
    for kind in range(4):
        for p in range(3):
            case(THREE, fault(name, kind, p), FULL + 1)
            case(THREE, fault(name, kind, p, (3, 4)), FULL)
# the printed example
case(net(GEN), fault('GEN', 0, 0), 13 + 24)
# "Zf 1,365 taken, 1,366 refused (17)."
for zf in ((1365, 1365), (1366, 0), (0, 1366)):
    case(THREE, fault('HALL', 3, 1, zf), FULL)
# "zn 1,365 with z0 = 0 in kind 0 taken, 1,366 refused (11)."
for zn in (1365, 1366):
    case(net(record('GEN', '', 0, 0, J(20), J(20), NONE, J(zn))), fault('GEN', 1, 0), 37)
# "N 256 taken, 257 refused (3)."
many = [GEN] + [record('B%d' % i, 'GEN' if i < 3 else 'B%d' % (i - 2), 2, 0, J(1), J(1), J(1), NONE) for i in range(1, 257)]
case(net(*many[:256]), fault('B255', 3, 2), 13 + 24 * 256)
case(net(*many), fault('B255', 3, 2), 13 + 24 * 257)
# "A used label with an unknown feeder: 7."
case(net(GEN, BOOTH, record('GEN', 'NOWHERE', 2, 0, J(1), J(1), J(1), NONE)), fault('GEN', 0, 0), FULL)
# "A short fault and a short buffer: 12."
case(THREE, fault('HALL', 1, 0)[:19], 0)
# 12 to 19, each alone and each before the next
good = fault('HALL', 1, 0)
case(THREE, b'', FULL)
case(THREE, good + b'\0', FULL)
case(THREE, b'FU' + good[2:], FULL)
case(THREE, b'FU' + fault('NOWHERE', 1, 0)[2:], FULL)
case(THREE, fault('NOWHERE', 1, 0), FULL)
case(THREE, fault('HALLS', 9, 9), FULL)
case(THREE, b'FT' + b'HALL\0       ' + good[14:], FULL)
case(THREE, fault('HALL', 4, 0), FULL)
case(THREE, fault('HALL', 4, 3), FULL)
case(THREE, fault('HALL', 1, 3), FULL)
case(THREE, fault('HALL', 0, 1, (2000, 0)), FULL)
case(THREE, good, FULL - 1)
case(THREE, good, 0)
# 02, R-2: earth faults at boards without earth return are answered; 17 is still tested, 19 still comes last
BLOCK = record('BLOCK', 'GEN', 5, 6, J(9), J(9), NONE, NONE)
UNDER = record('UNDER', 'BLOCK', 2, 0, J(1), J(1), J(1), NONE)
FOUR = net(GEN, BOOTH, BLOCK, UNDER)
case(FOUR, fault('UNDER', 1, 0, (1366, 0)), 0)
for name in ('BLOCK', 'UNDER'):
    for kind in range(4):
        case(FOUR, fault(name, kind, 0), 13 + 24 * 4)
    for kind in (1, 3):
        for p in (1, 2):
            case(FOUR, fault(name, kind, p, (3, 4)), 13 + 24 * 4 + p)
case(FOUR, fault('UNDER', 3, 2), 13 + 24 * 4 - 1)
case(FOUR, fault('UNDER', 3, 2), 0)
# a set without earth, alone and with boards that it feeds: joined ones, one behind kind 5 and one with an earth return of its own
BARE = record('GEN', '', 1, 0, (1, 20), (2, 15), NONE, NONE)
SIX = net(BARE, BOOTH, BLOCK, UNDER, HALL, record('STAR', 'BOOTH-WEST-1', 3, 0, J(4), J(4), (2, 3), (5, 7)))
for p in range(3):
    case(net(BARE), fault('GEN', 1, p), 37)
    case(net(BARE), fault('GEN', 3, p, (1365, 7)), 37)
for name in ('GEN', 'BOOTH-WEST-1', 'UNDER', 'HALL', 'STAR'):
    for kind in (1, 3):
        case(SIX, fault(name, kind, 2, (5, 6)), 13 + 24 * 6)
# 02, R-3: Booth-West-1 is BOOTH-WEST-1 where a fault names it (14), where a board is fed from it (8) and where a second one has it (7); bytes beside the letters stay apart
for name in ('Booth-West-1', 'booth-west-1', 'BOOTH-WESt-1', 'BOOTH\rWEST-1', 'BOOTH-WEST\x111'):
    case(THREE, fault(name, 1, 0), FULL)
TENT = record('Tent', 'Booth-West-1', 2, 0, (1, 1), (1, 1), (1, 1), NONE)
case(net(GEN, BOOTH, TENT), fault('TENT', 3, 1), FULL)
case(net(GEN, BOOTH, record('Booth-West-1', 'GEN', 2, 0, (1, 1), (1, 1), (1, 1), NONE)), fault('GEN', 0, 0), FULL)
for a, b in ('@`', '[{', 'Aa', 'Zz'):
    case(net(GEN, record('B' + a, 'gen', 2, 0, J(1), J(1), J(1), NONE)), fault('b' + b, 1, 0), 13 + 24 * 2)
# 02, R-6: a transformer with z1 zero is refused (21), after 10 and before 11, and before the fault is looked at; one part is enough, and a cable may be of no length
for kind, clock in ((2, 0), (3, 0), (4, 11), (5, 6)):
    for z in (NONE, J(1), (1, 0)):
        case(net(GEN, BOOTH, record('HALL', 'GEN', kind, clock, z, z, NONE, NONE)), fault('HALL', 1, 0), FULL)
    # 10 first, 11 later
    for zs in ((NONE, J(1), NONE, NONE), (NONE, NONE, J(4096), NONE), (NONE, NONE, NONE, J(1366)), (J(1), J(1), NONE, J(1366))):
        case(net(GEN, BOOTH, record('HALL', 'GEN', kind, clock, *zs)), fault('HALL', 1, 0), FULL)
FORGOTTEN = record('HALL', 'GEN', 4, 11, NONE, NONE, J(20), NONE)
FAR = record('FAR', 'GEN', 2, 0, J(4076), J(4076), NONE, NONE)
case(net(GEN, FAR, FORGOTTEN), fault('GEN', 0, 0), FULL)
case(net(GEN, FORGOTTEN, FAR), fault('GEN', 0, 0), FULL)
case(net(GEN, BOOTH, FORGOTTEN), b'', 0)
# 003, one phase to earth: Z 1696, 1696, 1999 reactive, 5.5648 per unit in all: 1,000 V and 10 microohms make it 55,648 A
case(net(record('G', '', 0, 0, J(1696), J(1696), J(1999), NONE), volts=1000, unit=10), fault('G', 1, 0), 37)
# a network refused before its fault is looked at
case(THREE[:-1], b'', 0)
case(b'', b'', 0)

lines = []
for network, flt, room in cases:
    a = oracle.solve(network, flt, room)
    written = a['numbers'] or []
    lines.append('CASE %d %d %d %d %s %d %d %d' % (a['number'], a['place'], a['n'], a['amps'], *a['part'], room - len(written)))
    if written:
        assert 7777777 not in written
        rows = [written[:1]] + [written[i:i + 12] for i in range(1, len(written), 12)]
        lines += [''.join(' %d' % z for z in row) for row in rows]
where = os.path.join(os.path.dirname(os.path.abspath(__file__)), '..', 'crates', 'figures')
stream = b''.join(w16(len(n)) + w16(len(f)) + w16(room) + n + f for n, f, room in cases)
assert len(stream) <= 65536
with open(os.path.join(where, 'stdin'), 'wb') as f:
    f.write(stream)
with open(os.path.join(where, 'stdout'), 'w') as f:
    f.write('\n'.join(lines) + '\n')
print(len(cases), 'cases;', sum(l.startswith('CASE 0 ') for l in lines), 'answered;', len({l.split()[1] for l in lines if l.startswith('CASE')}) - 1, 'refusal numbers')
