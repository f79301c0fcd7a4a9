#!/usr/bin/env python3
"""Writes crates/batch/stdin and stdout: a short stream of cases of the three entry points, solve, write and earth, and by the oracle the stream of their answers.
With a number, writes that many cases of solve to standard output instead, the same ones over and over: a stream to time `batch` with."""
import os
import struct
import sys
import oracle
from oracle import fault, head, record

J = lambda x: (0, x)
NONE = (0, 0)
# 01, 'Figures worked through'
GEN = record('GEN', '', 0, 0, J(20), J(20), J(5), J(5))
BOOTH = record('BOOTH-WEST-1', 'GEN', 2, 0, (30, 10), (30, 10), (90, 30), NONE)
HALL = record('HALL', 'GEN', 4, 11, J(20), J(20), J(20), NONE)
BLOCK = record('BLOCK', 'GEN', 5, 6, J(9), J(9), NONE, NONE)
THREE = head(230, 1000, 3) + GEN + BOOTH + HALL
FOUR = head(400, 100, 4) + GEN + BOOTH + HALL + BLOCK
FULL = 13 + 24 * 3
SOUND = fault('HALL', 1, 2, (3, 4))
# 02, R-6: transformers of each kind with z1 zero; one with another z2 (10), one with a sum over 4,095; and sound ones: of one part, of the other, a cable of no length
EDGES = [record('HALL', 'GEN', *rest) for rest in (
    (3, 0, NONE, NONE, J(1), J(1)), (4, 11, NONE, NONE, J(20), NONE), (5, 6, NONE, NONE, NONE, NONE),
    (4, 11, NONE, J(1), J(20), NONE), (4, 11, NONE, NONE, NONE, J(1366)),
    (3, 0, J(1), J(1), NONE, NONE), (4, 1, (1, 0), (1, 0), NONE, NONE), (2, 0, NONE, NONE, NONE, NONE))]
FAR = record('FAR', 'GEN', 2, 0, J(4076), J(4076), NONE, NONE)
solving = [
    # each kind of fault; two elements more than there are numbers
    (THREE, fault('GEN', 0, 0), FULL),
    (THREE, fault('BOOTH-WEST-1', 1, 1), FULL + 2),
    (THREE, fault('HALL', 2, 2, (1, 0)), FULL),
    (THREE, fault('HALL', 3, 1, (0, 2)), FULL),
    # the head, a record, the fault
    (b'', b'', 5),
    (b'XX' + THREE[2:], SOUND, 1),
    (THREE[:-1], SOUND, FULL),
    (head(230, 1000, 3) + GEN + BOOTH + BOOTH, SOUND, FULL),
    (THREE, SOUND[:19], 3),
    (THREE, fault('NOWHERE', 1, 0), FULL),
    # 02, R-2: an earth fault at a board without earth return
    (FOUR, fault('BLOCK', 1, 0), 13 + 24 * 4),
    (FOUR, fault('BLOCK', 3, 2, (1, 0)), 13 + 24 * 4),
    # 02, R-3: a label typed in another case; the bytes shown are the file's
    (THREE, fault('Booth-West-1', 1, 0), FULL),
    (head(230, 1000, 2) + GEN + record('Booth-West-1', 'gEN', 2, 0, (30, 10), (30, 10), (90, 30), NONE), fault('BOOTH-WEST-1', 1, 0), 13 + 24 * 2),
    (THREE, fault('BOOTH\rWEST-1', 1, 0), FULL),
    # 02, R-6: the edges of 21; 11 at the record before, at the one behind
    *((head(230, 1000, 3) + GEN + BOOTH + b, SOUND, FULL) for b in EDGES),
    (head(230, 1000, 3) + GEN + FAR + EDGES[0], SOUND, 0),
    (head(230, 1000, 3) + GEN + EDGES[0] + FAR, SOUND[:19], 2),
    # a short buffer, and none
    (THREE, SOUND, FULL - 1),
    (THREE, SOUND, 0),
    # the longest part that is shown
    (THREE, SOUND.ljust(64, b'\xff'), 6),
    # the most of each: room, network and fault
    (THREE.ljust(16400, b'\0'), SOUND.ljust(64, b'\0'), 6),
    (head(230, 1000, 1) + GEN, fault('GEN', 1, 0), 6400),
]


# what is written: volts, unit, boards, bytes of the output. The marks are not BD, for nobody is to look at them
def board(*fields, mark=b'??', label=None):
    b = mark + record(*fields)[2:]
    return b if label is None else b[:2] + label + b[14:]


WGEN, WBOOTH, WHALL, WFAR, *WEDGES = (b'??' + b[2:] for b in (GEN, BOOTH, HALL, FAR, *EDGES))
W3 = [WGEN, WBOOTH, WHALL]
LONG = 8 + 44 * 3
MANY = [WGEN] + [board('B%d' % i, 'GEN' if i < 3 else 'B%d' % (i - 2), 2, 0, J(1), J(1), J(1), NONE) for i in range(1, 372)]
writing = [
    # sound: exact, longer, one byte short, none
    (230, 1000, W3, LONG),
    (1000, 10, W3, LONG + 10),
    (1, 1000, [board('GEN', '', 1, 0, J(4095), (1, 0), NONE, NONE, mark=b'BD')], 300),
    (230, 1000, W3, LONG - 1),
    (230, 1000, W3, 0),
    # 3: the number of boards, volts, unit
    (230, 1000, [], 8),
    (230, 1000, MANY[:256], 8 + 44 * 256),
    (230, 1000, MANY[:257], 16),
    (1001, 1000, W3, LONG),
    (230, 9, W3, LONG - 1),
    # 6 to 11; where one is broken a later rule is too, or the output is short
    (230, 1000, [WGEN, WBOOTH, board('HALL', 'NOWHERE', 4, 11, J(20), J(20), J(20), NONE, label=b'H\xc4LL'.ljust(12))], LONG),
    (230, 1000, [WGEN, WBOOTH, board('GEN', 'NOWHERE', 2, 0, NONE, NONE, NONE, NONE)], LONG + 1),
    (230, 1000, [board('GEN', 'HALL', 7, 0, J(20), J(20), J(5), J(5)), WHALL], 40),
    (230, 1000, [WGEN, board('BOOTH-WEST-1', 'GEN', 255, 255, (30, 10), (30, 10), (65535, 30), NONE), WHALL], LONG),
    (230, 1000, [WGEN, WBOOTH, board('HALL', 'GEN', 4, 11, J(4096), J(4096), J(20), NONE)], LONG),
    (230, 1000, [WGEN, board('BOOTH-WEST-1', 'GEN', 2, 0, (30, 10), (30, 10), (90, 4076), NONE), WGEN], LONG - 1),
    # 02, R-3: labels typed in another case, kept as they are typed; one that is used already
    (230, 1000, [WGEN, board('Booth-West-1', 'gEN', 2, 0, (30, 10), (30, 10), (90, 30), NONE), board('HALL', 'bOOTH-wEST-1', 4, 11, J(20), J(20), J(20), NONE)], LONG),
    (230, 1000, [WGEN, WBOOTH, board('booth-west-1', 'GEN', 4, 11, J(20), J(20), J(20), NONE)], LONG),
    # 02, R-6: the same, and with no output
    *((230, 1000, [WGEN, WBOOTH, b], LONG) for b in WEDGES),
    (230, 1000, [WGEN, WFAR, WEDGES[1]], LONG),
    (230, 1000, [WGEN, WEDGES[1], WFAR], LONG),
    (230, 1000, [WGEN, WEDGES[2]], 0),
    # the most of each: boards and output
    (230, 1000, MANY, 16400),
    (230, 1000, [WGEN], 16400),
]


# where an earth return comes from: network and label
BARE = record('GEN', '', 1, 0, J(20), J(20), NONE, NONE)
ROOM = record('ROOM', 'BLOCK', 3, 0, (3, 1), (3, 1), (9, 3), NONE)
gen, booth, hall = (oracle.label(name) for name in ('GEN', 'BOOTH-WEST-1', 'HALL'))
tracing = [
    (THREE, booth),
    (THREE, hall),
    (head(230, 1000, 3) + BARE + BOOTH + HALL, booth),
    (head(230, 1000, 3) + BARE + BOOTH + HALL, hall),
    (FOUR[:6] + b'\5\0' + FOUR[8:] + ROOM, oracle.label('room')),
    # 14: unknown, eleven bytes, thirteen, none, the most
    (THREE, oracle.label('NOWHERE')),
    (THREE, gen[:11]),
    (THREE, gen + b' '),
    (THREE, b''),
    (THREE, gen.ljust(64)),
    # the network's own come first
    (b'', gen),
    (THREE[:-1], gen[:11]),
    (head(230, 1000, 3) + GEN + BOOTH + BOOTH, gen),
    # 02, R-6: 21 among them
    *((head(230, 1000, 3) + GEN + BOOTH + b, hall) for b in EDGES),
    (head(230, 1000, 3) + GEN + FAR + EDGES[1], gen),
    (head(230, 1000, 3) + GEN + EDGES[1] + FAR, gen[:11]),
    (THREE.ljust(16400, b'\0'), gen),
]


def asked_to_solve(net, flt, room):
    return struct.pack('<4I', 1, room, len(net), len(flt)) + net + flt


def solved(net, flt, room):
    a = oracle.solve(net, flt, room)
    written = a['numbers'] or []
    buffer = written + [1000003 * (i + 1) for i in range(len(written), room)]
    whose, start, size = a['part']
    code, lent = {'network': (1, net), 'fault': (2, flt)}[whose]
    first = struct.pack('<3IQ3I', a['number'], a['place'], a['n'], a['amps'], code, start, size)
    shown = lent[start:start + size]
    assert len(shown) == size
    return first + shown + struct.pack('<I%dq' % room, room, *buffer)


def asked_to_write(volts, unit, boards, room):
    boards = b''.join(boards)
    return struct.pack('<4I', 2, room, len(boards), 4) + boards + struct.pack('<2H', volts, unit)


def to_write(volts, unit, boards, room):
    return oracle.write(volts, unit, [oracle.decoded(b) for b in boards], room)


def written(*case):
    a, room = to_write(*case), case[-1]
    assert a['part'] == ('network', 0, 0)
    out = bytes((7 * i + 3) % 256 for i in range(room))
    out = (a['file'] or b'') + out[a['length']:]
    return struct.pack('<7I', a['number'], a['place'], a['length'], 1, 0, 0, room) + out


def asked_to_trace(net, label):
    return struct.pack('<4I', 3, 0, len(net), len(label)) + net + label


def traced(net, label):
    a = oracle.earth(net, label)
    whose, start, size = a['part'] or ('nobody', 0, 0)
    code, lent = {'nobody': (0, b''), 'network': (1, net), 'label': (3, label)}[whose]
    shown = lent[start:start + size]
    assert len(shown) == size
    return struct.pack('<6I', a['number'], a['place'], a['earthed'], code, start, size) + shown


if len(sys.argv) > 1:
    for i in range(int(sys.argv[1])):
        sys.stdout.buffer.write(asked_to_solve(*solving[i % 13]))
    sys.exit()
where = os.path.join(os.path.dirname(os.path.abspath(__file__)), '..', 'crates', 'batch')
asked = [asked_to_solve(*c) for c in solving] + [asked_to_write(*c) for c in writing] + [asked_to_trace(*c) for c in tracing]
answers = [solved(*c) for c in solving] + [written(*c) for c in writing] + [traced(*c) for c in tracing]
# the last one is cut off in its fault
with open(os.path.join(where, 'stdin'), 'wb') as f:
    f.write(b''.join(asked) + asked_to_solve(THREE, SOUND, FULL)[:-1])
with open(os.path.join(where, 'stdout'), 'wb') as f:
    f.write(b''.join(answers) + b'CUT\n')
print(len(solving), 'cases of solve:', [oracle.solve(*c)['number'] for c in solving])
print(len(writing), 'cases of write:', [to_write(*c)['number'] for c in writing])
print(len(tracing), 'cases of earth:', [oracle.earth(*c)['number'] for c in tracing])
print('and one that is cut off')
