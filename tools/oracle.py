"""The paper (01, and R-1 to R-4 and R-6 of 02) a second time, in plain Python with whole numbers only. Written from the papers and not from the project's code:
expected outputs and figures come from here, so that the two can disagree. In the gate tests/programs asks it; the files of the other programs were written by it before."""
from math import isqrt

# ---- the number: x0 + x1 t + x2 t^2 + x3 t^3, t^4 = t^2 - 1
ONE, NIL = (1, 0, 0, 0), (0, 0, 0, 0)


def add(a, b):
    return tuple(x + y for x, y in zip(a, b))


def neg(a):
    return tuple(-x for x in a)


def mul(a, b):
    c = [0] * 7
    for i in range(4):
        for k in range(4):
            c[i + k] += a[i] * b[k]
    for n in (6, 5, 4):  # t^n = t^(n-2) - t^(n-4)
        c[n - 2] += c[n]
        c[n - 4] -= c[n]
    return tuple(c[:4])


def whole(n):
    return (n, 0, 0, 0)


def turn(n):
    r = ONE
    for _ in range(n % 12):
        r = mul(r, (0, 1, 0, 0))
    return r


def conj(a):
    r = NIL
    for i in range(4):
        r = add(r, mul(whole(a[i]), turn(11 * i)))
    return r


def rx(z):
    return (z[0], 0, 0, z[1])


# ---- files
def u16(b, i):
    return b[i] | b[i + 1] << 8


def formed(label):
    text = bytes(label).rstrip(b' ')
    return 1 <= len(text) and all(0x21 <= c <= 0x7E for c in text)


def same(a, b):
    """02, R-3: all twelve bytes agree after a to z are read as A to Z (bytes.upper folds these 26 and nothing else)"""
    return bytes(a).upper() == bytes(b).upper()


CLOCKS = {0: [0], 1: [0], 2: [0], 3: [0], 4: [1, 3, 5, 7, 9, 11], 5: list(range(12))}


class Refused(Exception):
    """number, place, part (whose, start, length)"""

    def __init__(self, number, place, part):
        self.number, self.place, self.part = number, place, part


def network(net):
    """head and boards (from index 1 on), or Refused by the first of 1 to 10, 21 and 11"""
    if len(net) < 8:
        raise Refused(1, 0, ('network', 0, len(net)))
    part = ('network', 0, 8)
    if net[:2] != b'HD':
        raise Refused(2, 0, part)
    volts, unit, count = u16(net, 2), u16(net, 4), u16(net, 6)
    if not in_range(volts, unit, count):
        raise Refused(3, 0, part)
    if len(net) != 8 + 44 * count:
        raise Refused(4, 0, part)
    boards = [None]
    for r in range(1, count + 1):
        start = 8 + 44 * (r - 1)
        b, part = net[start:start + 44], ('network', start, 44)
        if b[:2] != b'BD':
            raise Refused(5, r, part)
        boards.append(judged(decoded(b), r, boards, part))
    return volts, unit, boards


def in_range(volts, unit, count):
    return 1 <= volts <= 1000 and 10 <= unit <= 1000 and 1 <= count <= 256


def decoded(b):
    """a record's bytes but for its mark: label, feeder label, kind, clock, and z1, z2, z0, zn"""
    return b[2:14], b[14:26], b[26], b[27], [(u16(b, 28 + 4 * i), u16(b, 30 + 4 * i)) for i in range(4)]


def judged(board, r, before, part):
    """a decoded board as record r, with its chain and sums, or Refused by the first of 6 to 10, 21 and 11: of a file that is read, and of one that is written"""
    label, feeder, kind, clock, (z1, z2, z0, zn) = board

    def refuse(number):
        raise Refused(number, r, part)

    if not formed(label):
        refuse(6)
    if any(same(x['label'], label) for x in before[1:]):
        refuse(7)
    fed = 0
    if r == 1:
        if feeder != b' ' * 12:
            refuse(8)
    else:
        found = [i for i in range(1, r) if same(before[i]['label'], feeder)]
        if not found:
            refuse(8)
        fed = found[0]
    if kind > 5 or clock not in CLOCKS[kind] or (kind <= 1) != (r == 1):
        refuse(9)
    none = (0, 0)
    wrong = any(v > 4095 for z in (z1, z2, z0, zn) for v in z)
    wrong |= kind <= 1 and (z1 == none or z2 == none)
    wrong |= kind in (1, 5) and (z0 != none or zn != none)
    wrong |= kind == 2 and zn != none
    wrong |= kind >= 2 and z1 != z2
    if wrong:
        refuse(10)
    # 02, R-6: "Kinds 3, 4 and 5 with z1 zero are to be refused", "tested after 10 and before 11"
    if kind in (3, 4, 5) and z1 == none:
        refuse(21)
    up = before[fed] if fed else None
    own0 = z0 if kind == 2 else (z0[0] + 3 * zn[0], z0[1] + 3 * zn[1])
    new = dict(label=label, kind=kind, z1=z1, z2=z2, t0=own0, clock=clock)
    new['chain'] = [r] + (up['chain'] if up else [])
    if kind in (0, 4):
        new['zero'] = [r]
    elif kind in (2, 3) and up['zero']:
        new['zero'] = [r] + up['zero']
    else:
        new['zero'] = []
    # the record by which its part is named: kinds 2 and 3 join a board to its feeder's
    new['part'] = up['part'] if kind in (2, 3) else r
    every = before + [new]

    def total(what, places):
        return tuple(sum(every[i][what][x] for i in places) for x in (0, 1))

    new['Z1'], new['Z2'], new['Z0'] = total('z1', new['chain']), total('z2', new['chain']), total('t0', new['zero'])
    new['turn'] = sum(every[i]['clock'] for i in new['chain'])
    if any(v > 4095 for what in ('Z1', 'Z2', 'Z0') for v in new[what]):
        refuse(11)
    return new


# ---- why there is no earth return (02, R-4)
def earth(net, asked):
    """number, place, whether there is an earth return (1, else 0), and the part that a refusal shows (None: an answer's)"""
    try:
        boards = network(net)[2]
        found = [r for r in range(1, len(boards)) if len(asked) == 12 and same(boards[r]['label'], asked)]
        if not found:
            raise Refused(14, 0, ('label', 0, len(asked)))
    except Refused as r:
        return dict(number=r.number, place=r.place, earthed=0, part=r.part)
    # from the board towards the source, the first that does not go on
    place = next(i for i in boards[found[0]]['chain'] if boards[i]['kind'] not in (2, 3))
    return dict(number=0, place=place, earthed=int(boards[place]['kind'] in (0, 4)), part=None)


# ---- an answer
def solve(net, flt, room):
    """number, place, n, amps, part, and the numbers of the answer (None where refused)"""
    try:
        return answer(net, flt, room)
    except Refused as r:
        return dict(number=r.number, place=r.place, n=0, amps=0, part=r.part, numbers=None)


def answer(net, flt, room):
    volts, unit, boards = network(net)
    count = len(boards) - 1
    shown = ('fault', 0, 20)
    if len(flt) != 20:
        raise Refused(12, 0, ('fault', 0, len(flt)))
    if flt[:2] != b'FT':
        raise Refused(13, 0, shown)
    found = [i for i in range(1, count + 1) if same(boards[i]['label'], flt[2:14])]
    if not found:
        raise Refused(14, 0, shown)
    k, kind, p, zf = found[0], flt[14], flt[15], (u16(flt, 16), u16(flt, 18))
    if kind > 3:
        raise Refused(15, 0, shown)
    if p > 2 or (kind == 0 and p != 0):
        raise Refused(16, 0, shown)
    if max(zf) > 1365:
        raise Refused(17, 0, shown)
    if room < 13 + 24 * count:
        raise Refused(19, 0, ('fault', 0, 0))
    Z1, Z2, Z0, Zf = rx(boards[k]['Z1']), rx(boards[k]['Z2']), rx(boards[k]['Z0']), rx(zf)
    G = add(Z0, mul(whole(3), Zf))
    delta = add(mul(Z1, Z2), mul(add(Z1, Z2), G))
    divisor, above = {
        0: (add(Z1, Zf), (ONE, NIL, NIL)),
        1: (add(add(Z1, Z2), G), (ONE, ONE, ONE)),
        2: (add(add(Z1, Z2), Zf), (ONE, neg(ONE), NIL)),
        3: (delta, (add(Z2, G), neg(G), neg(Z2))),
    }[kind]
    lost = kind in (1, 3) and not boards[k]['zero']  # an earth fault without earth return
    if lost:
        divisor, above = (ONE, (NIL, NIL, NIL)) if kind == 1 else (add(Z1, Z2), (ONE, neg(ONE), NIL))
    D = divisor[0] ** 2 + divisor[3] ** 2
    I = [mul(x, conj(divisor)) for x in above]

    def phase(X, d, ph):
        i = (ph - p) % 3
        return mul(turn(8 * p), add(add(X[2], mul(turn(8 * i - d), X[0])), mul(turn(4 * i + d), X[1])))

    numbers = [D]
    for ph in range(3):
        numbers += phase(I, 0, ph)
    at = boards[k]
    for q in range(1, count + 1):
        here = boards[q]
        d = here['turn'] - at['turn']
        common = [i for i in here['chain'] if i in at['chain']]
        common0 = [i for i in here['zero'] if i in at['zero']]

        def shared(what, places):
            return rx(tuple(sum(boards[i][what][x] for i in places) for x in (0, 1)))

        W = [add(whole(D), neg(mul(shared('z1', common), I[0]))), neg(mul(shared('z2', common), I[1])), neg(mul(shared('t0', common0), I[2]))]
        if lost and here['part'] == at['part']:
            W[2] = neg(ONE) if kind == 1 else add(whole(D), neg(mul(Z1, I[0])))
        on = q in at['chain']
        C = [I[0] if on else NIL, I[1] if on else NIL, I[2] if q in at['zero'] else NIL]
        for X in (W, C):
            for ph in range(3):
                numbers += phase(X, d, ph)
    said = {0: I[0], 1: mul(whole(3), I[0]), 2: add(mul(turn(8), I[0]), mul(turn(4), I[1])), 3: mul(whole(3), I[2])}[kind]
    square = mul(said, conj(said))
    assert square[1:] == (0, 0, 0)
    amps = isqrt(square[0] * (volts * 10 ** 6) ** 2 // (D * unit) ** 2)
    return dict(number=0, place=k, n=count, amps=amps, part=('network', 8 + 44 * (k - 1), 44), numbers=numbers)


# ---- the writer (02, R-1)
def write(volts, unit, boards, room):
    """number, place, the file's length, part, and the file (None where refused); boards are decoded ones, as many as there are"""
    empty = ('network', 0, 0)
    try:
        if not in_range(volts, unit, len(boards)):
            raise Refused(3, 0, empty)
        before = [None]
        for r, board in enumerate(boards, 1):
            before.append(judged(board, r, before, empty))
        file = head(volts, unit, len(boards)) + b''.join(laid(*b) for b in boards)
        if room < len(file):
            raise Refused(20, 0, empty)
    except Refused as r:
        return dict(number=r.number, place=r.place, length=0, part=r.part, file=None)
    return dict(number=0, place=0, length=len(file), part=empty, file=file)


# ---- files written out
def w16(n):
    return bytes([n & 255, n >> 8])


def label(text):
    return text.encode().ljust(12)


def head(volts, unit, n):
    return b'HD' + w16(volts) + w16(unit) + w16(n)


def laid(own, feeder, kind, clock, zs):
    return b'BD' + own + feeder + bytes([kind, clock]) + b''.join(w16(r) + w16(x) for r, x in zs)


def record(name, feeder, kind, clock, *zs):
    return laid(label(name), label(feeder), kind, clock, zs)


def fault(name, kind, p, zf=(0, 0)):
    return b'FT' + label(name) + bytes([kind, p]) + w16(zf[0]) + w16(zf[1])
