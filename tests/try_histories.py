#!/usr/bin/env python3
"""The calls of the program try_histories, and what it must print, computed with whole numbers only.

    tests/try_histories.py stdin > crates/try_histories/stdin
    tests/try_histories.py > crates/try_histories/stdout

Pseudo-random calls, refused ones included, on a plain model alone (tests/plain/tables.py): a table is a value for each assignment
of its live bits, and a value is four whole numbers times a power of √2. Nothing here is taken from the library or from a run of it.
"""

import struct
import sys
from pathlib import Path

sys.dont_write_bytecode = True
sys.path[:0] = [str(Path(__file__).resolve().parent / part) for part in ("drawn", "plain")]

from tables import Table, answer, bits, case, mask_of
from words import WORD, word

CALLS = ["new_bit", "turn", "scale", "tie", "sum", "fix", "join"]
ENTRY, COPY, LOOK = 7, 8, 9
ZERO, POWER, LIVE, PHASE, TURN, ROW, COUNT, TIE, LABEL = range(10, 19)
FIRST, SECOND, BASE, BESIDE, SPOILT, FULL, FRESH = 0, 1, 2, 3, 4, 6, 7  # what the eight tables are used for

records, lines = [], []
tables, looks = [Table() for _ in range(8)], [0] * 8


# Records, with the model beside them


def record(code, i, j=0, small=0, place=0, number=0):
    records.append(struct.pack("<BBBBQ", code, i + 8 * j, small, place, number & WORD))


def copied(i, j):
    """Table i becomes what table j is."""
    record(COPY, i, j)
    tables[i] = tables[j].copy()


def looked_at(i, after):
    """The slots with values of their own are looked at, all others stand by themselves."""
    if not after.spoilt and looks[i] & after.live() != mask_of(after.slots):
        looks[i] = WORD ^ mask_of(after.base)
        record(LOOK, i, number=looks[i])


def called(i, j, call):
    """A call on table i, a join with table j, and its line."""
    before = tables[i]
    n, after, slot, places = answer(call, before, tables[j])
    looked_at(i, after)
    name, *given = call
    small, place, number = 0, 0, 0
    if name == "turn":
        number, place, small = given
    elif name == "scale" or name == "tie" or name == "fix":
        number, small = given
    elif name == "sum" or name == "new_bit":
        (number,) = given
    record(CALLS.index(name), i, j, small, place, number)
    tables[i] = after
    spread = "refused 12" if after.spoilt else "none" if after.spread() is None else after.spread()
    kept, tidy = (1, 0) if after.spoilt else (int(after.same(before)), 1)
    h = entries(word(0, after.live()), after, looks[i], len(records) - 1)
    beside = [slot] if name == "new_bit" else [placed(places)] if name == "join" else [case(n, before, after, *given)] * 2 if name == "sum" else []
    lines.append(" ".join(map(str, [n, *beside, spread, kept, tidy, labels(after), f"{h % 2**32:08x}"])))


def asked(i, x):
    """The entry of table i at x, and its line."""
    record(ENTRY, i, number=x)
    t = tables[i]
    if t.spoilt or x & ~t.live():
        h = word(0, 12 if t.spoilt else 1)
    else:
        h = amount(amount(0, t.entry(x)), t.entry(x))
    lines.append(f"{h % 2**32:08x}")


# Digests, as the program has them


def amount(h, a):
    return word(h, 1 << 63) if a is None else word(word(h, abs(a[0])), a[1] ^ (WORD if a[0] < 0 else 0))


def placed(places):
    h = 0
    for v in places:
        h = word(h, v)
    return h % 2**32


def labels(t):
    h = 0
    for v in range(64):
        h = word(h, t.labels.get(v, 0))
    return h % 2**32


def entries(h, t, look, n):
    """Every value of the bits that are looked at, in rising order, beside drawn values of the others."""
    live = t.live()
    seen, rest, x = live & look, live & ~look, 0
    for q in range(1024):
        if t.spoilt:
            h = word(h, 12)
        else:
            a = t.entry(x | rest & word(n, q) if rest else x)
            h = amount(amount(h, a), a)
        x = x - seen & seen
        if x == 0:
            break
    return h


# Draws, from the models alone


def drawing(stream, call):
    return lambda j: word(word(stream, call), word(stream, j))


def small(w, n):
    """A number below n, and now and then one from there to 255."""
    a = w // 64 % 256
    return a % n if w % 64 < 60 else 255 if a < n else a


def slot(w, t):
    """A slot: 64 or more, the lowest free one, or mostly one with values."""
    r = w // 32
    if w % 32 == 0:
        return 64 + r % 64
    if w % 32 == 1:
        return r
    if w % 32 == 2 or not t.slots:
        return t.free()
    return t.slots[r % len(t.slots)]


def power(w, e):
    """A power: to about 2,000 or −2,000 from the power e, extreme, back to 0, or small."""
    r = w // 16
    if w % 16 <= 1:
        return 1998 + r % 5 - e
    if w % 16 <= 3:
        return r % 5 - 2002 - e
    if w % 16 == 4:
        return [2**31 - 1, -(2**31), 4001, -4001][r % 4]
    return -e if w % 16 <= 7 else r % 7 - 3


def chosen(t, q):
    """The slots with values that q has a bit for."""
    return mask_of(v for i, v in enumerate(t.slots) if q >> i & 1)


def mask(draw, t):
    """A mask of slots with values, every second time a thin one; now and then with a free slot, or with any but the base."""
    w = draw(2)
    x = chosen(t, w // 2 & (WORD if w % 2 == 0 else draw(3)))
    kind = draw(4) % 16
    if kind == 0:
        return (x | 1 << t.free()) & WORD
    return x | draw(5) & ~mask_of(t.base) if kind == 1 else x


def assignment(draw, t):
    """An assignment of live bits; every third time with the lowest free slot, or any at all."""
    w = draw(10)
    x = chosen(t, w) | w & mask_of(t.base)
    kind = draw(11) % 6
    return (x | 1 << t.free()) & WORD if kind == 0 else w if kind == 1 else x


def pair(draw, t):
    """Two slots, in two of five draws the same one, and a count of quarter turns; on two slots mostly an even one. The second slot has a byte."""
    u, v, k = slot(draw(2), t), min(255, slot(draw(3), t)), small(draw(8), 4)
    if draw(9) % 5 < 2:
        return v, v, k
    return u, v, k if draw(12) % 4 == 0 or k > 3 else k // 2 * 2


handed = 0  # how many labels were given out


def new():
    """A new bit with a label that no bit had: 7 has no factor 2."""
    global handed
    handed += 1
    return ("new_bit", 7 * handed % 2**16)


def named(draw, t):
    """A new bit: now and then with a label that is in use, with the first or the last there is, or with any at all."""
    w = draw(14)
    r = w // 16
    if w % 16 <= 1 and t.labels:
        return ("new_bit", sorted(t.labels.values())[r % len(t.labels)])
    return ("new_bit", [0, 2**16 - 1, r % 2**16][w % 16 - 2]) if 2 <= w % 16 <= 4 else new()


def of_kind(name, draw, t):
    """A call by its name, with what it is given."""
    if name == "turn":
        return (name, *pair(draw, t))
    if name == "scale":
        return (name, power(draw(2), t.power), small(draw(3), 8))
    if name == "tie":
        return (name, mask(draw, t), small(draw(6), 2))
    if name == "sum":
        return (name, slot(draw(2), t))
    if name == "fix":
        return (name, slot(draw(2), t), small(draw(3), 2))
    return named(draw, t) if name == "new_bit" else (name,)


def drawn(draw, t, other, limit):
    """A call on t: one that would need more than ten slots with values becomes a sum."""
    used = len(t.slots)
    kind = 0 if used < 3 and draw(7) % 2 == 0 else draw(1) % 32
    if kind <= 9 and (t.count() == 64 or used < limit):
        return named(draw, t)
    if kind >= 30 and (t.count() + other.count() > 64 or used + len(other.slots) <= 10):
        return ("join",)
    for top, name in [(9, "sum"), (19, "turn"), (21, "scale"), (24, "tie"), (27, "sum"), (29, "fix"), (31, "sum")]:
        if kind <= top:
            return of_kind(name, draw, t)


# Spoilt tables: each way of not being normal, by a single fault


def fault_of_field(fault, v, t):
    """A fault in a field of the table as it is: out of range, not symmetric, or a place that must hold nothing."""
    ties = 0 if t.zero() else t.count() - t.spread()
    return {
        1: (POWER, 0, 0, 2001), 2: (POWER, 0, 0, -2001), 3: (POWER, 0, 0, -(2**31)), 4: (PHASE, 8, 0, 0), 5: (TURN, 4, v, 0),
        6: (ROW, 0, v, 1 << v), 7: (ROW, 0, v, 1 << (v + 1) % 64), 8: (TIE, 0, 63, 1), 9: (TIE, 1, 63, 0), 10: (COUNT, 0, 0, ties + 1),
        11: (COUNT, 0, 0, 65),
    }[fault]


def fault_of_label(fault, u, v, w, t):
    """A free slot with a label, or two live bits with one."""
    return {26: (LABEL, 0, w, 5), 27: (LABEL, 0, v, t.labels[u])}[fault]


def fault_of_shape(fault, u, v, w):
    """What is put into a table of the same live slots and nothing else: u and v are live, u below v, and w is free."""
    a, b, c = 1 << u, 1 << v, 1 << w
    return {
        12: [(ZERO, 1, 0, 0), (POWER, 0, 0, 1)],
        13: [(ZERO, 1, 0, 0), (PHASE, 1, 0, 0)],
        14: [(TURN, 1, w, 0)],
        15: [(ROW, 0, w, a), (ROW, 0, u, c)],
        16: [(COUNT, 0, 0, 1), (TIE, 0, 0, c)],
        17: [(COUNT, 0, 0, 1), (TIE, 0, 0, a | b), (TURN, 1, u, 0)],
        18: [(COUNT, 0, 0, 1), (TIE, 0, 0, a), (ROW, 0, v, a), (ROW, 0, u, b)],
        19: [(COUNT, 0, 0, 2), (TIE, 0, 0, b), (TIE, 0, 1, a)],
        20: [(COUNT, 0, 0, 2), (TIE, 0, 0, a), (TIE, 0, 1, a | b)],
        21: [(COUNT, 0, 0, 2), (TIE, 0, 0, a | b), (TIE, 0, 1, b)],
        22: [(COUNT, 0, 0, 1), (TIE, 2, 0, a)],
        23: [(ZERO, 1, 0, 0), (TURN, 1, u, 0)],
        24: [(ZERO, 1, 0, 0), (ROW, 0, v, a), (ROW, 0, u, b)],
        25: [(ZERO, 1, 0, 0), (COUNT, 0, 0, 1), (TIE, 1, 0, a)],
    }[fault]


def spoil(i, fault):
    """Table SPOILT becomes table i with a fault."""
    t = tables[i]
    u, v = (bits(t.live()) + [0, 0])[:2]
    if fault <= 11:
        copied(SPOILT, i)
        faults = [fault_of_field(fault, v, t)]
    elif fault >= 26:
        copied(SPOILT, i)
        faults = [fault_of_label(fault, u, v, t.free(), t)]
    else:
        copied(SPOILT, FRESH)
        faults = [(LIVE, 0, 0, t.live())] + [(LABEL, 0, s, s) for s in bits(t.live())] + fault_of_shape(fault, u, v, t.free())
    tables[SPOILT] = t.copy()
    if 12 <= fault <= 25:
        tables[SPOILT].labels = {s: s for s in bits(t.live())}
    tables[SPOILT].spoilt = True
    for code, small_number, place, number in faults:
        record(code, SPOILT, 0, small_number, place, number)
        if code == LABEL:
            tables[SPOILT].labels[place] = number


def spoilt_calls(draw, i, fault):
    """Every call on table i with a fault, and a join of table i with it."""
    t = tables[i]
    if fault > 13 and (t.count() < 2 or t.free() == 64):
        fault = 1
    tried.add(fault)
    spoil(i, fault)
    for name in CALLS:
        called(SPOILT, i, of_kind(name, draw, t))
    called(i, SPOILT, ("join",))
    asked(SPOILT, assignment(draw, t))


# Histories


def filled():
    """Table FULL gets all 64 slots, and is refused one more."""
    tables[FULL].basing = True
    for _ in range(65):
        called(FULL, FRESH, new())


def based(i, base):
    """Table i gets the slots of a base, turned; the others are fixed."""
    copied(i, FULL)
    for v in range(64):
        if not base >> v & 1:
            called(i, FRESH, ("fix", v, v % 2))
        elif v % 4:
            called(i, FRESH, ("turn", v, v, v % 4))


LIMITS = [6, 6, 10, 6, 4, 10, 10, 6]
BASES = [0, 2**58 - 1, WORD ^ sum(1 << v for v in range(0, 64, 7)), 0, 0, 2**54 - 1, 0, WORD ^ 63]
FAULTS = 27
tried = set()


def begun(side, kind):
    """A table of a history: fresh, or with the slots of a base."""
    has_base = kind == 3 if side == SECOND else BASES[kind] != 0
    copied(side, BASE if has_base else FRESH)


def history(stream):
    """A hundred calls, one of four on the second table, some with a question before; now and then all calls on a spoilt table."""
    kind = stream % 8
    for side in (FIRST, SECOND):
        begun(side, kind)
    for c in range(100):
        draw = drawing(stream, c)
        side = SECOND if draw(0) % 4 == 0 else FIRST
        if draw(13) % 4 == 0 and tables[side].zero():
            begun(side, kind)
        if c % 8 == 3:
            asked(side, assignment(draw, tables[side]))
        call = drawn(draw, tables[side], tables[1 - side], [LIMITS[kind], 4][side])
        if call == ("join",) and draw(15) % 4 and set(tables[0].labels.values()) & set(tables[1].labels.values()):
            begun(1 - side, kind)
            do(1 - side, side, new(), new(), ("turn", 0, 0, draw(16) % 4))
        called(side, 1 - side, call)
        if c % 33 == 32:
            spoilt_calls(draw, side, 1 + (3 * stream + c // 33) % FAULTS)


def histories():
    for kind in range(8):
        if kind == 3 or BASES[kind]:
            based(BASE, BASES[kind] or 2**40 - 1)
        for stream in range(kind, 24, 8):
            history(stream)


# The limits in calls by plan


NEAR = [-2000, -1999, -1, 0, 1, 1998, 1999, 2000]
FAR = NEAR + [-(2**31), -4001, -4000, 4000, 4001, 2**31 - 1]


def do(i, j, *calls):
    for call in calls:
        called(i, j, call)


def powers(b):
    """Each near power scaled by a far one, joined with a power of its own, and summed with any turn; then the zero table."""
    base, v = [(BASE, 61), (BESIDE, 40)][b % 2]
    copied(SECOND, FRESH if base == BASE else BESIDE)
    do(SECOND, FRESH, ("scale", NEAR[b % 8], 0))
    for a, near in enumerate(NEAR):
        copied(FIRST, base)
        do(FIRST, SECOND, ("scale", near, 0), ("scale", FAR[b], 1), ("join",))
        do(FIRST, SECOND, new(), ("turn", v, v, (2 * a + b) % 4), ("sum", v))
    do(FIRST, SECOND, ("tie", 0, 1), ("scale", FAR[b], 1), ("join",))


def last_sums():
    """A single bit with each turn, summed at the ends of the powers."""
    for s in (-2000, 1997, 1998, 1999, 2000):
        for k in range(4):
            copied(FIRST, FRESH)
            do(FIRST, FRESH, ("scale", s, 0), new(), ("turn", 0, 0, k), ("sum", 0))


def last_slots():
    """64 live bits by new bits and by joins both ways, and one more refused; refusal 4 comes before 5."""
    for more in (2, 3, 4):
        copied(FIRST, BASE)
        copied(SECOND, FRESH)
        do(SECOND, FRESH, *[new() for _ in range(more)], ("turn", 1, 1, 1), ("turn", 0, 1, 2), ("scale", 2000, 3))
        do(FIRST, SECOND, ("join",), new(), new(), ("scale", 2000, 0), ("join",))
        copied(FIRST, BASE)
        do(SECOND, FIRST, ("join",), new(), new())


def orders():
    """Calls with two faults: the first in the order 3, 1, 4, 5 is told; and the edges of a turn, on a zero table at last."""
    copied(FIRST, FRESH)
    do(FIRST, FRESH, new(), new(), ("scale", 2000, 0))
    do(FIRST, FRESH, ("turn", 2, 2, 4), ("fix", 64, 2), ("tie", 4, 2), ("turn", 2, 3, 1), ("turn", 1, 70, 3), ("turn", 70, 70, 1), ("scale", 1, 8), ("tie", 0, 0))
    do(FIRST, FRESH, *[("turn", u, v, k) for u, v in ((0, 0), (0, 1), (1, 0), (0, 2), (2, 0), (2, 2)) for k in range(5)])
    do(FIRST, FRESH, ("turn", 2**64 - 1, 255, 0), ("turn", 2**64 - 1, 255, 1), ("turn", 64, 64, 3), ("turn", 64, 64, 4))
    do(FIRST, FRESH, ("sum", 2**64 - 1), ("sum", 0), ("turn", 0, 0, 1), ("sum", 0), ("turn", 0, 0, 1), ("sum", 0), ("tie", 3, 1))
    do(FIRST, FRESH, ("tie", 0, 1), ("turn", 0, 0, 1), ("turn", 0, 1, 2), ("turn", 0, 1, 1), ("turn", 0, 2, 2))


def named_calls():
    """Labels by plan: in use, given out again, the first and the last; 4 before 17, and 17 before 5, also where a side is zero."""
    copied(FIRST, FRESH)
    do(FIRST, FRESH, ("new_bit", 7), ("new_bit", 7), ("sum", 0), ("new_bit", 7), ("new_bit", 0), ("new_bit", 0), ("new_bit", 65535), ("new_bit", 65535))
    do(FIRST, FRESH, ("fix", 1, 0), ("new_bit", 0), ("tie", 5, 1), ("turn", 0, 0, 1), ("sum", 2), ("new_bit", 1))
    copied(SECOND, FRESH)
    do(SECOND, FRESH, ("new_bit", 2), ("new_bit", 7), ("scale", 2000, 0))
    do(FIRST, SECOND, ("scale", 2000, 0), ("join",), ("sum", 0), ("join",), ("scale", -4000, 0), ("join",), ("join",))
    do(FIRST, SECOND, ("tie", 0, 1), ("join",), ("new_bit", 2), ("new_bit", 3))
    do(SECOND, FIRST, ("sum", 0), ("sum", 1), ("new_bit", 9), ("join",), ("join",))
    copied(SECOND, FULL)
    do(SECOND, FULL, ("new_bit", 7), ("join",), ("fix", 5, 1), ("new_bit", 7), ("new_bit", 42))


def plans():
    based(BASE, 2**61 - 1)
    based(BESIDE, 2**40 - 1)
    for b in range(14):
        powers(b)
    last_sums()
    last_slots()
    orders()
    named_calls()


filled()
histories()
assert tried == set(range(1, FAULTS + 1))
plans()
if sys.argv[1:] == ["stdin"]:
    sys.stdout.buffer.write(b"".join(records))
else:
    print("\n".join(lines))
