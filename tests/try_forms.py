#!/usr/bin/env python3
"""The calls of the program try_forms, and what it must print, computed from plain sums.

    tests/try_forms.py stdin > crates/try_forms/stdin
    tests/try_forms.py > crates/try_forms/stdout

A form is held to what each move does to its phase at an assignment, ties to lists of ties and to the assignments at which they hold
(tests/plain/forms.py). Nothing here is taken from the library or from a run of it.
"""

import struct
import sys
from pathlib import Path

sys.dont_write_bytecode = True
sys.path[:0] = [str(Path(__file__).resolve().parent / part) for part in ("drawn", "plain")]

from forms import WORD, Form, Ties, changed, lead, moved, odd, read, reduce, without
from words import word

MOVES = ["blank", "garbage", "add_phase", "turn_parity", "cross", "clear", "turn_replaced", "eliminate"]
CALLS = ["none", "garbage", "insert", "adjoin", "mix", "drop", "use_up", "reduce"]
BEYOND = [64, 1000000, WORD, 63]  # slots, most of which do not exist

records, lines = [], []


def record(code, small=0, side=0, brief=0, number=0, other=0):
    records.append(struct.pack("<BBBBQQ", code, small, side, brief, number, other))


def mask(stream, at):
    """A drawn mask: thin in every third stream, empty or full in a few."""
    kind = stream % 12
    if kind in (1, 4, 7, 10):
        return word(stream, at) & word(stream, at ^ 1024) & word(stream, at ^ 2048)
    return 0 if kind == 5 else WORD if kind == 8 else word(stream, at)


# Forms


def form_line(phase, at, f=None):
    """The line of a form: its phases at 16 assignments, and unless it is brief its turns and rows."""
    n, h = len(records) - 1, 0
    for q in range(16):
        w = word(n, q)
        h = word(h, at(w if q % 2 == 0 else 1 << w % 64 | 1 << w // 64 % 64) % 8)
    if f is None:
        lines.append(f"{phase} {h % 2**32:08x}")
        return
    for v in range(68):
        h = word(word(h, f.turn_at(v)), f.row_at(v))
    lines.append(f"{phase} {int(f.proper())} {h % 2**32:08x}")


def form_record(name, given, brief):
    code = MOVES.index(name)
    if name == "add_phase":
        record(code, small=given[0], brief=brief)
    elif name == "turn_parity":
        record(code, small=given[1], brief=brief, number=given[0])
    elif name == "cross":
        record(code, brief=brief, number=given[0], other=given[1])
    elif name == "clear":
        record(code, brief=brief, other=given[0])
    elif name == "turn_replaced":
        record(code, small=given[2], side=given[1], brief=brief, number=given[0])
    elif name == "eliminate":
        record(code, side=given[2], brief=brief, number=given[1], other=given[0])


def form_move(f, name, *given):
    """A move of a proper form, which comes out proper."""
    phase, at = moved(f, name, given)
    after = read(phase, at)
    form_record(name, given, 0)
    form_line(phase, at, after)
    return after


def dealt(name, stream, at):
    """What a move is given: numbers out of range too, and slots beyond 63."""
    draw = lambda j: word(stream, 16 * at + j)
    small, side, v = draw(2) % 256, draw(3) % 256, draw(4) % 68
    p, q = mask(stream, 16 * at), mask(stream ^ 1, 16 * at + 1)
    return {
        "add_phase": (small,), "turn_parity": (p, small), "cross": (p, q), "clear": (v,), "turn_replaced": (p, side, small),
        "eliminate": (v, without(p, v), side),
    }[name]


def form_history(stream):
    """Dense turns and signs, then each move twice."""
    record(MOVES.index("blank"))
    f = Form()
    form_line(0, f.at, f)
    for k in range(5):
        draw = lambda j: word(stream ^ 4096, 8 * k + j)
        f = form_move(f, "turn_parity", draw(0), 2 * (draw(1) % 128) + 1)
        f = form_move(f, "cross", draw(2), draw(3))
    for at in range(2):
        for name in MOVES[2:]:
            f = form_move(f, name, *dealt(name, stream, at))


def form_garbage(stream):
    """Each move of a form that no table has; what is known of it all the same is its phases."""
    v, small = BEYOND[stream % 4], [200, 255, 8, 77][stream // 4 % 4]
    p, q, side = word(stream, 100), word(stream, 101), 200 + stream % 2
    f = Form(small, [small] * 64, [word(stream, u) for u in range(64)])
    given = {"add_phase": (203,), "turn_parity": (p, 201), "cross": (p, q), "clear": (v,), "turn_replaced": (p, side, 203), "eliminate": (v, p, side)}
    for name in MOVES[2:]:
        record(MOVES.index("garbage"), small=small, number=stream)
        form_line(small, f.at, f)
        form_record(name, given[name], 1)
        form_line(*moved(f, name, given[name]))


# Ties


def ten(kind):
    """The ten slots of a kind of ties: the lowest, the highest, or every seventh."""
    return [list(range(10)), list(range(54, 64)), list(range(0, 64, 7))][kind]


def points(kind):
    """The assignments of the ten slots, in rising order."""
    return [sum(1 << v for i, v in enumerate(ten(kind)) if y >> i & 1) for y in range(1024)]


POINTS = [points(kind) for kind in range(3)]


def ties_line(t, kind):
    """The line of ties: where they hold, the places, and what is found by leads and bits."""
    held, h = t.held(POINTS[kind]), 0
    for x in held:
        h = word(h, x)
    for j in range(68):
        a = t.tie_at(j)
        h = word(word(word(word(h, a[0]), a[1]), t.lead_index(j)), t.last_with(j))
    lines.append(f"{t.count} {int(t.reduced())} {h % 2**32:08x}")
    return set(held)


def ties_call(t, kind, name, *given):
    """A call on ties; where the assignments that it leaves are known by its meaning, they are those of the list."""
    before = set(t.held(POINTS[kind]))
    after = changed(t, name, given)
    if name in ("insert", "adjoin"):
        record(16 + CALLS.index(name), kind, given[1], number=given[0])
    else:
        record(16 + CALLS.index(name), kind, number=given[0], other=(given + (0,))[1])
    held = ties_line(after, kind)
    if t.count > 10:
        return after
    if name in ("insert", "adjoin"):
        assert held == {x for x in before if odd(given[0] & x) == given[1]}
    elif name == "mix" and t.reduced():
        assert held == before
    elif name == "use_up" and t.reduced() and given[0] == t.last_with(given[1]) < 64:
        assert held == {x for x in POINTS[kind] if before & {without(x, given[1]), x | 1 << given[1]}} and after.reduced()
    return after


def ties_reduce(t, kind, a):
    """A tie reduced, which says the same where the ties hold, and has no lead."""
    record(16 + CALLS.index("reduce"), kind, a[1], number=a[0])
    b = reduce(t, *a)
    lines.append(f"{word(word(0, b[0]), b[1]) % 2**32:08x}")
    if t.reduced():
        assert all((odd(a[0] & x) == a[1] % 2) == (odd(b[0] & x) == b[1]) for x in t.held(POINTS[kind]))
        assert not any(b[0] >> lead(m) & 1 for m, _ in t.used())
    return b


def drawn(stream, at):
    """A tie of ten bits, with any side."""
    w = word(stream, at)
    return POINTS[stream % 3][w % 1024], w // 1024 % 256


def grown(t, stream, at):
    """The ties with one more, where it says something new."""
    b = ties_reduce(t, stream % 3, drawn(stream, at))
    return ties_call(t, stream % 3, "adjoin", *b) if b[0] else t


def rebuilt(t, kind, turn):
    """The same ties put into none, one after the other from any of them on."""
    record(16 + CALLS.index("none"), kind)
    again = Ties()
    ties_line(again, kind)
    for j in range(t.count):
        again = ties_call(again, kind, "insert", *t.places[(j + turn) % t.count])
    assert again.places == t.places
    return again


def ties_history(stream):
    """Up to six ties that stay reduced; then calls that may leave ties that are not, each with another call after it."""
    kind, draw = stream % 3, lambda j: word(stream, 64 + j)
    v, u = ten(kind)[draw(0) % 10], ten(kind)[draw(1) % 10]
    t = rebuilt(Ties(), kind, 0)
    for k in range(stream % 7):
        t = grown(t, stream, k)
    t = ties_call(t, kind, "drop", draw(2) % 7)
    t = grown(grown(t, stream, 50), stream, 51)
    t = ties_call(t, kind, "use_up", t.last_with(v), v)
    t = grown(t, stream, 52)
    assert t.reduced()
    a, b = drawn(stream, 53), ties_reduce(t, kind, drawn(stream, 54))
    last = [("insert", a[0], a[1] % 2), ("insert", *b), ("adjoin", a[0], a[1] % 2), ("mix", draw(3) % 7, u), ("mix", t.last_with(u), u)]
    more = [("use_up", draw(4) % 3, v), ("drop", draw(5) % 3), ("mix", draw(6) % 3, v)]
    for j, call in enumerate(last):
        ties_call(ties_call(rebuilt(t, kind, j), kind, *call), kind, *more[(stream + j) % 3])


def ties_garbage(stream):
    """Each call on ties that no table has."""
    v, i, p = BEYOND[stream % 4], [3, 63, 64, WORD][stream // 4 % 4], word(stream, 100)
    count, side = [1000, 63, 64, WORD][(stream + stream // 4) % 4], [200, 1, 0, 255][stream // 2 % 4]
    t = Ties(count, [(word(stream, j), side) for j in range(64)])
    given = {"insert": (p, 200), "adjoin": (p, 201), "mix": (i, v), "drop": (i,), "use_up": (i, v % 64 if stream % 2 else v)}
    for name in CALLS[2:7]:
        record(16 + CALLS.index("garbage"), 0, side, number=stream, other=count)
        ties_line(t, 0)
        ties_call(t, 0, name, *given[name])
    record(16 + CALLS.index("garbage"), 0, side, number=stream, other=count)
    ties_line(t, 0)
    ties_reduce(t, 0, (p, 200))


for stream in range(24):
    form_history(stream)
for stream in range(16):
    form_garbage(stream)
for stream in range(42):
    ties_history(stream)
for stream in range(16):
    ties_garbage(stream)
if sys.argv[1:] == ["stdin"]:
    sys.stdout.buffer.write(b"".join(records))
else:
    print("\n".join(lines))
