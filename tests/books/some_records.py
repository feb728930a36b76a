"""Records, sound ones whose outcomes mostly can happen, and such as are refused. Edition 1 refuses every one by 10."""
import gates as g
import pauli
import records
import some_circuits
import some_words
from book import RECORD, lay

EDITION = 2


def outcome(rng, state, wire):
    """Mostly one that can happen."""
    wanted = rng.randrange(2)
    if rng.random() < 0.06:
        return wanted
    rows = list(state.rows)
    if state.measured(wire, wanted) is None:
        wanted ^= 1
    state.rows = rows
    return wanted


def items(rng, width, length):
    """(input, items): gates, elements and measurements."""
    given = some_circuits.string(rng, width)
    state, made = pauli.State(width, given), []
    for _ in range(length):
        if rng.random() < 0.3:
            wire = rng.randrange(width)
            item = records.MEASURED, wire, outcome(rng, state, wire)
            state.measured(wire, item[2])
        else:
            item = some_words.word(rng, width) if rng.random() < 0.2 else some_circuits.gates(rng, width, 1, "many roots")[0]
            state.apply((g.ROTATION, *item[1:]) if item[0] == g.SX else item)
        made.append(item)
    return given, made


def part(width, given, made):
    return RECORD, width, records.body(given, made)


def book(parts):
    return lay(parts, EDITION)


# ---- families of sound books

def narrow(rng):
    for _ in range(150):
        parts = []
        for _ in range(rng.randint(1, 8)):
            width = rng.randint(1, 6)
            parts.append(part(width, *items(rng, width, rng.choice([0, 1, 2, 5, 20, 60]))))
        yield "narrow records", book(parts)


def wide(rng):
    for _ in range(40):
        width = rng.choice([31, rng.randint(7, 31)])
        yield "wide records", book([part(width, *items(rng, width, rng.randint(10, 120))) for _ in range(rng.randint(1, 3))])


def entangled(rng):
    """All wires in one state, measured one after the other: the first halves, the others are certain, or one of them is impossible."""
    for width in (2, 3, 7, 31):
        state = [(g.H, 0, 0), *((g.CX, 0, wire) for wire in range(1, width))]
        alike = [(records.MEASURED, wire, 1) for wire in range(width)]
        odd = [*alike[:-1], (records.MEASURED, width - 1, 0)]
        yield f"{width} wires alike", book([part(width, 0, state + alike), part(width, 0, state + odd), part(width, 0, state)])


def in_blocks(rng):
    """A round repeated: H and outcome 0 on a wire, 255 times, and 32,768 times by blocks in blocks."""
    once = [(g.H, 0, 0), (records.MEASURED, 0, 0)]
    opened = [(64, 255, 0), *once, (65, 0, 0)]
    most = [(64, 128, 0), *opened, (65, 0, 0), (64, 128, 0), *once, (65, 0, 0)]
    syndrome = [(64, 9, 0), (g.CX, 0, 2), (g.CX, 1, 2), (records.MEASURED, 2, 0), (65, 0, 0)]
    yield "rounds in blocks", book([part(1, 0, opened), part(1, 0, most), part(3, 0, [(g.H, 0, 0), (g.CX, 0, 1), *syndrome])])


# ---- families of refused bodies

def bad_items(rng):
    for width in (1, 2, 31):
        for item in ((records.MEASURED, 0, 2), (records.MEASURED, 0, 255), (records.MEASURED, width, 0), (records.MEASURED, width, 2),
                     (g.H, 0, 1), (g.H, width, 0), (9, 0, 0), (64, 0, 0), (65, 0, 1), (65, 0, 0), (64, 2, 0)):
            given, made = items(rng, width, rng.randint(0, 6))
            at = rng.randint(0, len(made))
            yield f"item {item} of a record", book([part(width, given, made[:at] + [item] + made[at:]), part(width, 0, [])])


def bad_bodies(rng):
    for width in (0, 32, 255):
        yield f"record width {width}", book([part(width, 0, [])])
    yield "input beyond the width", book([part(3, 8, []), part(31, 1 << 31, [])])
    for size in range(12):
        yield f"{size} bytes of a record", book([(RECORD, 1, bytes(size))])
    for count in (4096, 4097):
        yield f"{count} items of a record", book([part(1, 0, [(records.MEASURED, 0, 0)] * count)])
    yield "65,537 measurements", book([part(1, 0, [(64, 255, 0), (64, 255, 0), (records.MEASURED, 0, 0), (65, 0, 0), (65, 0, 0),
                                                     *[(64, 255, 0), (records.MEASURED, 0, 0), (65, 0, 0)] * 2, *[(g.Z, 0, 0)] * 2])])


def other_places(rng):
    """Kind 3 in edition 1, and a measurement in a circuit of edition 2."""
    yield "kind 3 in edition 1", lay([part(1, 0, [])])
    for edition in g.EDITIONS:
        yield f"a circuit measured, edition {edition}", lay([(1, 1, g.body(0, 0, [(records.MEASURED, 0, 0)]))], edition)


FAMILIES = [narrow, wide, entangled, in_blocks, bad_items, bad_bodies, other_places]
