"""Circuits with repeated blocks, sound ones and such as are refused by 16. Their books are of edition 2."""
import bad_circuits
import blocks
import chform
import gates as g
import some_circuits
from book import CIRCUIT, lay

CLOSED = (blocks.CLOSE, 0, 0)


def opening(times):
    return blocks.OPEN, times, 0


def block(times, items):
    return [opening(times), *items, CLOSED]


def meant(items):
    """The gates of sound items as edition 2 means them."""
    return g.gates(2, g.body(0, 0, items))


def part(rng, width, items):
    """A circuit with blocks as a part of a book; more often than not its amplitude is not zero."""
    given = some_circuits.string(rng, width)
    wanted = some_circuits.string(rng, width)
    if rng.random() < 0.65:
        wanted = chform.after(width, given, meant(items)).string_met(rng.getrandbits(width))
    return CIRCUIT, width, g.body(given, wanted, items)


def book(parts):
    return lay(parts, 2)


# ---- sound items

def nested(rng, width, deep, most):
    """Items that come to at most so many gates: gates, and blocks of such items."""
    items, left = [], most
    for _ in range(rng.randint(1, 4)):
        if left < 1:
            break
        times = rng.choice([1, 1, 2, 3, rng.randint(1, 255)])
        if deep > 0 and times <= left and rng.random() < 0.6:
            inner = nested(rng, width, deep - 1, left // times)
            size = times * len(blocks.expansion(inner)[0])
            items += block(times, inner)
        else:
            inner = some_circuits.gates(rng, width, rng.randint(1, min(5, left)))
            size = len(inner)
            items += inner
        left -= size
    return items


def deepest(items, levels=blocks.MOST_DEEP):
    for _ in range(levels):
        items = block(1, items)
    return items


# ---- families of sound books

def random_nesting(rng):
    for _ in range(150):
        width = rng.choice([rng.randint(1, 6), rng.randint(1, 6), rng.randint(7, 31)])
        most = rng.choice([5, 20, 120, 120, 1500])
        yield "nested blocks", book([part(rng, width, nested(rng, width, 8, most)) for _ in range(rng.randint(1, 5))])


def layers(rng):
    """A layer of a benchmark, repeated."""
    for width in (1, 2, 5, 16, 31):
        layer = some_circuits.gates(rng, width, rng.randint(3, 12), "even")
        for times in (1, 2, 100, 255):
            yield f"a layer {times} times", book([part(rng, width, block(times, layer))])
    layer = some_circuits.gates(rng, 31, 20, "even")
    yield "a layer 800 times", book([part(rng, 31, [*some_circuits.gates(rng, 31, 9), *block(4, block(200, layer))])])


def levels(rng):
    """Eight levels are good, nine are not."""
    for deep in range(1, 12):
        width = rng.randint(1, 4)
        one = some_circuits.gates(rng, width, 1)
        yield f"{deep} levels", book([(CIRCUIT, width, g.body(0, 0, deepest(one, deep)))])
    for _ in range(10):
        width = rng.randint(1, 4)
        items = nested(rng, width, 0, 3)
        for level in range(8):
            items = block(rng.choice([1, 1, 1, 2]), [*some_circuits.gates(rng, width, rng.randint(0, 2)), *items])
        yield "eight levels", book([part(rng, width, items)])
        yield "nine levels", book([(CIRCUIT, width, g.body(0, 0, [*some_circuits.gates(rng, width, 2), *block(1, items)]))])


def full(gate):
    """255 · 255 + 511 = 65,536 gates."""
    return [*block(255, block(255, [gate])), *block(255, [gate]), *block(255, [gate]), gate]


def expanded_limits(rng):
    """65,535, 65,536 and 65,537 gates, and far more than any machine could hold."""
    for gate in ((g.X, 0, 0), (g.S, 0, 0), (g.SX, 0, 0), (g.CX, 0, 1)):
        items = full(gate)
        yield "65,536 gates", book([part(rng, 2, items)])
        yield "65,535 gates", book([part(rng, 2, items[:-1])])
        yield "65,537 gates", book([(CIRCUIT, 2, g.body(0, 0, [*items, gate]))])
    layer = some_circuits.gates(rng, 5, 256, "few roots")
    yield "65,536 gates in layers", book([part(rng, 5, [*block(255, layer), *layer])])
    # the second are 2 to the 32 gates, which is 0 in 32 bits
    for times in (255,) * 8, (128, 128, 128, 128, 16):
        huge = [(g.X, 0, 0)]
        for n in times:
            huge = block(n, huge)
        yield f"blocks of {times} times", book([(CIRCUIT, 1, g.body(0, 0, huge))])


def written_limits(rng):
    """4,096 gates and marks as written are good, 4,097 are not."""
    for width, many in ((3, 4094), (31, 4092), (3, 4090)):
        items = block(2, some_circuits.gates(rng, width, many))
        while len(items) < g.MOST_GATES:
            items = block(1, items) if len(items) + 2 <= g.MOST_GATES else [*items, (g.X, 0, 0)]
        yield "4,096 items", book([part(rng, width, items)])
        yield "4,097 items", book([(CIRCUIT, width, g.body(0, 0, [*items, (g.X, 0, 0)]))])
    yield "2,048 marks that open", book([(CIRCUIT, 1, g.body(0, 0, [opening(1)] * 2048))])
    yield "4,096 marks that close", book([(CIRCUIT, 1, g.body(0, 0, [CLOSED] * 4096))])
    yield "1,365 blocks of one gate", book([part(rng, 1, block(3, [(g.S, 0, 0)]) * 1365)])


# ---- blocks that are refused

def spoilt(rng, width, reason):
    """Items whose blocks have one fault."""
    some = nested(rng, width, 3, 40)
    at = rng.randint(0, len(some))
    inner = some_circuits.gates(rng, width, rng.randint(1, 3))
    if reason == "unclosed":
        return [*some, opening(rng.randint(1, 255)), *inner]
    if reason == "unopened":
        return [*some, CLOSED, *some_circuits.gates(rng, width, rng.randint(0, 3))]
    if reason == "empty":
        return some[:at] + block(rng.randint(1, 255), []) + some[at:] if rng.getrandbits(1) else [*some, *block(2, block(3, []))]
    if reason == "depth":
        return [*inner, *deepest(inner, rng.randint(9, 12)), *inner]
    return [*some, *block(255, block(255, [inner[0], inner[0]]))]


REASONS = ("unclosed", "unopened", "empty", "depth", "too long")


def refused(rng, reason=None):
    width = rng.choice([1, 2, 5, 31])
    return CIRCUIT, width, g.body(0, 0, spoilt(rng, width, reason or rng.choice(REASONS)))


def among(rng, parts):
    """A book of edition 2 of the given parts in their order, with sound ones put between."""
    mixed = list(parts)
    for _ in range(rng.randint(0, 2)):
        width = rng.randint(1, 4)
        mixed.insert(rng.randint(0, len(mixed)), part(rng, width, nested(rng, width, 2, 12)))
    return book(mixed)


def bad_blocks(rng):
    for reason in REASONS * 8:
        yield f"a block {reason}", among(rng, [refused(rng, reason)])


# ---- marks that are refused: 3, and never 6

def bad_mark(rng):
    return rng.choice([
        (blocks.OPEN, 0, 0), (blocks.OPEN, 0, rng.randint(0, 255)), (blocks.OPEN, rng.randint(1, 255), rng.randint(1, 255)),
        (blocks.CLOSE, rng.randint(1, 255), 0), (blocks.CLOSE, 0, rng.randint(1, 255)), (blocks.CLOSE, 255, 255)])


def one_mark_spoilt(rng, width, kind):
    """Sound items but for one mark: a count of 0, a stray byte of either mark."""
    items = [*some_circuits.gates(rng, width, 2), *block(rng.randint(1, 9), nested(rng, width, 2, 9))]
    opens = [at for at, item in enumerate(items) if item[0] == blocks.OPEN]
    closes = [at for at, item in enumerate(items) if item[0] == blocks.CLOSE]
    if kind == "count":
        items[rng.choice(opens)] = (blocks.OPEN, 0, 0)
    elif kind == "wire":
        items[rng.choice(closes)] = (blocks.CLOSE, rng.choice([1, 255, rng.randint(1, 255)]), 0)
    else:
        at = rng.choice(opens + closes)
        items[at] = (*items[at][:2], rng.choice([1, 255, rng.randint(1, 255)]))
    return items


def bad_marks(rng):
    for kind in ("count", "wire", "second") * 12:
        width = rng.choice([1, 2, 31])
        yield f"a mark with a bad {kind}", among(rng, [(CIRCUIT, width, g.body(0, 0, one_mark_spoilt(rng, width, kind)))])


def wide_counts(rng):
    """A count above the width is no wire: never 6."""
    for width in (1, 2, 30, 31):
        for times in (width, width + 1, 32, 255):
            yield "a count above the width", book([part(rng, width, block(times, some_circuits.gates(rng, width, 2)))])


# ---- the order of refusals

def gate_and_blocks(rng):
    """7, 6, 3 and 2 before 16 of the same body, wherever the gate stands."""
    for number in (2, 3, 6, 7) * 6:
        width = rng.choice([2, 5, 31])
        items = spoilt(rng, width, rng.choice(REASONS))
        items.insert(rng.choice([0, len(items), rng.randint(0, len(items))]), bad_circuits.bad_gate(rng, width, number))
        yield f"gate {number} and blocks", among(rng, [(CIRCUIT, width, g.body(0, 0, items))])
    for _ in range(12):
        width = rng.choice([2, 5, 31])
        items = [*spoilt(rng, width, rng.choice(REASONS)), bad_mark(rng)]
        yield "mark and blocks", among(rng, [(CIRCUIT, width, g.body(0, 0, items))])
    yield "a close, then code 9", book([(CIRCUIT, 1, g.body(0, 0, [CLOSED, (9, 0, 0)]))])


def circuit_and_blocks(rng):
    """9, 11, 6 and 8 before 16."""
    for _ in range(4):
        kind, width, data = refused(rng)
        yield "letters and blocks", b"\x4E" + among(rng, [(kind, width, data)])[1:]
        yield "length and blocks", among(rng, [(kind, width, data + rng.choice([b"\1", b"\1\0"]))])
        yield "width and blocks", among(rng, [(kind, rng.choice([0, 32, 255]), data)])
        yield "string and blocks", among(rng, [(kind, width, (1 << 31).to_bytes(4, "little") + data[4:])])


def first_edition(rng):
    """"Edition 1 still refuses 64 and 65 as unknown." """
    for _ in range(20):
        width = rng.choice([1, 2, 5, 31])
        items = rng.choice([nested(rng, width, 3, 20), spoilt(rng, width, rng.choice(REASONS)), one_mark_spoilt(rng, width, "count")])
        yield "blocks in edition 1", lay([(CIRCUIT, width, g.body(0, 0, items))])
    for mark in (opening(1), opening(0), CLOSED, (blocks.CLOSE, 9, 9)):
        yield "a mark in edition 1", lay([(CIRCUIT, 1, g.body(0, 0, [mark]))])


# ---- noise

def noise(rng):
    """Bytes of sound bodies changed, most often to marks."""
    for _ in range(200):
        width = rng.randint(1, 5)
        kind, width, data = part(rng, width, nested(rng, width, 8, 60))
        changed = bytearray(data)
        for _ in range(rng.randint(1, 2)):
            at = rng.randrange(8, len(changed)) if rng.random() < 0.3 else 8 + 3 * rng.randrange((len(changed) - 8) // 3)
            changed[at] = rng.choice([blocks.OPEN, blocks.CLOSE, 0, 1, rng.randrange(256)])
        yield "bytes changed", book([(kind, width, bytes(changed))])


FAMILIES = [random_nesting, layers, levels, expanded_limits, written_limits, bad_blocks, bad_marks, wide_counts, gate_and_blocks, circuit_and_blocks, first_edition, noise]
