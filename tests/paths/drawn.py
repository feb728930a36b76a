"""Books for `paths`: normal tables of parts that no sign and no tie joins, among circuits and records, and books that are refused."""
CIRCUIT, TABLE, RECORD = 1, 2, 3
POWERS = [0, 0, 1, -1, 7, -2000, -1999, 1940, 1980, 1990, 1997, 1998, 1999, 2000]


def laid(edition, bodies):
    start = 4 + 8 * len(bodies)
    head, data = bytes([0x51, 0x4E, edition, len(bodies)]), b""
    for kind, width, body in bodies:
        head += bytes([kind, width]) + len(body).to_bytes(2, "little") + (start + len(data)).to_bytes(4, "little")
        data += body
    return head + data


def body(zero, phase, power, turns, rows, ties):
    """The bytes of a table body."""
    said = bytes([zero, phase]) + power.to_bytes(2, "little", signed=True) + bytes(turns)
    said += b"".join(row.to_bytes(8, "little") for row in rows) + bytes([len(ties)])
    return said + b"".join(mask.to_bytes(8, "little") + bytes([r]) for mask, r in ties)


def table(rng, width, largest, power=None):
    """A normal table: leads first, each tied to higher bits of its part that lead nothing; turns and signs stand on the others."""
    slots = rng.sample(range(width), width)
    parts = []
    while slots:
        size = rng.randint(1, largest)
        parts.append(sorted(slots[:size]))
        slots = slots[size:]
    turns, rows, ties = [0] * width, [0] * width, []
    tied, signed = rng.choice([0, 0.2, 0.6]), rng.choice([0, 0.3, 0.9])
    for part in parts:
        leads = [v for v in part if rng.random() < tied]
        rest = [v for v in part if v not in leads]
        ties += [(1 << v | sum(1 << u for u in rest if u > v and rng.random() < 0.5), rng.getrandbits(1)) for v in leads]
        for v in rest:
            turns[v] = rng.choice([0, 0, 1, 2, 3]) if signed else rng.choice([0, 0, 0, 1, 3])
            for u in rest:
                if u < v and rng.random() < signed:
                    rows[v] |= 1 << u
                    rows[u] |= 1 << v
    power = rng.choice(POWERS) if power is None else power
    return TABLE, width, body(0, rng.randrange(8), power, turns, rows, sorted(ties, key=lambda tie: tie[0] & -tie[0]))


def joined(rng, width, power):
    """A table without ties in which about half of all pairs have a sign."""
    rows = [0] * width
    for v in range(width):
        for u in range(v):
            if rng.getrandbits(1):
                rows[v] |= 1 << u
                rows[u] |= 1 << v
    return TABLE, width, body(0, rng.randrange(8), power, [rng.randrange(4) for _ in rows], rows, [])


def zero(width):
    return TABLE, width, body(1, 0, 0, [0] * width, [0] * width, [])


def other(rng, edition):
    """A body that has no line."""
    gates = bytes(byte for _ in range(rng.randint(0, 5)) for byte in (rng.randint(1, 7), rng.randrange(2), 0))
    if edition == 2 and rng.random() < 0.5:
        return RECORD, 2, bytes(4) + gates + bytes([0x50, rng.randrange(2), rng.randrange(2)])
    return CIRCUIT, 2, bytes(8) + gates


def any_body(rng, edition):
    kind = rng.random()
    if kind < 0.15:
        return other(rng, edition)
    if kind < 0.25:
        return zero(rng.choice([0, 1, 20, 21, 64, rng.randint(0, 30)]))
    return table(rng, rng.choice([0, 1, 2, 3, 5, 8, 19, 20, 21, 22, 40, 64, rng.randint(0, 24)]), rng.choice([1, 2, 4, 7]))


def sound(rng):
    edition = rng.choice([1, 2])
    return laid(edition, [any_body(rng, edition) for _ in range(rng.choice([0, 1, 2, 5, 16, rng.randint(1, 8)]))])


def damaged(rng):
    """A book with some bytes changed, cut or added."""
    book = bytearray(sound(rng))
    for _ in range(rng.randint(1, 3)):
        kind = rng.random()
        if kind < 0.7 and book:
            book[rng.choice([rng.randrange(len(book)), rng.randrange(min(len(book), 40))])] = rng.choice([0, 1, 2, 3, 4, 8, 255, rng.randrange(256)])
        elif kind < 0.85:
            del book[rng.randint(0, len(book)):]
        else:
            book += bytes(rng.randint(1, 4))
    return bytes(book)
