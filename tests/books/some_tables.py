"""Random normal tables, by construction.

Leads are chosen first. A tie is its lead and some of the higher bits that are no leads; turns and signs stand on bits that are
no leads. Every normal table can come out, and nothing else.
"""
import tables
from book import TABLE
from tables import Table

POWERS = [0, 1, -1, 2, -31, 255, 256, -256, -255, 1999, -1999, 2000, -2000]


def mask_of(rng, slots, density):
    return sum(1 << v for v in slots if rng.random() < density)


def leads(rng, width, tie_count):
    count = rng.choice([0, width, rng.randint(0, width), min(width, 2)]) if tie_count is None else tie_count
    return sorted(rng.sample(range(width), count))


def signs(rng, width, slots, density):
    """Symmetric rows with signs between the given slots only."""
    rows = [0] * width
    for v in slots:
        for u in slots:
            if u < v and rng.random() < density:
                rows[v] |= 1 << u
                rows[u] |= 1 << v
    return rows


def normal(rng, width, tie_count=None):
    lead = leads(rng, width, tie_count)
    rest = [v for v in range(width) if v not in lead]
    density = rng.choice([0.1, 0.5, 0.9])
    ties = [(1 << v | mask_of(rng, [u for u in rest if u > v], density), rng.getrandbits(1)) for v in lead]
    turns = [rng.randrange(4) if v in rest else 0 for v in range(width)]
    power = rng.choice([rng.choice(POWERS), rng.randint(-2000, 2000)])
    return Table(0, rng.randrange(8), power, turns, signs(rng, width, rest, density), ties)


def zero(width):
    return Table(1, 0, 0, [0] * width, [0] * width, [])


def any_width(rng):
    return rng.choice([0, 1, 2, 3, 31, 32, 33, 63, 64, rng.randint(0, 8), rng.randint(0, 64)])


def part(table):
    """A table as a part of a book."""
    return TABLE, table.width, tables.body(table)


def any_part(rng):
    width = any_width(rng)
    return part(zero(width) if rng.random() < 0.15 else normal(rng, width))


def small_part(rng):
    width = rng.randint(0, 6)
    return part(zero(width) if rng.random() < 0.15 else normal(rng, width))
