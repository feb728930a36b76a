"""Table bodies that are refused, one fault each: every field out of range (11), every clause of "Normal" broken (12)."""
import some_tables
import tables
from book import TABLE
from tables import Table


def host(rng, least_rest=2):
    """A normal table with two ties or more, and `least_rest` slots or more that are no leads."""
    width = rng.choice([2 + least_rest, 12, 31, 32, 40, 64])
    return some_tables.normal(rng, width, rng.randint(2, width - least_rest))


def lead_of(tie):
    return (tie[0] & -tie[0]).bit_length() - 1


def split(table):
    """(leads, other slots)"""
    leads = [lead_of(tie) for tie in table.ties]
    return leads, [v for v in range(table.width) if v not in leads]


def replaced(items, at, item):
    return [*items[:at], item, *items[at + 1:]]


def flipped(rows, v, u):
    """Rows with b of row v, bit u, the other way."""
    return replaced(rows, v, rows[v] ^ 1 << u)


# ---- 12

def empty_tie(rng):
    t = host(rng)
    at = rng.randrange(len(t.ties) + 1)
    return t._replace(ties=[*t.ties[:at], (0, rng.getrandbits(1)), *t.ties[at:]])


def wrong_order(rng):
    t = host(rng)
    i, j = sorted(rng.sample(range(len(t.ties)), 2))
    return t._replace(ties=replaced(replaced(t.ties, i, t.ties[j]), j, t.ties[i]))


def lead_elsewhere(rng):
    """A later lead stands in an earlier tie."""
    t = host(rng)
    i, j = sorted(rng.sample(range(len(t.ties)), 2))
    mask, r = t.ties[i]
    return t._replace(ties=replaced(t.ties, i, (mask | 1 << lead_of(t.ties[j]), r)))


def same_tie_twice(rng):
    t = host(rng)
    at = rng.randrange(len(t.ties))
    return t._replace(ties=[*t.ties[:at], t.ties[at], *t.ties[at:]])


def lead_turned(rng):
    t = host(rng)
    return t._replace(turns=replaced(t.turns, rng.choice(split(t)[0]), rng.randint(1, 3)))


def lead_signed(rng):
    t = host(rng)
    lead = rng.choice(split(t)[0])
    other = rng.choice([v for v in range(t.width) if v != lead])
    return t._replace(rows=flipped(flipped(t.rows, lead, other), other, lead))


def signed_with_itself(rng):
    t = host(rng)
    v = rng.choice(split(t)[1])
    return t._replace(rows=flipped(t.rows, v, v))


def one_sided(rng):
    t = host(rng)
    u, v = rng.sample(split(t)[1], 2)
    return t._replace(rows=flipped(t.rows, u, v))


def one_sided_at_lead(rng):
    """The lead's own row stays 0; another slot's row names the lead."""
    t = host(rng)
    leads, rest = split(t)
    return t._replace(rows=flipped(t.rows, rng.choice(rest), rng.choice(leads)))


def zero_with_power(rng):
    return some_tables.zero(some_tables.any_width(rng))._replace(power=rng.choice([1, -1, 256, -256, 2000, -2000]))


def zero_with_phase(rng):
    return some_tables.zero(some_tables.any_width(rng))._replace(phase=rng.randint(1, 7))


def zero_with_ties(rng):
    width = rng.randint(1, 64)
    return some_tables.zero(width)._replace(ties=some_tables.normal(rng, width, rng.randint(1, width)).ties)


def zero_with_turn(rng):
    width = rng.randint(1, 64)
    return some_tables.zero(width)._replace(turns=replaced([0] * width, rng.randrange(width), rng.randint(1, 3)))


def zero_with_sign(rng):
    width = rng.randint(2, 64)
    u, v = rng.sample(range(width), 2)
    return some_tables.zero(width)._replace(rows=flipped(flipped([0] * width, u, v), v, u))


def zero_with_all(rng):
    return host(rng)._replace(zero=1)


NOT_NORMAL = [
    empty_tie, wrong_order, lead_elsewhere, same_tie_twice, lead_turned, lead_signed, signed_with_itself, one_sided,
    one_sided_at_lead, zero_with_power, zero_with_phase, zero_with_ties, zero_with_turn, zero_with_sign, zero_with_all,
]


# ---- 11: a field

def narrow_host(rng):
    """A table with ties and with bits left above its width."""
    width = rng.choice([3, 8, 31, 32, 63])
    return some_tables.normal(rng, width, rng.randint(1, width))


def high_bit(rng, width):
    """A bit at or above the width: the first one, the last one or another."""
    return 1 << rng.choice([width, 63, rng.randint(width, 63)])


def bad_zero_mark(rng):
    return rng.choice([host(rng), some_tables.zero(3)])._replace(zero=rng.choice([2, 3, 128, 255]))


def bad_phase(rng):
    return host(rng)._replace(phase=rng.choice([8, 9, 16, 128, 255]))


def bad_power(rng):
    return host(rng)._replace(power=rng.choice([2001, -2001, 2002, 4096, 32767, -32768]))


def bad_turn(rng):
    t = host(rng)
    return t._replace(turns=replaced(t.turns, rng.choice(split(t)[1]), rng.choice([4, 5, 64, 128, 255])))


def bad_row(rng):
    t = narrow_host(rng)
    v = rng.randrange(t.width)
    # at a lead this breaks a clause too
    return t._replace(rows=replaced(t.rows, v, t.rows[v] | high_bit(rng, t.width)))


def bad_mask(rng):
    t = narrow_host(rng)
    at = rng.randrange(len(t.ties))
    mask, r = t.ties[at]
    return t._replace(ties=replaced(t.ties, at, (mask | high_bit(rng, t.width), r)))


def bad_side(rng):
    t = host(rng)
    at = rng.randrange(len(t.ties))
    return t._replace(ties=replaced(t.ties, at, (t.ties[at][0], rng.choice([2, 3, 128, 255]))))


OUT_OF_RANGE = [bad_zero_mark, bad_phase, bad_power, bad_turn, bad_row, bad_mask, bad_side]


def zero_out_of_range(rng):
    """A zero table with a leftover that is out of range: 11 before 12."""
    width = rng.randint(1, 63)
    t = some_tables.zero(width)
    v = rng.randrange(width)
    return rng.choice([
        t._replace(phase=8), t._replace(power=2001), t._replace(power=-2001), t._replace(turns=replaced(t.turns, v, 4)),
        t._replace(rows=replaced(t.rows, v, 1 << width)), t._replace(ties=[(1, 2)]), t._replace(ties=[(1 << width, 0)]),
    ])


# ---- 11: the size

def too_many_ties(rng):
    """One tie more than slots; the first ones are as they should be."""
    width = rng.choice([0, 1, 2, 31, 63, 64])
    t = some_tables.normal(rng, width, width)
    return TABLE, width, tables.body(t._replace(ties=[*t.ties, (1 if width else 0, 0)]))


def wrong_count(rng):
    """The tie count says more or fewer than there are."""
    t = host(rng)
    count = rng.choice([0, len(t.ties) - 1, len(t.ties) + 1, t.width, 255])
    return TABLE, t.width, tables.body(t, len(t.ties) + 1 if count == len(t.ties) else count)


def any_size(rng):
    return rng.choice([host(rng), some_tables.zero(2), some_tables.zero(0), some_tables.normal(rng, 64, 64)])


def cut_in_fields(rng):
    """So short that not even the tie count is there."""
    t = any_size(rng)
    end = tables.size(t.width, 0)
    return TABLE, t.width, tables.body(t)[:rng.choice([0, 3, 4, end - 1, rng.randrange(end)])]


def cut_in_ties(rng):
    t = host(rng)
    data = tables.body(t)
    return TABLE, t.width, data[:rng.choice([len(data) - 1, len(data) - 9, rng.randrange(tables.size(t.width, 0), len(data))])]


def too_long(rng):
    t = any_size(rng)
    return TABLE, t.width, tables.body(t) + bytes(rng.choice([1, 2, 9]))


def wide_table(rng):
    """A width above 64, with the bytes that such a table would have."""
    width = rng.choice([65, 65, 66, 128, 255])
    return TABLE, width, bytes(tables.size(width, 0))


WRONG_SIZE = [too_many_ties, wrong_count, cut_in_fields, cut_in_ties, too_long, wide_table]


def part(rng, make):
    """What a maker makes, as a part of a book."""
    made = make(rng)
    return (TABLE, made.width, tables.body(made)) if isinstance(made, Table) else made


def refused_11(rng):
    return part(rng, rng.choice([*OUT_OF_RANGE, zero_out_of_range, *WRONG_SIZE]))


def refused_12(rng):
    return part(rng, rng.choice(NOT_NORMAL))


def refused_11_and_12(rng):
    """A broken clause and a field out of range in one body."""
    t = rng.choice(NOT_NORMAL)(rng)
    return some_tables.part(rng.choice([
        t._replace(phase=8), t._replace(power=2001), t._replace(power=-2001), t._replace(turns=replaced(t.turns, 0, 4)),
        t._replace(zero=2),
    ]) if t.width else t._replace(phase=8))
