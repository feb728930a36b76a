"""The bytes of a table body: its fields, what is out of range (11), and what is not normal (12).

Document 01: "Table body, n = width 0..64, live slots 0..n−1: zero mark, c, s (16 bits, two's complement), n bytes a, n rows
of 8 bytes b (bit u of row v is b_uv), tie count, then for each tie an 8-byte mask and r."
"""
from typing import NamedTuple

MOST_SLOTS = 64
MOST_POWER = 2000


class Table(NamedTuple):
    """The fields as they stand in a body; nothing is tested."""
    zero: int
    phase: int
    power: int
    turns: list
    rows: list
    ties: list  # (mask, r)

    @property
    def width(self):
        return len(self.turns)


def body(table, tie_count=None):
    """A table's bytes. The tie count may be given to be a wrong one."""
    count = len(table.ties) if tie_count is None else tie_count
    head = bytes([table.zero, table.phase]) + table.power.to_bytes(2, "little", signed=True)
    rows = b"".join(row.to_bytes(8, "little") for row in table.rows)
    ties = b"".join(mask.to_bytes(8, "little") + bytes([r]) for mask, r in table.ties)
    return head + bytes(table.turns) + rows + bytes([count]) + ties


def size(width, tie_count):
    return 5 + 9 * width + 9 * tie_count


def read(width, data):
    """The fields of a body that is long enough for them."""
    def number(start, length, signed=False):
        return int.from_bytes(data[start:start + length], "little", signed=signed)

    rows_at, ties_at = 4 + width, size(width, 0)
    rows = [number(rows_at + 8 * v, 8) for v in range(width)]
    ties = [(number(ties_at + 9 * t, 8), data[ties_at + 9 * t + 8]) for t in range(data[ties_at - 1])]
    return Table(data[0], data[1], number(2, 2, signed=True), list(data[4:rows_at]), rows, ties)


def size_faults(width, data):
    """11: "body length wrong .., table width above 64, more ties than n" """
    if width > MOST_SLOTS:
        yield "table width"
    elif len(data) < size(width, 0):
        yield "length below the fields"
    else:
        count = data[size(width, 0) - 1]
        if count > width:
            yield "more ties than slots"
        if len(data) != size(width, count):
            yield "length and ties differ"


def range_faults(table):
    """11: "a field out of range (s beyond ±2,000, zero mark or r above 1, a row or mask bit at or above n included)" """
    n = table.width
    tests = {
        "zero mark": table.zero > 1,
        "phase": table.phase > 7,
        "power": abs(table.power) > MOST_POWER,
        "turn": any(turn > 3 for turn in table.turns),
        "row bit": any(row >> n for row in table.rows),
        "mask bit": any(mask >> n for mask, _ in table.ties),
        "side": any(r > 1 for _, r in table.ties),
    }
    return [name for name, out in tests.items() if out]


def clauses_broken(table):
    """12: the clauses of "Normal" that the fields break. (A lead is the lowest bit by what it is, and bits at or above n are 11.)"""
    slots = range(table.width)
    masks = [mask for mask, _ in table.ties]
    leads = [(mask & -mask).bit_length() - 1 for mask in masks if mask]
    tests = {
        "empty tie": 0 in masks,
        "order of leads": any(a >= b for a, b in zip(leads, leads[1:])),
        "lead in another tie": any(sum(mask >> lead & 1 for mask in masks) > 1 for lead in leads),
        "turn of a lead": any(lead < table.width and table.turns[lead] for lead in leads),
        "row of a lead": any(lead < table.width and table.rows[lead] for lead in leads),
        "sign of a slot with itself": any(table.rows[v] >> v & 1 for v in slots),
        "signs not symmetric": any((table.rows[v] >> u ^ table.rows[u] >> v) & 1 for v in slots for u in range(v)),
    }
    if table.zero == 1:
        tests |= {
            "zero with a power": table.power != 0,
            "zero with a phase": table.phase != 0,
            "zero with ties": bool(table.ties),
            "zero with turns": any(table.turns),
            "zero with signs": any(table.rows),
        }
    return [name for name, broken in tests.items() if broken]


def faults(width, data):
    """All faults of a table body as (number, reason): "Table body: 11 before 12." """
    wrong_size = list(size_faults(width, data))
    for reason in wrong_size:
        yield 11, reason
    # with more ties than slots the fields can still be read
    if wrong_size and wrong_size != ["more ties than slots"]:
        return
    table = read(width, data)
    for reason in range_faults(table):
        yield 11, reason
    for reason in clauses_broken(table):
        yield 12, reason


def entry(table, bits):
    """The entry at an assignment, as an exponent of ω (the power is left out), or None for zero: the formula of document 01."""
    if table.zero or any((mask & bits).bit_count() % 2 != r for mask, r in table.ties):
        return None
    chosen = [v for v in range(table.width) if bits >> v & 1]
    turns = sum(table.turns[v] for v in chosen)
    signs = sum(table.rows[v] >> u & 1 for v in chosen for u in chosen if u < v)
    return (table.phase + 2 * turns + 4 * signs) % 8
