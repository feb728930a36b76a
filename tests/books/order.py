"""Books with several faults, so that the order of the tests decides the number.

"Per gate: 7, 6, 3 or 2. Circuits: 11, 6, 8, gates in order. Books: 9, contents in order, then bodies in order" "Table body: 11
before 12."
"""
import bad_circuits
import bad_frames
import bad_tables
import edges
import some_blocks
from book import lay

OF_GATES = (2, 3, 6, 7)
OF_BODIES = (2, 3, 6, 7, 8, 11, 12, 16)  # 16 in edition 2; edition 1 refuses such a body by 7


def bad_part(rng, number):
    """A body that is refused by a number."""
    if number == 16:
        return some_blocks.refused(rng)
    if number == 12:
        return bad_tables.refused_12(rng)
    if number == 11 and rng.getrandbits(1):
        return bad_tables.refused_11(rng)
    return bad_circuits.refused(rng, number)


def among(rng, parts, most=3):
    """A book of the given parts in their order, with sound ones put between."""
    mixed = list(parts)
    for _ in range(rng.randint(0, most)):
        mixed.insert(rng.randint(0, len(mixed)), edges.small_part(rng))
    return lay(mixed)


def two_bodies(rng):
    """Each number in one body, each other one in a later body."""
    for first in OF_BODIES:
        for second in OF_BODIES:
            yield f"{first} and later {second}", among(rng, [bad_part(rng, first), bad_part(rng, second)])


def two_gates(rng):
    for first in OF_GATES:
        for second in OF_GATES:
            yield f"gate {first}, later gate {second}", among(rng, [bad_circuits.two_gates(rng, first, second)])


def one_gate(rng):
    for make in bad_circuits.TWO_RULES * 6:
        width = rng.choice([1, 2, 5, 30, 31])
        yield make.__name__, among(rng, [bad_circuits.with_gates(rng, width, [make(rng, width)])])


def one_circuit(rng):
    for number in (*OF_GATES, 8) * 2:
        yield f"length and {number}", among(rng, [bad_circuits.length_and(rng, number)])
    for number in OF_GATES * 2:
        yield f"width and gate {number}", among(rng, [bad_circuits.width_and_gate(rng, number)])
        yield f"string and gate {number}", among(rng, [bad_circuits.string_and_gate(rng, number)])
    for _ in range(4):
        yield "width and string", among(rng, [bad_circuits.width_and_string(rng)])


def one_table(rng):
    for _ in range(20):
        yield "11 and 12", among(rng, [bad_tables.refused_11_and_12(rng)])
    for _ in range(10):
        yield "zero table out of range", among(rng, [bad_tables.part(rng, bad_tables.zero_out_of_range)])


def frame_after_body(rng):
    """A bad body before bad contents, and a bad body under a bad header."""
    for number in OF_BODIES:
        book = among(rng, [bad_part(rng, number), edges.small_part(rng)], 1)
        yield f"{number}, but a byte too many", book + b"\0"
        yield f"{number}, but edition 3", book[:2] + b"\3" + book[3:]
        spoilt = [*bad_frames.tails(book), *bad_frames.bad_kinds(book), *bad_frames.bad_starts(book), *bad_frames.gaps(book)]
        for label, bad in rng.sample(spoilt, 5):
            yield f"{number}, but {label}", bad
        for label, bad in rng.sample(list(bad_frames.bad_headers(book)), 3):
            yield f"{number}, but {label}", bad


def header_and_contents(rng):
    for _ in range(12):
        book = among(rng, [edges.small_part(rng)])
        _, bad = rng.choice([*bad_frames.tails(book), *bad_frames.bad_kinds(book), *bad_frames.bad_starts(book)])
        label, worse = rng.choice(list(bad_frames.bad_headers(bad)))
        yield f"contents and {label}", worse


def soup(rng):
    """Many bad bodies."""
    for _ in range(60):
        parts = [bad_part(rng, rng.choice(OF_BODIES)) for _ in range(rng.randint(2, 6))]
        yield "soup", among(rng, parts, 6)


FAMILIES = [two_bodies, two_gates, one_gate, one_circuit, one_table, frame_after_body, header_and_contents, soup]
