"""All families of books. A family is given a source of chance and yields (label, book)."""
import bad_circuits
import bad_frames
import bad_tables
import edges
import gates as g
import order
import some_blocks
import some_circuits
import some_records
import some_tables
import some_words
from book import lay

PAPER = bytes.fromhex(
    "51 4E 01 02 01 01 0B 00 14 00 00 00 01 01 11 00 1F 00 00 00 00 00 00 00 01 00 00 00 01 00 00 00 00 00 00 00 00 00 00 01 00 00"
    "02 00 00 01 00 00")


def in_both(family):
    """The books of a family, each followed by the same bodies in edition 2."""
    def made(rng):
        for label, book in family(rng):
            yield label, book
            yield f"{label}, edition 2", book[:2] + b"\2" + book[3:]
    made.__name__ = family.__name__
    return made


def sound_part(rng):
    make = rng.choice([some_circuits.narrow, some_circuits.narrow, some_circuits.wide, some_circuits.undone, some_tables.any_part])
    return make(rng)


def sound_book(rng):
    return lay([sound_part(rng) for _ in range(rng.choice([0, 1, 1, 2, 3, 5, 16]))])


def paper(rng):
    yield "the book of document 01", PAPER


# ---- sound books

def narrow(rng):
    for _ in range(250):
        yield "narrow circuits", lay([some_circuits.narrow(rng) for _ in range(rng.randint(1, 12))])


def wide(rng):
    for _ in range(120):
        yield "wide circuits", lay([some_circuits.wide(rng) for _ in range(rng.randint(1, 4))])


def undone(rng):
    for _ in range(80):
        yield "circuits undone", lay([some_circuits.undone(rng) for _ in range(rng.randint(1, 4))])


def long(rng):
    for _ in range(6):
        width = rng.choice([31, 31, rng.randint(2, 31)])
        yield "a long circuit", lay([some_circuits.part(rng, width, some_circuits.gates(rng, width, rng.randint(1000, 4096)))])


def tables(rng):
    for _ in range(200):
        yield "tables", lay([some_tables.any_part(rng) for _ in range(rng.randint(1, 6))])


def mixed(rng):
    for _ in range(60):
        yield "circuits and tables", sound_book(rng)


# ---- bad bodies among sound ones

def codes(rng):
    """Every code: the known ones are taken, all others are 7."""
    for code in range(256):
        width = rng.randint(2, 31)
        gate = (code, *rng.sample(range(width), 2)) if code in g.TWO_WIRES else (code, rng.randrange(width), 0)
        yield f"code {code}", order.among(rng, [bad_circuits.with_gates(rng, width, [gate])], 1)


def bad_gates(rng):
    for makers in bad_circuits.BAD_GATES.values():
        for make in makers * 6:
            width = rng.choice([1, 2, 5, 30, 31])
            yield make.__name__, order.among(rng, [bad_circuits.with_gates(rng, width, [make(rng, width)])])


def bad_circuit_bodies(rng):
    for number in (6, 8, 11) * 12:
        yield f"circuit refused by {number}", order.among(rng, [bad_circuits.refused(rng, number)])


def bad_table_bodies(rng):
    for make in (bad_tables.NOT_NORMAL + bad_tables.OUT_OF_RANGE + bad_tables.WRONG_SIZE) * 6:
        yield make.__name__, order.among(rng, [bad_tables.part(rng, make)])


# ---- bad headers and contents

def frames(rng):
    """Every way of spoiling, on a few sound books. In the last one, bodies begin and end with 0, so that two can share a byte."""
    plain = [some_tables.part(some_tables.normal(rng, width, 0)) for width in (0, 3, 2)]
    books = [lay([]), lay([edges.small_part(rng)]), lay([edges.small_part(rng) for _ in range(3)]), lay(plain)]
    for spoil in bad_frames.HEADER + bad_frames.CONTENTS:
        for book in books:
            made = list(spoil(book))
            yield from made if len(made) < 12 else rng.sample(made, 12)


# ---- noise

def with_bytes_changed(rng, book, most):
    changed = bytearray(book)
    for _ in range(rng.randint(1, most)):
        at = rng.randrange(len(changed))
        changed[at] = rng.choice([changed[at] ^ 1 << rng.randrange(8), rng.randrange(256), 0, 255])
    return bytes(changed)


def flips(rng):
    for _ in range(500):
        yield "bytes changed", with_bytes_changed(rng, order.among(rng, [sound_part(rng)]), 3)


def flips_in_frame(rng):
    for _ in range(80):
        book = order.among(rng, [edges.small_part(rng)])
        end = 4 + 8 * book[3]
        yield "header or contents changed", with_bytes_changed(rng, book[:end], 2) + book[end:]


def cuts(rng):
    for _ in range(80):
        book = order.among(rng, [sound_part(rng)])
        yield "cut", book[:rng.randrange(len(book))]


def nonsense(rng):
    for _ in range(40):
        tail = rng.randbytes(rng.randint(0, 60))
        yield "nonsense", rng.choice([tail, b"\x51\x4e\x01" + tail, b"\x51\x4e\x02\x01\x01" + tail])


SOUND = [*map(in_both, [paper, narrow, wide, undone, long, mixed]), tables]
BAD = [*map(in_both, [codes, bad_gates, bad_circuit_bodies, bad_table_bodies]), frames]
NOISE = [flips, flips_in_frame, cuts, nonsense]
ALL = SOUND + [*map(in_both, edges.CIRCUITS)] + edges.FRAMES_AND_TABLES + BAD + [*map(in_both, order.FAMILIES)] + some_blocks.FAMILIES + [*map(in_both, some_words.FAMILIES)] + some_records.FAMILIES + NOISE


def one_more(rng):
    """A book for a longer run."""
    return rng.choice([
        lambda: ("sound", sound_book(rng)),
        lambda: ("sound among sound", order.among(rng, [sound_part(rng)])),
        lambda: ("bytes changed", with_bytes_changed(rng, order.among(rng, [sound_part(rng)]), 3)),
        lambda: ("nested blocks", some_blocks.among(rng, [some_blocks.part(rng, 3, some_blocks.nested(rng, 3, 8, 300))])),
        lambda: ("elements", some_blocks.book([some_circuits.part(rng, 5, some_words.items(rng, 5, 40))])),
        lambda: ("a bad block", some_blocks.among(rng, [some_blocks.refused(rng)])),
        lambda: ("a bad body", order.among(rng, [order.bad_part(rng, rng.choice(order.OF_BODIES))])),
    ])()
