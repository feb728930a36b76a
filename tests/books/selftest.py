"""What this checker has to show of itself before it judges anything else. Each test answers how many cases it tried."""
import itertools
import random
import re

import blocks
import book
import by_hand
import chform
import exact
import gates as g
import records
import some_blocks
import some_circuits
import some_records
import some_tables
import tables
import vector
import words


def demand(holds, *what):
    if not holds:
        raise AssertionError(f"the checker fails its own test: {what}")


def values(rng):
    """Powers and phases come back from exact values; other values are told apart."""
    for power in range(40):
        for phase in range(8):
            value = exact.turned(exact.root_two_to(power), phase)
            demand(exact.amount(value, 17) == (power - 17, phase), power, phase)
    for value in ((1, 1, 0, 0), (3, 0, 0, 0), (1, 0, 1, 1), (2, 1, 0, -1)):
        try:
            demand(False, value, exact.amount(value, 0))
        except ValueError:
            pass
    demand(exact.amount(exact.ZERO, 3) is None, "zero")
    return 40 * 8 + 5


def narrow_circuits(rng):
    """The kept form against brute force, at every output."""
    tried = 0
    for _ in range(700):
        width = rng.randint(1, 8)
        circuit = some_circuits.gates(rng, width, rng.randint(0, 60 if width < 5 else 30))
        given = rng.getrandbits(width)
        (state, below), kept = vector.run(given, circuit), chform.after(width, given, circuit)
        for wanted in range(1 << width):
            plain = exact.amount(state.get(wanted, exact.ZERO), below)
            demand(plain == kept.amplitude(wanted), width, given, wanted, circuit)
            tried += 1
    return tried


def wide_circuits(rng):
    """The same at up to 31 wires, at every string that brute force meets, where these are few."""
    tried = 0
    for _ in range(250):
        width = rng.randint(9, 31)
        circuit = some_circuits.gates(rng, width, rng.randint(0, 120), "few roots")
        given = rng.getrandbits(width)
        ran, kept = vector.run(given, circuit, 256), chform.after(width, given, circuit)
        if ran is None:
            continue
        for wanted in [*ran[0], *(rng.getrandbits(width) for _ in range(4))]:
            plain = exact.amount(ran[0].get(wanted, exact.ZERO), ran[1])
            demand(plain == kept.amplitude(wanted), width, given, wanted, circuit)
            tried += 1
    demand(tried > 1000, "too few wide circuits were met", tried)
    return tried


def root_of_x(rng):
    """SX's matrix, as brute force has it, is H·S·H."""
    for given in (0, 1):
        short, long = vector.run(given, [(g.SX, 0, 0)]), vector.run(given, [(g.H, 0, 0), (g.S, 0, 0), (g.H, 0, 0)])
        for wanted in (0, 1):
            ends = [exact.amount(state.get(wanted, exact.ZERO), below) for state, below in (short, long)]
            demand(ends[0] == ends[1], given, wanted, ends)
    return 4


def rotation(rng):
    """An edition 1 amplitude is "the other reading's times ω for each code 7", by both methods at every output."""
    tried = 0
    for _ in range(200):
        width = rng.randint(1, 4)
        circuit = some_circuits.gates(rng, width, rng.randint(1, 30), "many roots")
        other = [(g.ROTATION, *gate[1:]) if gate[0] == g.SX else gate for gate in circuit]
        sevens = sum(gate[0] == g.SX for gate in circuit)
        given = rng.getrandbits(width)
        (state, below), kept = vector.run(given, other), chform.after(width, given, other)
        first = chform.after(width, given, circuit)
        for wanted in range(1 << width):
            plain = exact.amount(state.get(wanted, exact.ZERO), below)
            turned = None if plain is None else (plain[0], (plain[1] + sevens) % 8)
            demand(plain == kept.amplitude(wanted) and turned == first.amplitude(wanted), width, given, wanted, circuit)
            tried += 1
    return tried


def elements(rng):
    """An element is its word, by its matrix and by its letters; a run and what closes it leave the string."""
    for code in words.CODES:
        letters = [({"H": g.H, "S": g.S}[letter], 0, 0) for letter in words.WORDS[code - words.FIRST]]
        for given in (0, 1):
            (short, over), (long, below) = vector.run(given, [(code, 0, 0)]), vector.run(given, letters)
            for wanted in (0, 1):
                ends = [exact.amount(short.get(wanted, exact.ZERO), over), exact.amount(long.get(wanted, exact.ZERO), below)]
                demand(ends[0] == ends[1] == chform.after(1, given, [(code, 0, 0)]).amplitude(wanted), code, given, wanted, ends)
    for _ in range(100):
        numbers = [rng.randrange(24) for _ in range(rng.randint(0, 30))]
        run = [(words.FIRST + k, 0, 0) for k in [*numbers, words.closing(numbers)]]
        for given in (0, 1):
            demand(chform.after(1, given, run).amplitude(given)[0] == 0, run)
    return 24 * 4 + 200


def expansions(rng):
    """The stack against a rewriting of text: the innermost block is written out until none is left."""
    def text(items):
        return "".join({blocks.OPEN: f"({wire}:", blocks.CLOSE: ")"}.get(code, f"[{code},{wire},{second}]") for code, wire, second in items)

    for _ in range(400):
        items = some_blocks.nested(rng, 3, 8, rng.choice([3, 20, 200]))
        said, left = text(items), 1
        while left:
            said, left = re.subn(r"\((\d+):((?:\[[^]]*\])+)\)", lambda m: int(m[1]) * m[2], said)
        gates, faults = blocks.expansion(items)
        demand(not faults and said == text(gates), items)
    for reason in some_blocks.REASONS * 60:
        demand(blocks.expansion(some_blocks.spoilt(rng, 3, reason))[1] == [reason], reason)
    return 400 + 60 * len(some_blocks.REASONS)


def records_add_up(rng):
    """"the chances of the two outcomes add up to the chance before", after every gate of narrow records, by both methods."""
    tried = 0
    for _ in range(60):
        width = rng.randint(1, 4)
        given, items = some_records.items(rng, width, rng.randint(0, 20))
        record = [(g.ROTATION, *item[1:]) if item[0] == g.SX else item for item in items]
        wire = rng.randrange(width)
        for end in range(len(record) + 1):
            powers = [records.chance(width, given, record[:end] + more) for more in ([], [(records.MEASURED, wire, 0)], [(records.MEASURED, wire, 1)])]
            before, zero, one = (0 if power is None else 2.0 ** -power for power in powers)
            demand(zero + one == before, width, given, record[:end], wire)
            tried += 1
    return tried


def hand_made_books(rng):
    tried = 0
    for data, said in by_hand.cases():
        demand(book.listing(data) == said, data.hex(" "), said, book.listing(data))
        tried += 1
    return tried


def every_small_table(width):
    """All tables over so many slots, power 0, whose fields are in range and whose b is symmetric with b_vv = 0."""
    masks = list(itertools.product(range(1 << width), (0, 1)))
    for phase, turns in itertools.product(range(8), itertools.product(range(4), repeat=width)):
        for signs in itertools.product((0, 1), repeat=width * (width - 1) // 2):
            rows = [0] * width
            for (u, v), sign in zip(itertools.combinations(range(width), 2), signs):
                rows[u] |= sign << v
                rows[v] |= sign << u
            for count in range(width + 1):
                for ties in itertools.product(masks, repeat=count):
                    yield tables.Table(0, phase, 0, list(turns), rows, list(ties))


def meaning(table):
    return tuple(tables.entry(table, bits) for bits in range(1 << table.width))


def normal_forms(rng):
    """Over 0, 1 and 2 slots: each meaning that is not zero everywhere belongs to exactly one normal table.

    A clause too few would leave two normal tables with one meaning, a clause too many a meaning with none.
    """
    tried = 0
    for width in range(3):
        met, normal = set(), []
        for table in every_small_table(width):
            tried += 1
            if any(entry is not None for entry in meaning(table)):
                met.add(meaning(table))
            if not tables.clauses_broken(table):
                normal.append(meaning(table))
        demand(len(normal) == len(set(normal)) and set(normal) == met, "normal tables and meanings", width)
    return tried


def normal_tables(rng):
    """Tables made to be normal are, and come back from their bytes."""
    for _ in range(300):
        made = some_tables.normal(rng, some_tables.any_width(rng))
        data = tables.body(made)
        demand(tables.read(made.width, data) == made, made)
        demand(not list(tables.faults(made.width, data)), made)
    return 300


TESTS = [values, narrow_circuits, wide_circuits, root_of_x, rotation, elements, expansions, records_add_up, hand_made_books, normal_forms, normal_tables]


def run(seed):
    for test in TESTS:
        tried = test(random.Random(f"{seed} {test.__name__}"))
        print(f"own test: {test.__name__.replace('_', ' ')}, {tried} cases")
