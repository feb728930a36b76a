"""Books at the edges that document 01 names: counts, sizes, widths, powers."""
import gates as g
import some_circuits
import some_tables
import tables
from book import CIRCUIT, MOST_BYTES, TABLE, lay


def small_part(rng):
    return some_circuits.narrow(rng) if rng.getrandbits(1) else some_tables.small_part(rng)


def counts(rng):
    """0, 1, 15, 16 and 17 bodies."""
    yield "no body", lay([])
    for count in (1, 15, 16, 16, 16, 17, 17):
        yield f"{count} bodies", lay([small_part(rng) for _ in range(count)])


def shared_out(rng, total, places, most):
    """`total` in so many numbers up to `most`."""
    left, taken = total, []
    for after in range(places - 1, -1, -1):
        low, high = max(0, left - after * most), min(most, left)
        taken.append(rng.randint(low, high))
        left -= taken[-1]
    return taken


def of_size(rng, size, circuits, table_count):
    """A sound book of exactly so many bytes. Bodies are 2 modulo 3 long, so that not every count of them will do."""
    parts = [some_tables.any_part(rng) for _ in range(table_count)]
    count = circuits + table_count
    gate_bytes = size - 4 - 8 * count - sum(len(data) for _, _, data in parts) - 8 * circuits
    assert gate_bytes % 3 == 0
    for length in shared_out(rng, gate_bytes // 3, circuits, g.MOST_GATES):
        width = rng.choice([2, 5, 31])
        parts.append(some_circuits.part(rng, width, some_circuits.gates(rng, width, length)))
    rng.shuffle(parts)
    book = lay(parts)
    assert len(book) == size
    return book


def largest(rng):
    """A sound book of 60,000 bytes."""
    return of_size(rng, MOST_BYTES, 5, rng.choice([0, 3, 6, 9]))


def sizes(rng):
    """59,999, 60,000 and 60,001 bytes, sound but for the size; and longer ones."""
    yield "59,999 bytes", of_size(rng, MOST_BYTES - 1, 6, 10)
    for tables_in in (0, 3, 9):
        yield "60,000 bytes", of_size(rng, MOST_BYTES, 5, tables_in)
    yield "60,001 bytes", of_size(rng, MOST_BYTES + 1, 5, 1)
    yield "60,001 bytes, 15 bodies", of_size(rng, MOST_BYTES + 1, 6, 9)
    full = largest(rng)
    yield "60,000 bytes and one more", full + b"\0"
    yield "60,000 bytes and 10,000 more", full + bytes(10_000)
    yield "60,000 bytes, wrong letter", b"Q" + full[:1] + full[2:]
    yield "200,000 bytes", full + bytes(140_000)
    yield "60,001 zeros", bytes(60_001)


def gate_counts(rng):
    """4,095, 4,096 and 4,097 gates, and bodies a byte away from them."""
    for width, length in ((31, 4096), (1, 4096), (2, 4096), (31, 4095), (31, 4097), (1, 4097), (7, 4098), (3, 9000)):
        part = some_circuits.part(rng, width, some_circuits.gates(rng, width, length))
        yield f"{length} gates", lay([part])
    kind, width, data = some_circuits.part(rng, 4, some_circuits.gates(rng, 4, 4096))
    yield "4,096 gates and a byte", lay([(kind, width, data + b"\0")])
    yield "4,096 gates less a byte", lay([(kind, width, data[:-1])])
    yield "4,096 gates, the last of them bad", lay([(kind, width, data[:-1] + b"\7")])


def circuit_widths(rng):
    for width in range(256):
        real = width if 1 <= width <= 31 else rng.choice([1, 31])
        _, _, data = some_circuits.part(rng, real, some_circuits.gates(rng, real, rng.randint(0, 8)))
        data = data if 1 <= width <= 31 else bytes(8) + data[8:]
        yield f"circuit width {width}", lay([small_part(rng), (CIRCUIT, width, data)])


def opened(width):
    return [(g.H, wire, 0) for wire in range(width)]


def all_powers(rng):
    """Every power from 0 to −31: so many wires opened."""
    yield "no gates", lay([(CIRCUIT, 31, g.body(5, 5, []))])
    for width in range(1, 32):
        yield f"{width} wires opened", lay([some_circuits.part(rng, width, opened(width)), some_circuits.part(rng, 31, opened(width))])


def all_phases(rng):
    """"H,S three times, 0→0 (0,1)": every phase by doing so again and again."""
    for wire in (0, 3, 30):
        eighth = [(g.H, wire, 0), (g.S, wire, 0)] * 3
        yield f"eighth turns on wire {wire}", lay([(CIRCUIT, wire + 1, g.body(0, 0, eighth * turns)) for turns in range(9)])


def deep(rng):
    """Chains over all wires and signs between all of them."""
    for width in (2, 3, 30, 31):
        chain = [(g.CX, wire, wire + 1) for wire in range(width - 1)]
        pairs = [(g.CZ, u, v) for v in range(width) for u in range(v)]
        turns = [(g.S, wire, 0) for wire in range(width)]
        h = opened(width)
        circuits = [h + pairs, h + pairs + turns + h, h[:1] + chain, h + chain + turns + h, h + turns + pairs + h + turns + h]
        yield f"deep, width {width}", lay([some_circuits.part(rng, width, circuit) for circuit in circuits])


def table_widths(rng):
    for width in [*range(0, 65)] * 2:
        yield f"table width {width}", lay([some_tables.part(some_tables.normal(rng, width)), some_tables.part(some_tables.zero(width))])
    for width in (0, 1, 2, 63, 64):
        yield f"as many ties as slots, {width}", lay([some_tables.part(some_tables.normal(rng, width, width))])
    for width in (65, 66, 127, 128, 192, 255):
        for size in (tables.size(width, 0), tables.size(64, 0), tables.size(width % 64, 0), 0):
            yield f"table width {width}", lay([(TABLE, width, bytes(size))])


def powers(rng):
    for power in (2000, -2000, 1999, -1999, 2001, -2001, 0, 1, -1, 255, 256, -255, -256, 32767, -32768, 2048, -2048):
        for width in (0, 5, 64):
            table = some_tables.normal(rng, width)._replace(power=power)
            yield f"power {power}", lay([some_tables.part(table)])


def phases(rng):
    for phase in range(10):
        yield f"phase {phase}", lay([some_tables.part(some_tables.normal(rng, 4)._replace(phase=phase))])


CIRCUITS = [gate_counts, circuit_widths, all_powers, all_phases, deep]
FRAMES_AND_TABLES = [counts, sizes, table_widths, powers, phases]
