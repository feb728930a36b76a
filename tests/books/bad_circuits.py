"""Circuit bodies that are refused, and single gates that are."""
import gates as g
import some_circuits
from book import CIRCUIT

BAD_WIDTHS = [0, 32, 33, 64, 65, 128, 255]


def host(rng, width=None, length=None):
    """(width, gates) of a sound circuit."""
    width = width or rng.choice([1, 2, 5, 30, 31])
    return width, some_circuits.gates(rng, width, rng.randint(0, 12) if length is None else length)


def body(width, circuit, given=0, wanted=0):
    return CIRCUIT, width, g.body(given, wanted, circuit)


# ---- single gates; each breaks one rule alone

def above(rng, width):
    """A wire that is not there."""
    return rng.choice([width, width, rng.randint(width, 255), 255, 31 if width < 31 else 32])


def gate_7(rng, width):
    return rng.choice(g.UNKNOWN), rng.randrange(width), rng.choice([0, rng.randrange(width)])


def gate_6_one(rng, width):
    return rng.choice(g.ONE_WIRE), above(rng, width), 0


def gate_6_first(rng, width):
    return rng.choice(g.TWO_WIRES), above(rng, width), rng.randrange(width)


def gate_6_second(rng, width):
    return rng.choice(g.TWO_WIRES), rng.randrange(width), above(rng, width)


def gate_3(rng, width):
    return rng.choice(g.ONE_WIRE), rng.randrange(width), rng.choice([1, 255, width, rng.randint(1, 255)])


def gate_2(rng, width):
    wire = rng.randrange(width)
    return rng.choice(g.TWO_WIRES), wire, wire


BAD_GATES = {7: [gate_7], 6: [gate_6_one, gate_6_first, gate_6_second], 3: [gate_3], 2: [gate_2]}


def bad_gate(rng, width, number):
    return rng.choice(BAD_GATES[number])(rng, width)


# ---- gates that break two rules: "Per gate: 7, 6, 3 or 2."

def gate_7_and_6(rng, width):
    return rng.choice(g.UNKNOWN), above(rng, width), rng.choice([0, 1, above(rng, width)])


def gate_6_and_3(rng, width):
    return rng.choice(g.ONE_WIRE), above(rng, width), rng.randint(1, 255)


def gate_6_and_2(rng, width):
    wire = above(rng, width)
    return rng.choice(g.TWO_WIRES), wire, wire


TWO_RULES = [gate_7_and_6, gate_6_and_3, gate_6_and_2]


# ---- bodies

def with_gates(rng, width, gates_in):
    """A sound circuit with some gates put in, in their order."""
    _, circuit = host(rng, width)
    places = sorted(rng.randint(0, len(circuit)) for _ in gates_in)
    for more, (at, gate) in enumerate(zip(places, gates_in)):
        circuit.insert(at + more, gate)
    return body(width, circuit)


def refused_gate(rng, number):
    width = rng.choice([1, 2, 5, 30, 31])
    return with_gates(rng, width, [bad_gate(rng, width, number)])


def refused_6(rng):
    if rng.random() < 0.5:
        return refused_gate(rng, 6)
    return body(rng.choice(BAD_WIDTHS), host(rng)[1])


def high_bit(rng, width):
    return 1 << rng.choice([width, 31, rng.randint(width, 31)])


def refused_8(rng):
    width, circuit = host(rng)
    given, wanted = some_circuits.strings(rng, width, circuit)
    which = rng.randint(1, 3)
    given |= high_bit(rng, width) if which & 1 else 0
    wanted |= high_bit(rng, width) if which & 2 else 0
    return body(width, circuit, given, wanted)


def refused_11(rng):
    """A length that is no circuit's."""
    width, circuit = host(rng)
    data = g.body(0, 0, circuit)
    return CIRCUIT, width, rng.choice([data[:rng.randrange(8)], data + b"\1", data + b"\1\0", b"", data[:7]])


def refused(rng, number):
    """A circuit body that is refused by a number, for one reason."""
    if number in (2, 3, 7):
        return refused_gate(rng, number)
    return {6: refused_6, 8: refused_8, 11: refused_11}[number](rng)


# ---- bodies with two faults: "Circuits: 11, 6, 8, gates in order."

def length_and(rng, other):
    """11 beside another number."""
    kind, width, data = refused(rng, other)
    return kind, width, data + rng.choice([b"\1", b"\1\0"])


def width_and_string(rng):
    """Width 0 with string bits: 6 before 8."""
    return body(0, [], rng.choice([1, 1 << 31]), rng.choice([0, 1]))


def width_and_gate(rng, number):
    """A bad width and a bad gate, which is bad at that width too."""
    width = rng.choice([32, 64, 65, 255])
    bad = {7: (rng.choice(g.UNKNOWN), 0, 0), 3: (g.H, 0, 1), 2: (g.CX, 0, 0), 6: (g.H, 255, 0)}[number]
    return body(width, [*host(rng, 2)[1], bad])


def string_and_gate(rng, number):
    width = rng.choice([1, 2, 5, 30, 31])
    kind, width, data = with_gates(rng, width, [bad_gate(rng, width, number)])
    string = high_bit(rng, width).to_bytes(4, "little")
    return kind, width, string + data[4:] if rng.getrandbits(1) else data[:4] + string + data[8:]


def two_gates(rng, first, second):
    width = rng.choice([1, 2, 5, 30, 31])
    return with_gates(rng, width, [bad_gate(rng, width, first), bad_gate(rng, width, second)])
