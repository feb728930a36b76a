"""Random circuits and their strings, all of them sound."""
import chform
import gates as g
from book import CIRCUIT

# how often each kind of gate is taken
STYLES = {
    "even": {code: 1 for code in g.KNOWN},
    "many roots": {g.H: 6, g.SX: 3, g.S: 3, g.S_DAGGER: 2, g.CZ: 4, g.CX: 3, g.SWAP: 1, g.Y: 1},
    "few roots": {g.H: 1, g.S: 4, g.Z: 2, g.X: 3, g.Y: 3, g.CZ: 6, g.CX: 6, g.SWAP: 2, g.S_DAGGER: 3},
    "no roots": {g.S: 2, g.S_DAGGER: 2, g.Z: 1, g.X: 3, g.Y: 3, g.CZ: 3, g.CX: 4, g.SWAP: 2},
    "published": {g.H: 4, g.S: 3, g.CX: 4},
}


def gate(rng, width, code):
    if code in g.ONE_WIRE:
        return code, rng.randrange(width), 0
    return code, *rng.sample(range(width), 2)


def gates(rng, width, length, style=None):
    weights = STYLES[style or rng.choice(list(STYLES))]
    codes = [code for code in weights if width > 1 or code in g.ONE_WIRE]
    taken = rng.choices(codes, [weights[code] for code in codes], k=length)
    return [gate(rng, width, code) for code in taken]


def inverse(circuit):
    """The circuit that undoes one; SX four times is nothing, so three undo it."""
    undone = []
    for code, wire, second in reversed(circuit):
        code = {g.S: g.S_DAGGER, g.S_DAGGER: g.S}.get(code, code)
        undone += [(code, wire, second)] * (3 if code == g.SX else 1)
    return undone


def string(rng, width):
    return rng.choice([0, (1 << width) - 1, 1 << rng.randrange(width), rng.getrandbits(width), rng.getrandbits(width)])


def strings(rng, width, circuit):
    """An input and an output; more often than not one whose amplitude is not zero."""
    given = string(rng, width)
    if rng.random() < 0.35:
        return given, string(rng, width)
    state = chform.after(width, given, circuit)
    return given, state.string_met(rng.getrandbits(width))


def part(rng, width, circuit):
    """A circuit as a part of a book."""
    return CIRCUIT, width, g.body(*strings(rng, width, circuit), circuit)


def narrow(rng):
    width = rng.randint(1, 6)
    return part(rng, width, gates(rng, width, rng.choice([0, 1, 2, 3, rng.randint(4, 12), rng.randint(4, 60)])))


def wide(rng):
    width = rng.choice([31, rng.randint(7, 31), rng.randint(20, 31)])
    return part(rng, width, gates(rng, width, rng.randint(0, 250)))


def undone(rng):
    """A circuit, its inverse and a little more: answers of any phase with a small power."""
    width = rng.randint(1, 31)
    there = gates(rng, width, rng.randint(1, 60))
    return part(rng, width, there + inverse(there) + gates(rng, width, rng.randint(0, 5)))
