"""Circuits with elements by their words, sound ones and such as are refused. Edition 1 refuses every one by 7."""
import bad_circuits
import gates as g
import some_blocks
import some_circuits
import words
from book import CIRCUIT, lay


def word(rng, width):
    return rng.choice(words.CODES), rng.randrange(width), 0


def items(rng, width, length):
    """Elements among gates."""
    return [word(rng, width) if rng.random() < 0.6 else some_circuits.gates(rng, width, 1)[0] for _ in range(length)]


def run(rng, length):
    """A run of elements on one wire, and the one that closes it."""
    numbers = [rng.randrange(24) for _ in range(length)]
    return [(words.FIRST + k, 0, 0) for k in [*numbers, words.closing(numbers)]]


# ---- families of sound books

def each(rng):
    """Every element between every pair of strings."""
    for code in words.CODES:
        yield f"code {code}", lay([(CIRCUIT, 1, g.body(given, wanted, [(code, 0, 0)])) for given in (0, 1) for wanted in (0, 1)])


def among_gates(rng):
    for _ in range(120):
        width = rng.choice([1, rng.randint(1, 6), rng.randint(7, 31)])
        yield "elements among gates", lay([some_circuits.part(rng, width, items(rng, width, rng.choice([1, 3, 20, 60]))) for _ in range(rng.randint(1, 6))])


def closed(rng):
    """Runs of randomised benchmarking: from 0 to 0 only a phase is left."""
    for length in (0, 1, 2, 3, 10, 50, 300, 4095):
        yield f"a run of {length}, closed", lay([(CIRCUIT, 1, g.body(0, wanted, run(rng, length))) for wanted in (0, 1)])


# ---- one gate each in both limits, also code 32

def limits(rng):
    nothing = (words.FIRST, 0, 0)
    for one in (nothing, (words.FIRST + 23, 0, 0)):
        yield "4,096 elements", lay([some_circuits.part(rng, 1, [one] * 4096)])
        yield "4,097 elements", lay([(CIRCUIT, 1, g.body(0, 0, [one] * 4097))])
        full = some_blocks.full(one)
        yield "65,536 elements", lay([(CIRCUIT, 1, g.body(0, 0, full))])
        yield "65,537 elements", lay([(CIRCUIT, 1, g.body(0, 0, [*full, one]))])
    yield "a block with code 32 alone", lay([(CIRCUIT, 1, g.body(0, 0, some_blocks.block(3, [nothing])))])


def in_blocks(rng):
    for _ in range(40):
        width = rng.randint(1, 5)
        inner = items(rng, width, rng.randint(1, 6))
        yield "elements in blocks", lay([some_blocks.part(rng, width, [*items(rng, width, 3), *some_blocks.block(rng.randint(1, 40), [*inner, *some_blocks.block(2, inner)])])])


# ---- refused

def word_6(rng, width):
    return rng.choice(words.CODES), bad_circuits.above(rng, width), 0


def word_3(rng, width):
    return rng.choice(words.CODES), rng.randrange(width), rng.randint(1, 255)


def word_6_and_3(rng, width):
    return rng.choice(words.CODES), bad_circuits.above(rng, width), rng.randint(1, 255)


def bad(rng):
    for make in (word_6, word_3, word_6_and_3) * 12:
        width = rng.choice([1, 2, 5, 30, 31])
        yield make.__name__, lay([some_circuits.narrow(rng), bad_circuits.with_gates(rng, width, [make(rng, width)]), some_circuits.narrow(rng)])
    for code in words.CODES:
        yield f"a second byte of {code}", lay([(CIRCUIT, 1, g.body(0, 0, [(code, 0, 1)]))])


FAMILIES = [each, among_gates, closed, limits, in_blocks, bad]
