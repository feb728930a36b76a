"""The 24 one-wire Cliffords from the matrices of H and S alone.

Document 02: "Number the 24 elements from 0, modulo global phase, by their first words in H and S (first letter applied
first), shortest before longer and, among equals, H before S". A matrix is four exact values (coefficients of 1, ω, ω², ω³)
times √2 for each letter; two are one element where they agree up to a turn by eighths, both brought to one power of √2.
"""
import itertools

NONE, ONE, MINUS, ROOT, TURNED = (0, 0, 0, 0), (1, 0, 0, 0), (-1, 0, 0, 0), (0, 1, 0, -1), (0, 1, 0, 1)
# times √2: H has 1 and −1, S has √2 and √2·i = ω + ω³
LETTERS = {"H": ((ONE, ONE), (ONE, MINUS)), "S": ((ROOT, NONE), (NONE, TURNED))}
LONGEST = 16


def plus(x, y):
    return tuple(a + b for a, b in zip(x, y))


def times(x, y):
    out = [0, 0, 0, 0]
    for i, a in enumerate(x):
        for j, b in enumerate(y):
            out[(i + j) % 4] += a * b if i + j < 4 else -a * b
    return tuple(out)


def product(m, n):
    return tuple(tuple(plus(times(m[r][0], n[0][c]), times(m[r][1], n[1][c])) for c in (0, 1)) for r in (0, 1))


def element(word):
    """What a word means modulo global phase: of the eight turns of its matrix the least."""
    matrix = ((ONE, NONE), (NONE, ONE))
    for letter in word:
        matrix = product(LETTERS[letter], matrix)
    entries = [v for row in matrix for v in row]
    for _ in range(LONGEST - len(word)):
        entries = [times(ROOT, v) for v in entries]
    turns = []
    for _ in range(8):
        turns.append(tuple(entries))
        entries = [(-v[3], v[0], v[1], v[2]) for v in entries]
    return min(turns)


def first_words():
    """Each element by the first word that means it, up to the length that brings nothing new."""
    found, words = {}, []
    for length in range(LONGEST):
        new = [w for w in map("".join, itertools.product("HS", repeat=length)) if element(w) not in found]
        if not new:
            return words
        for word in new:
            if element(word) not in found:
                found[element(word)] = len(words)
                words.append(word)
    raise AssertionError("no end of elements")


WORDS = first_words()
NUMBER = {element(word): k for k, word in enumerate(WORDS)}
PRODUCTS = [NUMBER[element(i + j)] for i in WORDS for j in WORDS]
INVERSES = [next(j for j in range(24) if PRODUCTS[24 * i + j] == 0) for i in range(24)]


def product_of(i, j):
    """(number of refusal, element)"""
    return (3, None) if i > 23 or j > 23 else (0, PRODUCTS[24 * i + j])


def inverse_of(i):
    return (3, None) if i > 23 else (0, INVERSES[i])


def closing(numbers):
    """The one element that brings the run back to nothing, by trying all."""
    if any(n > 23 for n in numbers):
        return 3, None
    if len(numbers) > 4096:
        return 11, None
    run = 0
    for n in numbers:
        run = PRODUCTS[24 * run + n]
    (last,) = [k for k in range(24) if PRODUCTS[24 * run + k] == 0]
    return 0, last
