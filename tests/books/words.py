"""The 24 one-wire elements of document 02, as words and as matrices: all words are tried in order, until 24 differ.

"Number the 24 elements from 0, modulo global phase, by their first words in H and S (first letter applied first), shortest before
longer and, among equals, H before S". Codes 32 to 55 "apply the element as its word says, phase included".
"""
import itertools

from exact import ONE, ZERO, amount, plus, turned

FIRST = 32
CODES = range(FIRST, FIRST + 24)


def applied(letter, matrix, below):
    """A letter's matrix to the left of another, over so many roots of two."""
    (a, b), (c, d) = matrix
    if letter == "S":
        return ((a, b), (turned(c, 2), turned(d, 2))), below
    return ((plus(a, c), plus(b, d)), (plus(a, turned(c, 4)), plus(b, turned(d, 4)))), below + 1


def entries(word):
    """The amounts of a word's matrix, row by row."""
    matrix, below = ((ONE, ZERO), (ZERO, ONE)), 0
    for letter in word:
        matrix, below = applied(letter, matrix, below)
    return [amount(value, below) for row in matrix for value in row]


def modulo_phase(amounts):
    turn = next(entry for entry in amounts if entry is not None)[1]
    return tuple(entry and (entry[0], (entry[1] - turn) % 8) for entry in amounts)


def first_words():
    met, found = set(), []
    for length in itertools.count():
        for word in map("".join, itertools.product("HS", repeat=length)):
            if modulo_phase(entries(word)) not in met:
                met.add(modulo_phase(entries(word)))
                found.append(word)
        if len(found) == 24:
            return found


WORDS = first_words()
SHAPES = {modulo_phase(entries(word)): k for k, word in enumerate(WORDS)}


def element(code):
    """The matrix of a code as its eighth turns, [row][column], and whether it stands over √2."""
    amounts = entries(WORDS[code - FIRST])
    phases = [None if entry is None else entry[1] for entry in amounts]
    return (tuple(phases[:2]), tuple(phases[2:])), any(entry is not None and entry[0] == -1 for entry in amounts)


def together(first, second):
    return SHAPES[modulo_phase(entries(WORDS[first] + WORDS[second]))]


def closing(numbers):
    """The element that undoes a run of elements."""
    so_far = 0
    for k in numbers:
        so_far = together(so_far, k)
    return next(k for k in range(24) if together(so_far, k) == 0)
