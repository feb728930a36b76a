"""The bytes of a circuit body: its strings, gates and marks, and all that documents 01 and 02 find wrong with them.

"Circuit body: input string (32 bits), output string (32 bits), gates." "A gate is three bytes: code, wire, second byte."
"""

import blocks
import words

H, S, S_DAGGER, Z, X, Y, SX = range(1, 8)
CZ, CX, SWAP = range(16, 19)
ONE_WIRE = range(1, 8)
TWO_WIRES = range(16, 19)
KNOWN = [*ONE_WIRE, *TWO_WIRES]
UNKNOWN = [code for code in range(256) if code not in (*KNOWN, *words.CODES, *blocks.MARKS)]  # in both editions
MOST_GATES = 4096
EDITIONS = (1, 2)
ROTATION = 0x107  # what code 7 means in edition 2; no byte has this number


def number(data, start, size):
    """"numbers are little-endian" """
    return int.from_bytes(data[start:start + size], "little")


def strings(body):
    return number(body, 0, 4), number(body, 4, 4)


def unknown(edition):
    """"Edition 1 still refuses 64 and 65 as unknown.", and the elements are edition 2's """
    return UNKNOWN if edition == 2 else [*UNKNOWN, *words.CODES, *blocks.MARKS]


def written(body):
    """The gates and marks whose three bytes are all there, as the bytes have them."""
    return [tuple(body[at:at + 3]) for at in range(8, len(body) - 2, 3)]


def gates(edition, body):
    """What the body of a sound circuit means: "Edition 1 books keep the old reading and edition 2 books get the new one." """
    if edition != 2:
        return written(body)
    return [(ROTATION, *gate[1:]) if gate[0] == SX else gate for gate in blocks.expansion(written(body))[0]]


def body(given, wanted, circuit):
    """A circuit's bytes; nothing is tested."""
    return given.to_bytes(4, "little") + wanted.to_bytes(4, "little") + bytes(b for gate in circuit for b in gate)


def length_faults(data):
    """11: "body length wrong (gate bytes not in threes ..), more than 4,096 gates" """
    if len(data) < 8:
        yield 11, "no room for the strings"
    elif (len(data) - 8) % 3 != 0:
        yield 11, "gate bytes not in threes"
    elif (len(data) - 8) // 3 > MOST_GATES:
        yield 11, "too many gates"


def mark_faults(mark):
    """"Both carry a second byte of 0, and 65 a wire byte of 0." "3 for a count of 0 or a stray byte" """
    code, wire, second = mark
    if code == blocks.OPEN and wire == 0:
        yield 3, "count of 0"
    if code == blocks.CLOSE and wire != 0:
        yield 3, "wire byte of a close"
    if second != 0:
        yield 3, "second byte of a mark"


def gate_faults(edition, width, gate):
    """"Per gate: 7, 6, 3 or 2." """
    code, wire, second = gate
    if edition == 2 and code in blocks.MARKS:
        yield from mark_faults(gate)
        return
    if code in unknown(edition):
        yield 7, "unknown code"
    if wire >= width:
        yield 6, "wire"
    if code in TWO_WIRES and second >= width:
        yield 6, "second wire"
    if (code in ONE_WIRE or edition == 2 and code in words.CODES) and second != 0:
        yield 3, "second byte"
    if code in TWO_WIRES and second == wire:
        yield 2, "wire twice"


def faults(edition, width, data):
    """All faults of a circuit body as (number, reason, gate or None): "Circuits: 11, 6, 8, gates in order.", and 16 "after all
    other refusals of that body", told at the end of the gates. """
    for number_, reason in length_faults(data):
        yield number_, reason, None
    if not 1 <= width <= 31:
        yield 6, "circuit width", None
    if len(data) < 8:
        return
    for name, string in zip(("input", "output"), strings(data)):
        if string >> width:
            yield 8, name, None
    items = written(data)
    for at, gate in enumerate(items):
        for number_, reason in gate_faults(edition, width, gate):
            yield number_, reason, at
    for reason in blocks.expansion(items)[1] if edition == 2 else ():
        yield 16, reason, len(items)
