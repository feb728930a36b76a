"""The codes of gates, marks and measurements, by the documents' names."""
from __future__ import annotations

from typing import Iterator, List, NamedTuple

ONE_WIRE = {"h": 1, "s": 2, "sdg": 3, "z": 4, "x": 5, "y": 6, "sx": 7}
TWO_WIRES = {"cz": 16, "cx": 17, "swap": 18}
FIRST_ELEMENT, ELEMENTS = 32, 24
OPEN, CLOSE = 64, 65
MEASURED = 80

MOST_WIRES = 31
MOST_ITEMS = 4096
MOST_COUNT = 255
MOST_BODIES = 16
MOST_BYTES = 60_000

NAMES = {code: name for names in (ONE_WIRE, TWO_WIRES) for name, code in names.items()}

#: The 24 one-wire elements as words in H and S, the first letter applied first (docs/cliffords.md).
WORDS = ("", "H", "S", "HS", "SH", "SS", "HSH", "HSS", "SHS", "SSH", "SSS", "HSHS", "HSSH", "HSSS", "SHSS", "SSHS", "HSHSS", "HSSHS", "SHSSH",
         "SHSSS", "SSHSS", "HSHSSH", "HSHSSS", "HSSHSS")


class Item(NamedTuple):
    """Three bytes of a body: a gate, a mark or a measurement."""

    code: int
    wire: int
    second: int

    def __str__(self) -> str:
        """The item as `topaz show` writes it.

        >>> print(Item(17, 0, 1), Item(38, 2, 0), Item(80, 1, 0), Item(9, 1, 1), sep=", ")
        cx 0 1, element 6 2, measure 1 0, item 9 1 1
        """
        code, wire, second = self
        if code in TWO_WIRES.values():
            return f"{NAMES[code]} {wire} {second}"
        if code == MEASURED:
            return f"measure {wire} {second}"
        if second == 0 and code in NAMES:
            return f"{NAMES[code]} {wire}"
        if second == 0 and FIRST_ELEMENT <= code < FIRST_ELEMENT + ELEMENTS:
            return f"element {code - FIRST_ELEMENT} {wire}"
        if second == 0 and code == OPEN:
            return f"repeat {wire}"
        if code == CLOSE and wire == second == 0:
            return "end"
        return f"item {code} {wire} {second}"


def items(gates: bytes) -> Iterator[Item]:
    """The items of bytes of gates; bytes that are left over are not told.

    >>> [str(item) for item in items(bytes([1, 0, 0, 16, 0, 1]))]
    ['h 0', 'cz 0 1']
    """
    for at in range(0, len(gates) - 2, 3):
        yield Item(*gates[at:at + 3])


def string_of(text: str, width: int) -> int:
    """A string of 0 and 1 as a number; wire 0 is the last letter.

    >>> string_of("011", 3)
    3
    """
    if len(text) != width or set(text) - {"0", "1"}:
        raise ValueError(f"{text!r} is not a string of {width} letters 0 and 1")
    return int(text, 2)


def text_of(string: int, width: int) -> str:
    """A number as a string of 0 and 1; wire 0 is the last letter.

    >>> text_of(3, 4)
    '0011'
    """
    return format(string, f"0{width}b") if width else ""


def names() -> List[str]:
    """The ten gates.

    >>> names()
    ['h', 's', 'sdg', 'z', 'x', 'y', 'sx', 'cz', 'cx', 'swap']
    """
    return [*ONE_WIRE, *TWO_WIRES]
