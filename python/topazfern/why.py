"""Why a book or a body is refused, in words that a crew can act on. The number is the library's; what stands beside it are facts of the bytes."""
from __future__ import annotations

from typing import Iterator, NamedTuple, Optional

from . import gates as g
from .book import ENTRY, HEADER, Book, placed
from .circuit import CIRCUIT, RECORD
from .refusals import WORDS

KINDS = {1: "circuit", 2: "table", 3: "record"}


class Reason(NamedTuple):
    """One refusal: its number, the body (None for the whole book), the byte of the book that it is about (or None), and words."""

    number: int
    body: Optional[int]
    byte: Optional[int]
    words: str

    def __str__(self) -> str:
        """The line that `topaz why` prints.

        >>> print(Reason(7, 1, 70, "unknown gate code (gate 0: item 8 0 0)"))
        body 1: refused 7: unknown gate code (gate 0: item 8 0 0), byte 70
        """
        place = "the whole book" if self.body is None else f"body {self.body}"
        return f"{place}: refused {self.number}: {self.words}" + (f", byte {self.byte}" if self.byte is not None else "")


def reasons(book: Book) -> Iterator[Reason]:
    """The refusals of a book, one for each bad body, or one for the whole.

    >>> [str(reason) for reason in reasons(Book.of(b"PK"))]
    ['the whole book: refused 9: a book has at least 4 bytes, and this has 2']
    """
    refusal = book.refusal()
    if refusal:
        words = header(book.data) if refusal.number == 9 else contents(book.data)
        yield Reason(refusal.number, None, None, words or refusal.words)
        return
    starts = [int.from_bytes(book.data[at + 4:at + 8], "little") for at in range(HEADER, HEADER + ENTRY * book.data[3], ENTRY)]
    lines = book.listing().splitlines()[1:]
    for j, (body, line, start) in enumerate(zip(book.bodies, lines, starts)):
        told = line.split()
        if told[1] == "refused":
            number = int(told[2])
            gate = placed(number, body, book.edition)
            strings = {CIRCUIT: 8, RECORD: 4}.get(body.kind, 0)
            byte = start + strings + 3 * int(gate.split()[1].rstrip(":")) if gate else start
            said = f"{WORDS[number]} ({gate})" if gate else f"{WORDS[number]} (a {KINDS[body.kind]} of width {body.width} in {len(body.data)} bytes)"
            yield Reason(number, j, byte, said)


def header(data: bytes) -> str:
    """What is wrong with the first four bytes or the length.

    >>> header(b"PK\\x03\\x04")
    'a book begins with the bytes 51 4E, and this with 50 4B'
    """
    if len(data) < HEADER:
        return f"a book has at least 4 bytes, and this has {len(data)}"
    if len(data) > g.MOST_BYTES:
        return f"a book has at most {g.MOST_BYTES:,} bytes, and this has more"
    if data[:2] != b"QN":
        return f"a book begins with the bytes 51 4E, and this with {data[:2].hex(' ').upper()}"
    if data[2] not in (1, 2):
        return f"there are editions 1 and 2, and byte 2 says {data[2]}"
    return f"a book has at most 16 bodies, and byte 3 says {data[3]}" if data[3] > g.MOST_BODIES else ""


def contents(data: bytes) -> str:
    """What is wrong with the contents, from the first entry on.

    >>> contents(bytes([0x51, 0x4E, 2, 1, 9, 1, 0, 0, 12, 0, 0, 0]))
    'body 0: kind 9 in byte 4; edition 2 has 1, 2, 3'
    """
    end, kinds = HEADER + ENTRY * data[3], (1, 2) if data[2] == 1 else (1, 2, 3)
    if len(data) < end:
        return f"contents of {data[3]} bodies need {end} bytes, and the book has {len(data)}"
    for j in range(data[3]):
        at = HEADER + ENTRY * j
        length, start = int.from_bytes(data[at + 2:at + 4], "little"), int.from_bytes(data[at + 4:at + 8], "little")
        if data[at] not in kinds:
            return f"body {j}: kind {data[at]} in byte {at}; edition {data[2]} has {', '.join(map(str, kinds))}"
        if start != end:
            return f"body {j}: starts at {start} by its entry at byte {at}, and should at {end}"
        end = start + length
        if end > len(data):
            return f"body {j}: ends at {end} by its entry at byte {at}, and the book has {len(data)} bytes"
    return f"the last body ends at {end}, and the book has {len(data)} bytes" if end != len(data) else ""
