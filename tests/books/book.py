"""A book: all its faults in document 01's order, and its listing; edition 2 by document 02.

"Bytes 0–3: 51 4E, edition 01, count k (0..16). Then k entries of 8 bytes: kind (1 circuit, 2 table), width, length (16 bits),
start (32 bits). Bodies follow in order without gaps, and the last ends the file."
"""
from typing import NamedTuple

import circuit
import gates
import records
import tables

MOST_BYTES = 60_000
MOST_BODIES = 16
CIRCUIT, TABLE, RECORD = 1, 2, 3


class Entry(NamedTuple):
    kind: int
    width: int
    length: int
    start: int

    def laid(self):
        return bytes([self.kind, self.width]) + self.length.to_bytes(2, "little") + self.start.to_bytes(4, "little")


class Fault(NamedTuple):
    number: int
    stage: str  # "header", "contents" or "body"
    at: int  # the body
    gate: int  # the gate, or −1
    reason: str


def header_faults(book):
    """9: "book shorter than 4 or longer than 60,000 bytes, wrong letters, edition, or count" """
    if len(book) < 4:
        yield "shorter than 4"
        return
    if len(book) > MOST_BYTES:
        yield "longer than 60,000"
    if book[0] != 0x51:
        yield "first letter"
    if book[1] != 0x4E:
        yield "second letter"
    if book[2] not in gates.EDITIONS:
        yield "edition"
    if book[3] > MOST_BODIES:
        yield "count"


def entries(book):
    """The contents of a book that is long enough for them."""
    parts = [book[at:at + 8] for at in range(4, 4 + 8 * book[3], 8)]
    return [Entry(p[0], p[1], int.from_bytes(p[2:4], "little"), int.from_bytes(p[4:8], "little")) for p in parts]


def contents_faults(book):
    """10: "contents too short, kind, start, end beyond the book, last end (with no body, the contents' end) not the book's end" """
    end = 4 + 8 * book[3]
    if len(book) < end:
        yield 0, "contents too short"
        return
    for at, entry in enumerate(entries(book)):
        if entry.kind not in (CIRCUIT, TABLE) and (entry.kind, book[2]) != (RECORD, 2):
            yield at, "kind"
        if entry.start < end:
            yield at, "start too early"
        if entry.start > end:
            yield at, "start too late"
        end = entry.start + entry.length
        if end > len(book):
            yield at, "end beyond the book"
    if end < len(book):
        yield book[3], "last end before the book's" if book[3] else "no body, but bytes"


def bodies(book):
    """(entry, bytes) of each body, as far as the contents are there."""
    if len(book) < 4 + 8 * book[3]:
        return []
    return [(entry, book[entry.start:entry.start + entry.length]) for entry in entries(book)]


def body_faults(edition, at, entry, data):
    if entry.kind == CIRCUIT:
        for number, reason, gate in gates.faults(edition, entry.width, data):
            yield Fault(number, "body", at, -1 if gate is None else gate, reason)
    elif entry.kind == TABLE:
        for number, reason in tables.faults(entry.width, data):
            yield Fault(number, "body", at, -1, reason)
    elif entry.kind == RECORD:
        for number, reason, item in records.faults(entry.width, data):
            yield Fault(number, "body", at, -1 if item is None else item, reason)


def faults(book):
    """All faults, the one that decides first: "Books: 9, contents in order, then bodies in order" """
    for reason in header_faults(book):
        yield Fault(9, "header", 0, -1, reason)
    if len(book) < 4:
        return
    for at, reason in contents_faults(book):
        yield Fault(10, "contents", at, -1, reason)
    for at, (entry, data) in enumerate(bodies(book)):
        yield from body_faults(book[2], at, entry, data)


def line(edition, at, entry, data):
    """"for each body: number, `C`, power, phase; or number, `T`, live, ties, power, phase. For zero: `0 C zero`, or `0 T` with
    live and `zero`." """
    if entry.kind == CIRCUIT:
        amount = circuit.amplitude(entry.width, *gates.strings(data), gates.gates(edition, data))
        return f"{at} C zero" if amount is None else f"{at} C {amount[0]} {amount[1]}"
    if entry.kind == RECORD:
        # "`amps` prints number, `R`, that power or `none`"
        power = records.chance(entry.width, gates.number(data, 0, 4), records.steps(data))
        return f"{at} R {'none' if power is None else power}"
    table = tables.read(entry.width, data)
    if table.zero:
        return f"{at} T {entry.width} zero"
    return f"{at} T {entry.width} {len(table.ties)} {table.power} {table.phase}"


def answer(edition, at, entry, data):
    """A body's line, or "`1 refused 7` in place of the answer" """
    fault = next(body_faults(edition, at, entry, data), None)
    return line(edition, at, entry, data) if fault is None else f"{at} refused {fault.number}"


def listed(book, refused):
    """The whole listing, given the fault that refuses the book, or None."""
    if refused is not None:
        return f"refused {refused.number}\n"
    lines = [answer(book[2], at, entry, data) for at, (entry, data) in enumerate(bodies(book))]
    return "".join(text + "\n" for text in [f"book {book[3]}", *lines])


def listing(book):
    """What `amps` must print: "First line `book` and the count." "faults of header or contents still refuse the whole" """
    return listed(book, next((fault for fault in faults(book) if fault.stage != "body"), None))


def strict_listing(book):
    """What the strict reading lists: "A refused book gives the single line `refused` and the number." """
    return listed(book, next(faults(book), None))


def lay(parts, edition=1):
    """A book of parts (kind, width, bytes), its contents right and nothing else tested."""
    start, contents = 4 + 8 * len(parts), b""
    for kind, width, data in parts:
        contents += Entry(kind, width, len(data), start).laid()
        start += len(data)
    return bytes([0x51, 0x4E, edition, len(parts)]) + contents + b"".join(data for _, _, data in parts)
