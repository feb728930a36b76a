"""Books: bodies in a file, read, listed and edited by the library."""
from __future__ import annotations

import ctypes
from pathlib import Path
from typing import Iterator, List, NamedTuple, Optional, Union

from . import gates as g
from .circuit import CIRCUIT, RECORD, TABLE, Circuit, Record, byte
from .library import LISTING_MAX, Amount, Told, ask, load
from .refusals import Refused
from .table import Table

HEADER, ENTRY = 4, 8


class Body(NamedTuple):
    """A body as the contents have it: its kind (1 circuit, 2 table, 3 record), its width and its bytes."""

    kind: int
    width: int
    data: bytes

    @classmethod
    def of(cls, content: Union["Body", Circuit, Record, Table], input: Union[int, str] = 0, output: Union[int, str] = 0) -> "Body":
        """The body of a circuit between two strings, of a record from one, or of a table.

        >>> Body.of(Circuit(1).h(0), 0, 1).kind
        1
        """
        if isinstance(content, Body):
            return content
        if isinstance(content, Circuit):
            return cls(CIRCUIT, content.width, content.body(input, output))
        if isinstance(content, Record):
            return cls(RECORD, content.width, content.body(input))
        return cls(TABLE, content.width, content.body())

    def content(self, edition: int = 2) -> Union[Circuit, Record, Table]:
        """The body as a circuit, record or table; a length that does not fit is a ValueError.

        >>> Body.of(Circuit(1).h(0), 0, 1).content().text()
        ['h 0']
        """
        if self.kind == TABLE:
            return Table.of(self.width, self.data)
        strings = {CIRCUIT: 8, RECORD: 4}.get(self.kind)
        if strings is None:
            raise ValueError(f"there is no kind {self.kind}")
        if len(self.data) < strings or (len(self.data) - strings) % 3:
            raise ValueError(f"{len(self.data)} bytes are not strings and gates of three bytes")
        gates = self.data[strings:]
        return Circuit(self.width, edition, gates) if self.kind == CIRCUIT else Record(self.width, gates)

    @property
    def input(self) -> int:
        """The input string of a circuit or record.

        >>> Body.of(Circuit(2), 2, 1).input
        2
        """
        return int.from_bytes(self.data[:4], "little")

    @property
    def output(self) -> int:
        """The output string of a circuit.

        >>> Body.of(Circuit(2), 2, 1).output
        1
        """
        return int.from_bytes(self.data[4:8], "little")


class Answer(NamedTuple):
    """What the library reads of a body: a circuit's amplitude, a record's chance as an amount, a table's live bits, ties, power and phase."""

    kind: int
    live: int
    ties: int
    amount: Amount


class Book:
    """A book of up to 16 bodies, kept as its bytes.

    >>> book = Book()
    >>> book.add(Circuit(2).h(0).cx(0, 1), "00", "11")
    >>> book.add(Record(1).h(0).measure(0, 1))
    >>> print(book.listing(), end="")
    book 2
    0 C -1 0
    1 R 1
    >>> book.remove(0)
    >>> len(book)
    1
    """

    def __init__(self, edition: int = 2) -> None:
        area, told = (ctypes.c_uint8 * HEADER)(), ctypes.c_size_t()
        none = (ctypes.c_uint16 * 1)()
        ask("topazfern_lay", area, HEADER, byte(edition, "edition"), b"", 0, b"", 0, none, 0, ctypes.byref(told))
        self.data = bytes(area)

    @classmethod
    def of(cls, data: bytes) -> "Book":
        """A book of any bytes; what is wrong with them the library says when it is asked.

        >>> print(Book.of(b"QN").listing(), end="")
        refused 9
        """
        book = cls.__new__(cls)
        book.data = bytes(data)
        return book

    @classmethod
    def read(cls, path: Union[str, Path]) -> "Book":
        """A book from a file; of a file that is too long for a book only as much is read as shows that.

        >>> Book.read("/dev/null").data
        b''
        """
        with open(path, "rb") as file:
            return cls.of(file.read(g.MOST_BYTES + 1))

    def save(self, path: Union[str, Path]) -> None:
        """Writes the book to a file.

        >>> Book().save("/dev/null")
        """
        Path(path).write_bytes(self.data)

    @property
    def edition(self) -> int:
        """The edition that the third byte states.

        >>> Book(1).edition
        1
        """
        return self.data[2] if len(self.data) > 2 else 0

    def listing(self, strict: bool = False) -> str:
        """The listing: a line a body, or where strict, all or nothing.

        >>> Book().listing()
        'book 0\\n'
        """
        text = (ctypes.c_uint8 * LISTING_MAX)()
        call = load().call("topazfern_listing_strict" if strict else "topazfern_listing")
        length = call(self.data, len(self.data), text, LISTING_MAX)
        return bytes(text[:length]).decode("ascii")

    def refusal(self) -> Optional[Refused]:
        """The refusal of header or contents, which leaves nothing to list; None where bodies can be listed.

        >>> print(Book.of(b"QN").refusal().number, Book().refusal())
        9 None
        """
        first = self.listing().split("\n")[0].split()
        return Refused(int(first[1])) if first[0] == "refused" else None

    def answer(self, j: int, strict: bool = False) -> Answer:
        """Body j as the library reads it.

        >>> book = Book()
        >>> book.add(Circuit(1).h(0), 0, 1)
        >>> book.answer(0).amount.power
        -1
        >>> book.answer(1)
        Traceback (most recent call last):
        topazfern.refusals.Refused: refused 14: the book has no body of that number (body 1)
        """
        kind, live, ties, told = ctypes.c_uint8(), ctypes.c_size_t(), ctypes.c_size_t(), Told()
        behind = (ctypes.byref(kind), ctypes.byref(live), ctypes.byref(ties), *told.pointers)
        ask("topazfern_read_strict" if strict else "topazfern_read", self.data, len(self.data), j, *behind, place=f"body {j}")
        return Answer(kind.value, live.value, ties.value, told.amount)

    @property
    def bodies(self) -> List[Body]:
        """The bodies that the contents tell of; a book whose header or contents are refused raises that.

        >>> [body.kind for body in Book.of(Book().data).bodies]
        []
        """
        refusal = self.refusal()
        if refusal:
            raise refusal
        entries = [self.data[at:at + ENTRY] for at in range(HEADER, HEADER + ENTRY * self.data[3], ENTRY)]
        starts = [int.from_bytes(entry[4:8], "little") for entry in entries]
        lengths = [int.from_bytes(entry[2:4], "little") for entry in entries]
        return [Body(e[0], e[1], self.data[start:start + length]) for e, start, length in zip(entries, starts, lengths)]

    def __len__(self) -> int:
        return len(self.bodies)

    def __iter__(self) -> Iterator[Body]:
        return iter(self.bodies)

    def __eq__(self, other: object) -> bool:
        return isinstance(other, Book) and self.data == other.data

    def __repr__(self) -> str:
        return f"Book(edition={self.edition}, {len(self.data)} bytes)"

    @classmethod
    def laid(cls, bodies: List[Body], edition: int = 2) -> "Book":
        """A book of bodies as they are, good or bad: the library lays the contents, the bytes follow.

        >>> Book.laid([Body(1, 1, bytes(8))]).listing()
        'book 1\\n0 C 0 0\\n'
        """
        room = HEADER + ENTRY * len(bodies)
        area, told = (ctypes.c_uint8 * room)(), ctypes.c_size_t()
        kinds, widths = bytes(b.kind for b in bodies), bytes(b.width for b in bodies)
        if any(len(b.data) > 0xFFFF for b in bodies):
            raise ValueError("a body of more than 65,535 bytes has no place in the contents")
        lengths = (ctypes.c_uint16 * max(1, len(bodies)))(*[len(b.data) for b in bodies])
        ask("topazfern_lay", area, room, byte(edition, "edition"), kinds, len(kinds), widths, len(widths), lengths, len(bodies), ctypes.byref(told))
        return cls.of(bytes(area) + b"".join(b.data for b in bodies))

    def add(self, content: Union[Body, Circuit, Record, Table], input: Union[int, str] = 0, output: Union[int, str] = 0) -> None:
        """Adds a body at the end.

        >>> book = Book()
        >>> book.add(Circuit(1).put(9, 0))
        Traceback (most recent call last):
        topazfern.refusals.Refused: refused 7: unknown gate code (gate 0: item 9 0 0)
        """
        body = Body.of(content, input, output)
        self._edit("topazfern_add", (body.kind, body.width, body.data, len(body.data)), body)

    def replace(self, j: int, content: Union[Body, Circuit, Record, Table], input: Union[int, str] = 0, output: Union[int, str] = 0) -> None:
        """Puts another body in the place of body j.

        >>> book = Book()
        >>> book.add(Circuit(1))
        >>> book.replace(0, Table(0, power=4))
        >>> book.listing()
        'book 1\\n0 T 0 0 4 0\\n'
        """
        body = Body.of(content, input, output)
        self._edit("topazfern_replace", (j, body.kind, body.width, body.data, len(body.data)), body)

    def remove(self, j: int) -> None:
        """Takes body j out; those behind it move up.

        >>> book = Book()
        >>> book.remove(0)
        Traceback (most recent call last):
        topazfern.refusals.Refused: refused 14: the book has no body of that number
        """
        self._edit("topazfern_remove", (j,), None)

    def _edit(self, name: str, what: tuple, body: Optional[Body]) -> None:
        """An edit on a copy, which becomes the book where it was not refused."""
        room = max(g.MOST_BYTES, len(self.data))
        area, told = (ctypes.c_uint8 * room).from_buffer_copy(self.data.ljust(room, b"\0")), ctypes.c_size_t()
        number = load().call(name)(area, room, len(self.data), *what, ctypes.byref(told))
        if number:
            raise Refused(number, placed(number, body, self.edition))
        self.data = bytes(area[:told.value])


def placed(number: int, body: Optional[Body], edition: int) -> str:
    """The gate of a circuit or record that a number is about, where it is about one.

    >>> placed(7, Body.of(Record(1).h(0).put(99, 0)), 2)
    'gate 1: item 99 0 0'
    """
    try:
        content = body.content(edition) if body else None
    except ValueError:
        return ""
    return content._place(number) if isinstance(content, (Circuit, Record)) else ""
