"""Tables as they stand in a book: fields on one side, bytes on the other, and what the library says of them."""
from __future__ import annotations

import ctypes
from typing import Iterable, List, NamedTuple

from .circuit import byte
from .gates import MOST_BYTES
from .library import Amount, Told, ask


class Tie(NamedTuple):
    """The sum of the bits of a mask is r modulo 2."""

    mask: int
    r: int


class Table:
    """A table with live slots 0 to width - 1: entries are root two to a power, turned, or zero where a tie fails.

    The entry at x is 0 where the zero mark is set or a tie fails, else √2^power · ω^(phase + 2·Σ a_v x_v + 4·Σ_{u<v} b_uv x_u x_v).

    >>> t = Table(2, phase=2)
    >>> t.turns[1] = 3
    >>> t.ties.append(Tie(0b11, 1))
    >>> print(t.entry(0b01), t.entry(0b10), t.entry(0b11), sep=", ")
    0 2, 0 0, zero
    """

    def __init__(self, width: int, power: int = 0, phase: int = 0, zero: bool = False) -> None:
        self.width = byte(width, "width")
        self.zero = int(zero)
        self.power = power
        self.phase = byte(phase, "phase")
        self.turns = [0] * width
        self.rows = [0] * width
        self.ties: List[Tie] = []

    def sign(self, u: int, v: int) -> "Table":
        """Sets the sign of two slots, in both rows.

        >>> print(Table(2).sign(0, 1).entry(3))
        0 4
        """
        self.rows[u] |= 1 << v
        self.rows[v] |= 1 << u
        return self

    def signs(self) -> Iterable["tuple[int, int]"]:
        """The pairs of slots that have a sign, the lower first.

        >>> list(Table(3).sign(2, 0).signs())
        [(0, 2)]
        """
        return [(u, v) for v in range(self.width) for u in range(v) if self.rows[v] >> u & 1]

    def body(self) -> bytes:
        """The bytes of the table in a book, as they are; the library tests them where it is asked.

        >>> Table(1, power=-3, phase=5).body().hex(" ")
        '00 05 fd ff 00 00 00 00 00 00 00 00 00 00'
        """
        head = bytes([self.zero, self.phase]) + self.power.to_bytes(2, "little", signed=True)
        rows = b"".join(row.to_bytes(8, "little") for row in self.rows)
        ties = b"".join(mask.to_bytes(8, "little") + bytes([r]) for mask, r in self.ties)
        return head + bytes(self.turns) + rows + bytes([len(self.ties)]) + ties

    @classmethod
    def of(cls, width: int, data: bytes) -> "Table":
        """The fields of a body; a length that does not fit is a ValueError, all else the library's to refuse.

        >>> Table.of(1, Table(1, power=-3).body()).power
        -3
        """
        ties_at = 5 + 9 * width
        if len(data) < ties_at or len(data) != ties_at + 9 * data[ties_at - 1]:
            raise ValueError(f"a table body of width {width} does not have {len(data)} bytes")
        table = cls(width, int.from_bytes(data[2:4], "little", signed=True), data[1])
        table.zero = data[0]
        table.turns = list(data[4:4 + width])
        table.rows = [int.from_bytes(data[at:at + 8], "little") for at in range(4 + width, ties_at - 1, 8)]
        table.ties = [Tie(int.from_bytes(data[at:at + 8], "little"), data[at + 8]) for at in range(ties_at, len(data), 9)]
        return table

    def entry(self, x: int) -> Amount:
        """The entry at an assignment, bit v for slot v.

        >>> Table(1).entry(2)
        Traceback (most recent call last):
        topazfern.refusals.Refused: refused 1: a slot is 64 or more, or free, or a mask or assignment has a bit that is not live
        """
        told, data = Told(), self.body()
        if not 0 <= x < 1 << 64:
            raise ValueError(f"{x} is not an assignment of 64 bits")
        ask("topazfern_entry", data, len(data), self.width, x, *told.pointers)
        return told.amount

    def tested(self) -> bytes:
        """The bytes of the table, written by the library, which refuses a table that is not normal.

        >>> Table(1).tested() == Table(1).body()
        True
        """
        data, area, told = self.body(), (ctypes.c_uint8 * MOST_BYTES)(), ctypes.c_size_t()
        ask("topazfern_write", data, len(data), self.width, area, MOST_BYTES, 0, ctypes.byref(told))
        return bytes(area[:told.value])

    def __eq__(self, other: object) -> bool:
        return isinstance(other, Table) and vars(self) == vars(other)

    def __repr__(self) -> str:
        return f"Table(width={self.width}, power={self.power}, phase={self.phase}, ties={len(self.ties)}{', zero' if self.zero else ''})"
