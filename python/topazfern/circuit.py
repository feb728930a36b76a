"""Circuits and records: lists of gates on wires, and what the library answers of them."""
from __future__ import annotations

import ctypes
from contextlib import contextmanager
from fractions import Fraction
from typing import Iterable, Iterator, List, NamedTuple, Optional, Sequence, Tuple, TypeVar, Union

from . import gates as g
from .library import Amount, Told, element, load
from .refusals import Refused

CIRCUIT, TABLE, RECORD = 1, 2, 3
PER_GATE = (7, 6, 3, 2)

Self = TypeVar("Self", bound="Items")


def byte(value: int, name: str) -> int:
    """A number that has to fit into a byte of a body; everything else is for the library to refuse.

    >>> byte(255, "wire")
    255
    """
    if not 0 <= value <= 255:
        raise ValueError(f"{name} {value} does not fit into a byte")
    return value


class Items:
    """What circuits and records share: a width and a list of gates, written one after the other."""

    edition = 2

    def __init__(self, width: int, gates: bytes = b"") -> None:
        self.width = byte(width, "width")
        self.gates = bytearray(gates)

    def put(self: Self, code: int, wire: int, second: int = 0) -> Self:
        """Any three bytes, tested only when the library is asked.

        >>> Circuit(1).put(1, 0).text()
        ['h 0']
        """
        self.gates += bytes([byte(code, "code"), byte(wire, "wire"), byte(second, "second byte")])
        return self

    def h(self: Self, wire: int) -> Self:
        """The Hadamard gate.

        >>> print(Circuit(1).h(0).amplitude(0, 1))
        -1 0
        """
        return self.put(1, wire)

    def s(self: Self, wire: int) -> Self:
        """diag(1, i).

        >>> print(Circuit(1).s(0).amplitude(1, 1))
        0 2
        """
        return self.put(2, wire)

    def sdg(self: Self, wire: int) -> Self:
        """diag(1, -i).

        >>> print(Circuit(1).sdg(0).amplitude(1, 1))
        0 6
        """
        return self.put(3, wire)

    def z(self: Self, wire: int) -> Self:
        """diag(1, -1).

        >>> print(Circuit(1).z(0).amplitude(1, 1))
        0 4
        """
        return self.put(4, wire)

    def x(self: Self, wire: int) -> Self:
        """Exchanges 0 and 1.

        >>> print(Circuit(1).x(0).amplitude(0, 1))
        0 0
        """
        return self.put(5, wire)

    def y(self: Self, wire: int) -> Self:
        """Rows (0, -i) and (i, 0).

        >>> print(Circuit(1).y(0).amplitude(0, 1))
        0 2
        """
        return self.put(6, wire)

    def sx(self: Self, wire: int) -> Self:
        """Code 7: H, S, H in edition 1, the quarter turn about X in edition 2.

        >>> print(Circuit(1, edition=1).sx(0).amplitude(0, 0), Circuit(1).sx(0).amplitude(0, 0), sep=", ")
        -1 1, -1 0
        """
        return self.put(7, wire)

    def cz(self: Self, first: int, second: int) -> Self:
        """diag(1, 1, 1, -1).

        >>> print(Circuit(2).cz(0, 1).amplitude(3, 3))
        0 4
        """
        return self.put(16, first, second)

    def cx(self: Self, first: int, second: int) -> Self:
        """X on the second wire where the first is 1.

        >>> print(Circuit(2).cx(0, 1).amplitude("01", "11"))
        0 0
        """
        return self.put(17, first, second)

    def swap(self: Self, first: int, second: int) -> Self:
        """Exchanges two wires.

        >>> print(Circuit(2).swap(0, 1).amplitude("01", "10"))
        0 0
        """
        return self.put(18, first, second)

    def element(self: Self, number: int, wire: int) -> Self:
        """A one-wire element by its number (docs/cliffords.md), in edition 2.

        >>> print(Circuit(1).element(1, 0).element(2, 0).element(closing([1, 2]), 0).amplitude(0, 0))
        0 1
        """
        return self.put(g.FIRST_ELEMENT + number, wire)

    @contextmanager
    def repeat(self, count: int) -> Iterator[None]:
        """A block that is run so many times (1 to 255), in edition 2.

        >>> c = Circuit(1)
        >>> with c.repeat(3):
        ...     _ = c.h(0).s(0)
        >>> c.text()
        ['repeat 3', 'h 0', 's 0', 'end']
        >>> print(c.amplitude(0, 0))
        0 1
        """
        self.put(g.OPEN, count)
        yield
        self.put(g.CLOSE, 0)

    def text(self) -> List[str]:
        """The items as `topaz show` writes them.

        >>> Circuit(2).h(0).cx(0, 1).text()
        ['h 0', 'cx 0 1']
        """
        return [str(item) for item in g.items(bytes(self.gates))]

    def __len__(self) -> int:
        return len(self.gates) // 3

    def __eq__(self, other: object) -> bool:
        return type(self) is type(other) and vars(self) == vars(other)

    def __repr__(self) -> str:
        return f"{type(self).__name__}(width={self.width}, {len(self)} items)"

    def _string(self, given: Union[int, str]) -> int:
        value = g.string_of(given, self.width) if isinstance(given, str) else given
        if not 0 <= value < 1 << 32:
            raise ValueError(f"{value} is not a string of 32 bits")
        return value

    def _number(self, gates: bytes) -> int:
        """The number that refuses these gates on this width, from 0 to 0."""
        raise NotImplementedError

    def _taken(self, number: int) -> None:
        """Raises a refusal, with the gate that it is about."""
        if number:
            raise Refused(number, self._place(number))

    def _place(self, number: int) -> str:
        """The gate that a refusal is about: the first at which the gates so far are refused."""
        if number not in PER_GATE or self._number(b"") != 0 or self._number(bytes(self.gates)) != number:
            return ""
        low, high = 0, len(self)  # the first `low` items are taken, the first `high` are not
        while high - low > 1:
            middle = (low + high) // 2
            if self._number(bytes(self.gates[:3 * middle])) in PER_GATE:
                high = middle
            else:
                low = middle
        item = g.Item(*self.gates[3 * low:3 * low + 3])
        return f"gate {low}: {item}"


class Tableau(NamedTuple):
    """A Leuven tableau: the rows of C, column t at bit t, first those of X on the wires and then of Z, and the vector h of signs."""

    rows: Tuple[int, ...]
    h: int


class Circuit(Items):
    """A circuit: gates on 1 to 31 wires, the first applied first; wire i is bit i of a string.

    A string is a number, or text of 0 and 1 with wire 0 as its last letter.

    >>> bell = Circuit(2).h(0).cx(0, 1)
    >>> print(bell.amplitude("00", "11"))
    -1 0
    >>> Circuit(2).h(0).cx(0, 2).amplitude(0, 0)
    Traceback (most recent call last):
    topazfern.refusals.Refused: refused 6: the width of a circuit is not 1..31, or a wire is not below it (gate 1: cx 0 2)
    """

    def __init__(self, width: int, edition: int = 2, gates: bytes = b"") -> None:
        super().__init__(width, gates)
        self.edition = byte(edition, "edition")

    def amplitude(self, input: Union[int, str] = 0, output: Union[int, str] = 0) -> Amount:
        """The amplitude from an input string to an output string.

        >>> print(Circuit(1).h(0).h(0).amplitude(0, 1))
        zero
        """
        told = Told()
        self._taken(self._amplitude(bytes(self.gates), self._string(input), self._string(output), told))
        return told.amount

    def amplitudes(self, input: Union[int, str], outputs: Iterable[Union[int, str]]) -> List[Amount]:
        """The amplitudes to many outputs, in their order.

        >>> [str(a) for a in Circuit(2).h(0).cx(0, 1).amplitudes(0, range(4))]
        ['-1 0', 'zero', 'zero', '-1 0']
        """
        return [self.amplitude(input, output) for output in outputs]

    def same(self, other: "Circuit") -> bool:
        """Whether two circuits of one width are the same operator, phase included.

        >>> Circuit(2).swap(0, 1).same(Circuit(2).cx(0, 1).cx(1, 0).cx(0, 1)) if load().has("topazfern_same") else True
        True
        """
        same = ctypes.c_uint8()
        self._beside(other, load().call("topazfern_same")(*self._given(), *other._given(), ctypes.byref(same)))
        return bool(same.value)

    def common_phase(self, other: "Circuit") -> Optional[int]:
        """The eighth turns that make this circuit's entries the other's; None where none do.

        >>> Circuit(1).x(0).z(0).common_phase(Circuit(1).z(0).x(0)) if load().has("topazfern_common_phase") else 4
        4
        """
        same, phase = ctypes.c_uint8(), ctypes.c_uint8()
        call = load().call("topazfern_common_phase")
        self._beside(other, call(*self._given(), *other._given(), ctypes.byref(same), ctypes.byref(phase)))
        return phase.value if same.value else None

    def tableau(self) -> "Tableau":
        """The Leuven tableau of the circuit, which every circuit has: 2 · width masks, and the signs.

        >>> Circuit(1).h(0).s(0).tableau()
        Tableau(rows=(2, 3), h=2)
        """
        rows, h = (ctypes.c_uint64 * max(1, 2 * self.width))(), ctypes.c_uint64()
        self._taken(load().call("topazfern_tableau_of")(*self._given(), rows, 2 * self.width, ctypes.byref(h)))
        return Tableau(tuple(rows), h.value)

    def has_tableau(self, rows: Sequence[int], h: int) -> bool:
        """Whether a pair that a compiler hands over is the circuit's Leuven tableau, signs included.

        >>> Circuit(1).s(0).has_tableau([1, 3], 1), Circuit(1).s(0).has_tableau([1, 3], 0)
        (True, False)
        """
        if not all(0 <= mask < 1 << 64 for mask in (*rows, h)):
            raise ValueError("rows and signs are masks of 64 bits")
        words, holds = (ctypes.c_uint64 * max(1, len(rows)))(*rows), ctypes.c_uint8()
        call = load().call("topazfern_tableau")
        self._taken(call(*self._given(), words, len(rows), h, ctypes.byref(holds)))
        return bool(holds.value)

    def measured(self) -> "Record":
        """The same gates as a record without measurements; a chance does not know a phase, so that both editions give the same.

        >>> Circuit(2).h(0).cx(0, 1).measured().measure(0, 1).measure(1, 1).chance()
        Fraction(1, 2)
        """
        return Record(self.width, bytes(self.gates))

    def body(self, input: Union[int, str] = 0, output: Union[int, str] = 0) -> bytes:
        """The bytes of the circuit in a book: two strings, then the gates.

        >>> Circuit(1).h(0).body(0, 1).hex(" ")
        '00 00 00 00 01 00 00 00 01 00 00'
        """
        return self._string(input).to_bytes(4, "little") + self._string(output).to_bytes(4, "little") + bytes(self.gates)

    def _given(self) -> Tuple[int, int, bytes, int]:
        """Edition, width and gates, as calls take them."""
        return self.edition, self.width, bytes(self.gates), len(self.gates)

    def _beside(self, other: "Circuit", number: int) -> None:
        """Raises a refusal of two circuits: of the first with its gate, else of the second, or of both together."""
        if number and self._number(bytes(self.gates)):
            self._taken(number)
        if number:
            place = other._place(number)
            raise Refused(number, f"the second circuit, {place}" if place else "the second circuit, or the widths differ")

    def _amplitude(self, gates: bytes, input: int, output: int, told: Told) -> int:
        return load().call("topazfern_amplitude")(self.edition, self.width, input, output, gates, len(gates), *told.pointers)

    def _number(self, gates: bytes) -> int:
        return self._amplitude(gates, 0, 0, Told())


class Record(Items):
    """A record: gates, and measurements with their outcomes, from an input string; of edition 2.

    >>> Record(1).h(0).measure(0, 1).chance()
    Fraction(1, 2)
    >>> Record(1).measure(0, 1).chance()
    Fraction(0, 1)
    """

    def measure(self, wire: int, outcome: int) -> "Record":
        """A wire measured, and what it gave.

        >>> Record(1).measure(0, 0).text()
        ['measure 0 0']
        """
        return self.put(g.MEASURED, wire, outcome)

    def power(self, input: Union[int, str] = 0) -> Optional[int]:
        """The e of the chance, one over two to e; None where the record cannot occur.

        >>> Record(1).h(0).measure(0, 1).measure(0, 1).power(), Record(1).measure(0, 1).power()
        (1, None)
        """
        never, power = ctypes.c_uint8(), ctypes.c_uint32()
        self._taken(self._chance(bytes(self.gates), self._string(input), never, power))
        return None if never.value else power.value

    def chance(self, input: Union[int, str] = 0) -> Fraction:
        """The chance of the whole record, exactly.

        >>> Record(2).h(0).cx(0, 1).measure(0, 1).measure(1, 0).chance()
        Fraction(0, 1)
        """
        power = self.power(input)
        return Fraction(0) if power is None else Fraction(1, 1 << power)

    def body(self, input: Union[int, str] = 0) -> bytes:
        """The bytes of the record in a book: the input string, then the items.

        >>> Record(1).measure(0, 1).body(0).hex(" ")
        '00 00 00 00 50 00 01'
        """
        return self._string(input).to_bytes(4, "little") + bytes(self.gates)

    def _chance(self, gates: bytes, input: int, never: ctypes.c_uint8, power: ctypes.c_uint32) -> int:
        return load().call("topazfern_chance")(self.width, input, gates, len(gates), ctypes.byref(never), ctypes.byref(power))

    def _number(self, gates: bytes) -> int:
        return self._chance(gates, 0, ctypes.c_uint8(), ctypes.c_uint32())


def product(i: int, j: int) -> int:
    """The one-wire element that i, then j, comes to.

    >>> product(1, 2)
    3
    """
    return element("topazfern_product", byte(i, "element"), byte(j, "element"))


def inverse(i: int) -> int:
    """The one-wire element that undoes i.

    >>> inverse(2)
    10
    """
    return element("topazfern_inverse", byte(i, "element"))


def closing(numbers: Sequence[int]) -> int:
    """The one-wire element that undoes a run of elements.

    >>> closing([1, 2])
    11
    """
    run = bytes(byte(number, "element") for number in numbers)
    return element("topazfern_closing", run, len(run))
