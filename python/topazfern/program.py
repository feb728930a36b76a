"""What an importer reads: gates, measurements and repeats by meaning, laid out as the bodies of a book."""
from __future__ import annotations

from collections import Counter
from itertools import groupby
from typing import Dict, Iterator, List, NamedTuple, Optional, Sequence, Tuple, Union

from . import gates as g
from .book import Body
from .circuit import CIRCUIT, RECORD, Circuit, Record
from .refusals import CannotRead

#: Codes by meaning: `root_x` is H, S, H with its phase, `quarter_x` the rotation about X; the editions write them by different codes.
EDITION_1 = {**g.ONE_WIRE, **g.TWO_WIRES, "root_x": 7}
EDITION_2 = {**g.ONE_WIRE, **g.TWO_WIRES, "root_x": g.FIRST_ELEMENT + 6, "quarter_x": 7, "id": g.FIRST_ELEMENT}
MOST_WRITTEN_OUT = 65_536


class Gate(NamedTuple):
    """A gate by its meaning, on its wires."""

    name: str
    wires: Tuple[int, ...]


class Item(NamedTuple):
    """Three bytes as a book has them."""

    code: int
    wire: int
    second: int


class Phase(NamedTuple):
    """A turn of everything by so many eighths."""

    eighths: int


class Measure(NamedTuple):
    """A wire measured; `flip` where the outcome is told the other way round."""

    wire: int
    flip: int = 0


class Repeat(NamedTuple):
    """Operations that are run so many times."""

    times: int
    ops: Tuple["Op", ...]


Op = Union[Gate, Item, Phase, Measure, Repeat]


def measured(ops: Sequence[Op]) -> int:
    """How many measurements are made.

    >>> measured([Measure(0), Repeat(3, (Measure(1), Gate("h", (0,))))])
    4
    """
    return sum(1 if isinstance(op, Measure) else op.times * measured(op.ops) if isinstance(op, Repeat) else 0 for op in ops)


def repeated(block: bytes, count: int) -> bytes:
    """A block run any number of times, by marks of at most 255 each.

    >>> repeated(b"h..", 3), len(repeated(b"h..", 1000))
    (b'@\\x03\\x00h..A\\x00\\x00', 15)
    """
    if count == 0 or not block:
        return b""
    if count <= g.MOST_COUNT:
        return bytes([g.OPEN, count, 0]) + block + bytes([g.CLOSE, 0, 0])
    inner = next((n for n in range(g.MOST_COUNT, 1, -1) if count % n == 0), None)
    if inner:
        return repeated(repeated(block, inner), count // inner)
    often, rest = divmod(count, g.MOST_COUNT)
    return repeated(repeated(block, g.MOST_COUNT), often) + repeated(block, rest)


class Layout:
    """Operations written as the bytes of an edition, outcomes taken in the order of the measurements; it stops where they run out."""

    def __init__(self, edition: int, outcomes: Sequence[int]) -> None:
        self.edition, self.outcomes, self.at, self.stopped = edition, outcomes, 0, False

    def written(self, ops: Sequence[Op]) -> bytes:
        parts: List[bytes] = []
        turn = 0
        for op in ops:
            if isinstance(op, Item):
                parts.append(bytes(op))
            elif isinstance(op, Gate):
                data, more = self._gate(op)
                parts.append(data)
                turn += more
            elif isinstance(op, Phase):
                turn += op.eighths
            elif isinstance(op, Measure):
                if self.at == len(self.outcomes):
                    self.stopped = True
                    return b"".join(parts)
                parts.append(bytes([g.MEASURED, op.wire, self.outcomes[self.at] ^ op.flip]))
                self.at += 1
            else:
                parts.append(self._repeat(op))
            if self.stopped:
                return b"".join(parts)
        return b"".join(parts) + self._turned(turn % 8)

    def _gate(self, gate: Gate) -> Tuple[bytes, int]:
        """A gate's bytes, and by how many eighths they fall short of it."""
        codes = EDITION_2 if self.edition == 2 else EDITION_1
        second = gate.wires[1] if len(gate.wires) > 1 else 0
        if gate.name in codes:
            return bytes([codes[gate.name], gate.wires[0], second]), 0
        if gate.name == "quarter_x":  # in edition 1 the root of X is there, an eighth turn further
            return bytes([7, gate.wires[0], 0]), -1
        return b"", 0  # the identity, which edition 1 has no code for

    def _turned(self, eighths: int) -> bytes:
        """A turn of everything: H, S three times on one wire is an eighth turn and nothing else."""
        return self._block(bytes([1, 0, 0, 2, 0, 0]), 3 * eighths) if eighths else b""

    def _block(self, block: bytes, count: int) -> bytes:
        if self.edition == 2:
            return repeated(block, count)
        if len(block) // 3 * count > MOST_WRITTEN_OUT:
            raise CannotRead(f"a block of {count}", "edition 1 has no blocks, and this one is too long to write out; leave --edition 1 out")
        return block * count

    def _repeat(self, op: Repeat) -> bytes:
        """A repeat: one block, or where outcomes differ, a block for each stretch of runs with the same outcomes."""
        each = measured(op.ops)
        if each == 0:
            return self._block(self.written(op.ops), op.times)
        left = self.outcomes[self.at:self.at + each * op.times]
        runs = [tuple(left[at:at + each]) for at in range(0, len(left) - each + 1, each)]
        parts = []
        for outcomes, stretch in groupby(runs):
            block, count = Layout(self.edition, outcomes).written(op.ops), len(list(stretch))
            parts.append(block if count == 1 else self._block(block, count))
        self.at += each * len(runs)
        if len(runs) < op.times:
            parts.append(self.written(op.ops))  # stops on the way
        return b"".join(parts)


class Program:
    """A circuit as a file states it, its outputs still open: over its wires, or where it measures, over what it measures."""

    def __init__(self, path: str, width: int, ops: Sequence[Op], bits: Optional[Sequence[int]] = None, letters: int = 0,
                 first_left: bool = False) -> None:
        self.path, self.width, self.ops = path, width, tuple(ops)
        self.count = measured(self.ops)  # measurements
        self.bits = range(self.count) if bits is None else bits  # each measurement's place in an output
        self.letters = max(self.count, letters) if self.count else width  # of an output
        self.first_left = first_left and self.count > 0
        self.starts: Dict[int, int] = {}  # wires that the file resets at its start, with the line
        self.notes: Counter = Counter()
        self.input: Optional[str] = None
        self.output: Optional[str] = None
        self.edition = 2

    def bit_of(self, text: str) -> List[int]:
        """An output's letters, bit 0 first; spaces and underscores between registers do not count.

        >>> Program("", 3, []).bit_of("0 11")
        [1, 1, 0]
        """
        letters = text.replace(" ", "").replace("_", "")
        if len(letters) != self.letters or set(letters) - {"0", "1"}:
            what = "measured bits" if self.count else "wires"
            raise CannotRead(f"output {text!r}", f"not a string of 0 and 1 over the {self.letters} {what}", path=self.path)
        return [int(letter) for letter in (letters if self.first_left else reversed(letters))]

    def text_of(self, bits: Sequence[int]) -> str:
        """An output as text.

        >>> Program("", 3, []).text_of([1, 1, 0])
        '011'
        """
        return "".join(str(bit) for bit in (bits if self.first_left else reversed(bits)))

    def outcomes(self, bits: Sequence[int]) -> Optional[List[int]]:
        """The outcomes of the measurements in their order; None where a bit that nothing measures is 1."""
        silent = set(range(self.letters)) - set(self.bits)
        return None if any(bits[bit] for bit in silent) else [bits[bit] for bit in self.bits]

    def start(self, input: Union[int, str]) -> int:
        """An input string as a number, held to the wires that the file resets."""
        try:
            value = g.string_of(input, self.width) if isinstance(input, str) else input
        except ValueError as error:
            raise CannotRead("input", f"{error}, wire 0 last", path=self.path) from None
        for wire, line in self.starts.items():
            if value >> wire & 1:
                raise CannotRead(f"reset of wire {wire}", f"input {input} has a 1 there; leave out the reset or the 1", line, self.path)
        return value

    def circuit(self, edition: int = 2) -> Circuit:
        """The circuit, where nothing is measured."""
        return Circuit(self.width, edition, Layout(edition, ()).written(self.ops))

    def record(self, outcomes: Sequence[int]) -> Record:
        """The record up to the last outcome that is given; where the file measures nothing, its wires are, the highest first."""
        ops = self.ops if self.count else (*self.ops, *(Measure(wire) for wire in reversed(range(self.width))))
        return Record(self.width, Layout(2, outcomes).written(ops))

    def whole_record(self, bits: Sequence[int]) -> Optional[Record]:
        """The record of a whole output, with all gates behind the last measurement too."""
        if not self.count:
            return self.record(list(reversed(bits)))
        outcomes = self.outcomes(bits)
        return None if outcomes is None else Record(self.width, Layout(2, [*outcomes]).written(self.ops))

    def body(self, input: Union[int, str], output: str, edition: int = 2) -> Body:
        """The body of one input and one output: a circuit, or where the file measures, a record.

        >>> program = Program("", 2, [Gate("h", (0,)), Gate("cx", (0, 1)), Measure(0), Measure(1)])
        >>> Body.of(program.body("00", "11").content()).kind
        3
        """
        start, bits = self.start(input), self.bit_of(output)
        if not self.count:
            return Body.of(self.circuit(edition), start, sum(bit << wire for wire, bit in enumerate(bits)))
        if edition != 2:
            raise CannotRead("measurement", "a record is of edition 2; leave --edition 1 out", path=self.path)
        record = self.whole_record(bits)
        if record is None:
            raise CannotRead(f"output {output}", "has a 1 at a bit that nothing is measured into", path=self.path)
        return Body.of(record, start)

    def power(self, bits: Sequence[int], start: int = 0) -> Optional[int]:
        """The e of an output's chance, one over two to e; None where it cannot occur.

        >>> Program("", 2, [Gate("h", (0,)), Gate("cx", (0, 1))]).power([1, 1])
        1
        """
        record = self.whole_record(bits)
        return None if record is None else record.power(start)

    def possible(self, start: int = 0, most: int = 4096) -> Iterator[Tuple[List[int], int]]:
        """The outputs that can occur, as bits, each with its e; a ValueError where there are more than `most`.

        >>> list(Program("", 2, [Gate("h", (0,)), Gate("cx", (0, 1))]).possible())
        [([0, 0], 1), ([1, 1], 1)]
        """
        count, spread = self.count or self.width, self.spread(start)
        if spread > most.bit_length() or 1 << spread > most:
            raise ValueError(f"2^{spread} outputs can occur, more than {most}")
        stack: List[List[int]] = [[]]
        while stack:
            outcomes = stack.pop()
            power = self.record(outcomes).power(start)
            if power is None:
                continue
            if len(outcomes) < count:
                stack += [[*outcomes, 1], [*outcomes, 0]]
            else:
                yield self._bits(outcomes), power

    def spread(self, start: int = 0) -> int:
        """The e of one output that can occur; of Clifford gates all that can occur have the same, and there are two to e of them.

        >>> Program("", 2, [Gate("h", (0,)), Gate("cx", (0, 1))]).spread()
        1
        """
        outcomes: List[int] = []
        power = 0
        for _ in range(self.count or self.width):
            told = self.record([*outcomes, 0]).power(start)
            outcomes.append(0 if told is not None else 1)
            power = told if told is not None else power
        return power

    def _bits(self, outcomes: Sequence[int]) -> List[int]:
        if not self.count:
            return list(reversed(outcomes))
        bits = [0] * self.letters
        for bit, outcome in zip(self.bits, outcomes):
            bits[bit] = outcome
        return bits


def of_body(body: Body, edition: int, path: str = "") -> Program:
    """A circuit or record of a book as a program; a record's outcomes become open.

    >>> of_body(Body.of(Record(1).h(0).measure(0, 1)), 2).count
    1
    """
    content = body.content(edition)
    if not isinstance(content, (Circuit, Record)):
        raise CannotRead("a table", "has no outputs; ask for a circuit or a record", path=path)
    open_blocks: List[List[Op]] = [[]]
    counts: List[int] = []
    for item in g.items(bytes(content.gates)):
        if item.code == g.OPEN and edition == 2:
            open_blocks.append([])
            counts.append(item.wire)
        elif item.code == g.CLOSE and counts:
            block = tuple(open_blocks.pop())
            open_blocks[-1].append(Repeat(counts.pop(), block))
        elif item.code == g.MEASURED and body.kind == RECORD:
            open_blocks[-1].append(Measure(item.wire))
        else:
            open_blocks[-1].append(Item(*item))
    program = Program(path, body.width, open_blocks[0], first_left=body.kind == RECORD)
    program.input, program.edition = g.text_of(body.input, body.width), edition
    if body.kind == CIRCUIT:
        program.output = g.text_of(body.output, body.width)
    return program
