"""A circuit or record of a book as OpenQASM 2, OpenQASM 3 or Stim; read back it is the same operator, or the same record.

The strings of a body stand in a comment that the importers read: `// topaz: input 00 output 11`.
"""
from __future__ import annotations

from typing import List, Tuple

from . import gates as g
from .book import Body
from .circuit import CIRCUIT
from .program import Item, Measure, Op, Repeat, measured, of_body
from .refusals import CannotRead

STIM = {"h": "H", "s": "S", "sdg": "S_DAG", "z": "Z", "x": "X", "y": "Y", "sx": "SQRT_X", "cz": "CZ", "cx": "CX", "swap": "SWAP", "id": "I"}
MOST_LINES = 200_000


def steps(item: Item, edition: int) -> List[Tuple[str, Tuple[int, ...]]]:
    """An item as gates by their OpenQASM names.

    >>> steps(Item(7, 0, 0), 1), steps(Item(7, 0, 0), 2), steps(Item(35, 1, 0), 2)
    ([('sx', (0,))], [('rx(pi/2)', (0,))], [('h', (1,)), ('s', (1,))])
    """
    code, wire, second = item
    if code in g.TWO_WIRES.values():
        return [(g.NAMES[code], (wire, second))]
    if code == 7:
        return [("sx" if edition == 1 else "rx(pi/2)", (wire,))]
    if code in g.NAMES:
        return [(g.NAMES[code], (wire,))]
    word = g.WORDS[code - g.FIRST_ELEMENT]
    if word in ("", "HSH"):  # the root of X and the identity have names of their own
        return [("sx" if word else "id", (wire,))]
    return [(letter.lower(), (wire,)) for letter in word]


def outcomes(body: Body) -> List[int]:
    """The outcomes of a record in order, blocks written out.

    >>> from .circuit import Record
    >>> outcomes(Body.of(Record(1).measure(0, 1).put(64, 2).measure(0, 0).put(65, 0)))
    [1, 0, 0]
    """
    def along(items: List[g.Item], at: int) -> Tuple[List[int], int]:
        found: List[int] = []
        while at < len(items) and items[at].code != g.CLOSE:
            if items[at].code == g.OPEN:
                inner, end = along(items, at + 1)
                found += inner * items[at].wire
                at = end
            elif items[at].code == g.MEASURED:
                found.append(items[at].second)
            at += 1
        return found, at
    return along(list(g.items(body.data[4:])), 0)[0]


class Writer:
    """The lines of one body in one format."""

    def __init__(self, body: Body, edition: int, format: str) -> None:
        self.body, self.edition, self.format = body, edition, format
        self.program = of_body(body, edition)
        self.lines: List[str] = []
        self.bit = 0

    def text(self) -> str:
        strings = f"topaz: input {g.text_of(self.body.input, self.body.width)}"
        if self.body.kind == CIRCUIT:
            strings += f" output {g.text_of(self.body.output, self.body.width)}"
        elif self.program.count:
            letters = "".join(str(outcome) for outcome in outcomes(self.body))
            strings += f" output {letters if self.format == 'stim' else letters[::-1]}"
        if self.format == "stim":
            self.lines += [f"# {strings}", f"QUBIT_COORDS({self.body.width - 1}) {self.body.width - 1}"]  # Stim has as many qubits as are named
            if any(item.code == 7 and self.edition == 2 for item in g.items(bytes(self.body.data[8 if self.body.kind == CIRCUIT else 4:]))):
                self.lines.insert(1, "# code 7 is written SQRT_X, an eighth turn further: Stim does not know a phase")
        else:
            self._declared(strings)
        self.ops(self.program.ops, 0)
        return "\n".join(self.lines) + "\n"

    def _declared(self, strings: str) -> None:
        width, count = self.body.width, self.program.count
        if self.format == "qasm2":
            self.lines += ["OPENQASM 2.0;", 'include "qelib1.inc";', f"// {strings}", f"qreg q[{width}];"] + [f"creg c[{count}];"] * (count > 0)
        else:
            self.lines += ["OPENQASM 3.0;", 'include "stdgates.inc";', f"// {strings}", f"qubit[{width}] q;"] + [f"bit[{count}] c;"] * (count > 0)

    def ops(self, ops: Tuple[Op, ...], depth: int) -> None:
        for op in ops:
            if isinstance(op, Repeat):
                self._repeat(op, depth)
            elif isinstance(op, Measure):
                self._line(depth, self._measured(op.wire))
                self.bit += 1
            elif isinstance(op, Item):
                for name, wires in steps(op, self.edition):
                    self._line(depth, self._gate(name, wires))

    def _line(self, depth: int, text: str) -> None:
        self.lines.append("  " * depth + text)
        if len(self.lines) > MOST_LINES:
            raise CannotRead("", f"more than {MOST_LINES} lines")

    def _gate(self, name: str, wires: Tuple[int, ...]) -> str:
        if self.format == "stim":
            return " ".join([STIM["sx" if name == "rx(pi/2)" else name], *map(str, wires)])
        return f"{name} {', '.join(f'q[{wire}]' for wire in wires)};"

    def _measured(self, wire: int) -> str:
        if self.format == "stim":
            return f"M {wire}"
        return f"measure q[{wire}] -> c[{self.bit}];" if self.format == "qasm2" else f"c[{self.bit}] = measure q[{wire}];"

    def _repeat(self, op: Repeat, depth: int) -> None:
        """A block, written out where the format has none, or where each run measures into bits of its own."""
        if self.format == "qasm2" or self.format == "qasm3" and measured(op.ops):
            for _ in range(op.times):
                self.ops(op.ops, depth)
            return
        self._line(depth, f"REPEAT {op.times} {{" if self.format == "stim" else f"for uint i{depth} in [1:{op.times}] {{")
        self.ops(op.ops, depth + 1)
        self._line(depth, "}")


def written(body: Body, edition: int, format: str) -> str:
    """A body as text: qasm2, qasm3 or stim.

    >>> from .circuit import Circuit
    >>> print(written(Body.of(Circuit(2).h(0).cx(0, 1), 0, 3), 2, "qasm2"), end="")
    OPENQASM 2.0;
    include "qelib1.inc";
    // topaz: input 00 output 11
    qreg q[2];
    h q[0];
    cx q[0], q[1];
    """
    return Writer(body, edition, format).text()
