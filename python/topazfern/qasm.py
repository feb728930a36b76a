"""OpenQASM 2 and 3: a file of Clifford gates and measurements read as a program. What it cannot express is refused by name and line."""
from __future__ import annotations

from typing import Callable, Dict, List, Set, Tuple

from . import gates as g
from .program import MOST_WRITTEN_OUT, Measure, Op, Program, Repeat
from .qasm_gates import Call, Definition, Gates
from .refusals import CannotRead

#: Statements that a book has nothing for, each with what to do.
REFUSED = {
    "if": "a book has no gate that depends on an outcome; write a record for each outcome",
    "while": "a book has no loop that depends on an outcome", "switch": "a book has no gate that depends on an outcome",
    "def": "subroutines are not read; write a gate, or the gates themselves", "extern": "outside calls are not read",
    "opaque": "a gate without a body means nothing here", "let": "aliases are not read; name the qubits themselves",
    "input": "a program with open parameters is not a circuit yet; fill them in", "output": "output variables are not read; leave the line out",
    "delay": "a book has no time; leave the line out", "box": "a book has no time; leave the box out", "stretch": "a book has no time",
    "duration": "a book has no time", "cal": "pulses are not read", "defcal": "pulses are not read", "defcalgrammar": "pulses are not read",
    "return": "subroutines are not read", "end": "a circuit runs to its end", "break": "loops run to their end", "continue": "loops run to their end",
    **{kind: "variables are not read; write const, or the number itself" for kind in ("int", "uint", "float", "angle", "bool", "complex", "array")},
}
#: Statements that begin with a word, each read by the method of that name.
STATEMENTS = ("OPENQASM", "include", "qreg", "creg", "qubit", "bit", "const", "barrier", "reset", "measure", "for", "gate")
ONLY_3 = ("qubit", "bit", "for", "const", "inv", "ctrl", "negctrl", "pow", "gphase", "let", "def")

MOST_STATEMENTS = 200_000


class Reader(Gates):
    """One file, read statement by statement."""

    def __init__(self, source: str, path: str) -> None:
        super().__init__(source, path)
        self.bits: Dict[str, Tuple[int, int, bool]] = {}
        self.letters = 0
        self.places: List[int] = []  # each measurement's bit
        self.lines: Dict[int, int] = {}  # the line that measures into a bit
        self.touched: Set[int] = set()
        self.starts: Dict[int, int] = {}  # wires that are reset at the start
        self.depth, self.run = 0, 0  # of loops; statements

    def program(self) -> Program:
        ops: List[Op] = []
        while self.token.kind != "end":
            ops += self.statement()
        self.begins = self.at
        if not self.width:
            raise CannotRead("", "no qubits are declared, so there is no circuit", path=self.path)
        program = Program(self.path, self.width, ops, self.places, self.letters)
        program.notes, program.starts = self.notes, self.starts
        program.input, program.output = self.strings.get("input"), self.strings.get("output")
        return program

    def statement(self) -> List[Op]:
        self.begins = self.at
        self.run += 1
        if self.run > MOST_STATEMENTS:
            self.bad(f"more than {MOST_STATEMENTS} statements are run")
        word = self.token.text
        if self.token.kind != "name" and word not in (";", "@", "{"):
            self.bad("not a statement", word)
        if self.version == 2 and word in ONLY_3 and self.tokens[self.at + 1].text not in ("=", "->"):
            self.bad(f"OpenQASM 2 has no {word}; say OPENQASM 3 in the first line")
        if word in REFUSED:
            self.bad(REFUSED[word])
        if word == ";":
            self.at += 1
            return []
        if word == "@":
            return self._annotation()
        if word == "{":
            return self.block()
        if word in STATEMENTS:
            return getattr(self, "read_" + word)()
        return self.read_assignment() if self._after_operand() == "=" else self.read_gate_call()

    def _annotation(self) -> List[Op]:
        line = self.token.line
        while self.token.line == line and self.token.kind != "end":
            self.at += 1
        self.notes["annotation"] += 1
        return []

    def _after_operand(self) -> str:
        """The token behind a name and its brackets."""
        at = self.at + 1
        if self.tokens[at].text == "[":
            while self.tokens[at].text not in ("]", ";") and self.tokens[at].kind != "end":
                at += 1
            at += 1
        return self.tokens[min(at, len(self.tokens) - 1)].text

    def block(self) -> List[Op]:
        """Statements between braces, or a single one."""
        if not self.has("{"):
            return self.statement()
        ops: List[Op] = []
        self.depth += 1
        while not self.has("}"):
            if self.token.kind == "end":
                self.bad("'}' is missing at the end")
            ops += self.statement()
        self.depth -= 1
        return ops

    def read_OPENQASM(self) -> List[Op]:
        self.at += 1
        version = self.next().text
        if self.begins != 0:
            self.bad("the version must stand first")
        if version.split(".")[0] not in ("2", "3"):
            self.bad("OpenQASM 2 and 3 are read")
        self.version = int(version[0])
        self.need(";")
        return []

    def read_include(self) -> List[Op]:
        self.at += 1
        name = self.next().text.strip("\"'")
        if name not in ("qelib1.inc", "stdgates.inc"):
            self.bad("only qelib1.inc and stdgates.inc are known; put what the file defines here")
        self.need(";")
        return []

    def _declared(self, kept: Dict[str, Tuple[int, int, bool]], name: str, size: int, register: bool, first: int) -> None:
        if self.depth:
            self.bad("a declaration inside a loop")
        if name in self.qubits or name in self.bits:
            self.bad(f"{name} is declared twice")
        if size < 1:
            self.bad(f"a size of {size}")
        kept[name] = (first, size, register)

    def _qubits(self, name: str, size: int, register: bool) -> None:
        if any(known.startswith("$") for known in self.qubits):
            self.bad("hardware qubits and declared ones in one file")
        self._declared(self.qubits, name, size, register, self.width)
        self.width += size
        if self.width > g.MOST_WIRES:
            self.bad(f"{self.width} qubits: a book has at most {g.MOST_WIRES} wires")

    def _bits(self, name: str, size: int, register: bool) -> None:
        self._declared(self.bits, name, size, register, self.letters)
        self.letters += size
        if self.letters > MOST_WRITTEN_OUT:
            self.bad(f"more than {MOST_WRITTEN_OUT} bits")

    def _old(self, declare: Callable[[str, int, bool], None]) -> List[Op]:
        """`qreg q[3];` and `creg c[3];`"""
        self.at += 1
        name, size = self.name(), 1
        if self.has("["):
            size = self.whole()
            self.need("]")
        declare(name, size, True)
        self.need(";")
        return []

    def read_qreg(self) -> List[Op]:
        return self._old(self._qubits)

    def read_creg(self) -> List[Op]:
        return self._old(self._bits)

    def _new(self, declare: Callable[[str, int, bool], None]) -> str:
        """`qubit[3] q` and `bit[3] c`"""
        self.at += 1
        size, register = 1, self.has("[")
        if register:
            size = self.whole()
            self.need("]")
        name = self.name()
        declare(name, size, register)
        return name

    def read_qubit(self) -> List[Op]:
        self._new(self._qubits)
        self.need(";")
        return []

    def read_bit(self) -> List[Op]:
        name = self._new(self._bits)
        if self.has(";"):
            return []
        self.need("=")
        if self.token.text != "measure":
            self.bad("a bit gets its value by a measurement only")
        first, size, _ = self.bits[name]
        return self._measured(list(range(first, first + size)))

    def read_const(self) -> List[Op]:
        self.at += 1
        self.name()
        if self.has("["):
            self.whole()
            self.need("]")
        name = self.name()
        self.need("=")
        self.known[name] = self.value()(self.known)
        self.need(";")
        return []

    def read_barrier(self) -> List[Op]:
        while not self.has(";"):
            if self.next().kind == "end":
                self.bad("';' is missing at the end")
        self.notes["barrier"] += 1
        return []

    def read_reset(self) -> List[Op]:
        self.at += 1
        for wire in self.operand(self.qubits, "qubit"):
            if wire in self.touched or self.depth:
                self.bad("a reset behind a gate is no gate of a book; only at the start of a file")
            self.starts[wire] = self.tokens[self.begins].line
        self.need(";")
        self.notes["reset at the start"] += 1
        return []

    def read_measure(self) -> List[Op]:
        """`measure q -> c;`"""
        self.at += 1
        wires = self.operand(self.qubits, "qubit")
        if not self.has("->"):
            self.bad("the outcome goes nowhere; give it a bit, as in c = measure q")
        bits = self.operand(self.bits, "bit")
        self.need(";")
        return self._into(wires, bits)

    def read_assignment(self) -> List[Op]:
        """`c = measure q;`"""
        bits = self.operand(self.bits, "bit")
        self.need("=")
        if self.token.text != "measure":
            self.bad("a bit gets its value by a measurement only")
        return self._measured(bits)

    def _measured(self, bits: List[int]) -> List[Op]:
        self.at += 1
        wires = self.operand(self.qubits, "qubit")
        self.need(";")
        return self._into(wires, bits)

    def _into(self, wires: List[int], bits: List[int]) -> List[Op]:
        if len(wires) != len(bits):
            self.bad(f"{len(wires)} qubits are measured into {len(bits)} bits")
        line = self.tokens[self.begins].line
        for bit in bits:
            if bit in self.lines:
                self.bad(f"the bit was measured into before, on line {self.lines[bit]}; give each measurement a bit of its own")
            self.lines[bit] = line
        self.places += bits
        self.touched.update(wires)
        return [Measure(wire) for wire in wires]

    def read_for(self) -> List[Op]:
        """A loop: a block where its body does not speak of the variable, else written out."""
        self.at += 1
        kind = self.name()
        if kind not in ("int", "uint"):
            self.bad("a loop runs over int or uint")
        if self.has("["):
            self.whole()
            self.need("]")
        variable = self.name()
        self.need("in")
        if self.has("{"):
            values = [self.whole()]
            while self.has(","):
                values.append(self.whole())
            self.need("}")
        else:
            self.need("[")
            values = self.range(-1)
            self.need("]")
        return self._looped(variable, values)

    def _looped(self, variable: str, values: List[int]) -> List[Op]:
        start, kept = self.at, self.known
        self._past_block()
        end = self.at
        speaks = any(token.text == variable or token.text == "measure" for token in self.tokens[start:end])
        ops: List[Op] = []
        self.depth += 1
        for number in values if speaks else values[:1]:
            self.at, self.known = start, {**kept, variable: number}
            ops += self.block()
            self._count(len(ops))
        self.at, self.known = end, kept
        self.depth -= 1
        return ops if speaks or not ops else [Repeat(len(values), tuple(ops))]

    def _past_block(self) -> None:
        """Goes to the end of a body without reading it."""
        braces = 0
        while True:
            token = self.next()
            braces += (token.text == "{") - (token.text == "}")
            if token.kind == "end":
                self.bad("a loop that does not end")
            if braces == 0 and token.text in (";", "}"):
                return

    def read_gate(self) -> List[Op]:
        """`gate name(angles) operands { calls }`"""
        if self.depth:
            self.bad("a gate is defined inside a loop")
        self.at += 1
        name, angles = self.name(), []
        if self.has("("):
            while not self.has(")"):
                angles.append(self.name())
                self.has(",")
        formal = [self.name()]
        while self.has(","):
            formal.append(self.name())
        self.need("{")
        calls: List[Call] = []
        while not self.has("}"):
            self.begins = self.at
            if self.token.kind == "end":
                self.bad("'}' is missing at the end")
            if self.token.text == "barrier":
                self.read_barrier()
            else:
                calls.append(self.inner_call(formal))
        self.gates[name] = Definition(tuple(angles), len(formal), tuple(calls))
        return []

    def read_gate_call(self) -> List[Op]:
        changes, name, angles = self.head()
        self.look_up(name, len(angles))
        operands = [] if name == "gphase" and self.token.text == ";" else self.operands()
        self.need(";")
        ops: List[Op] = []
        call = Call(name, tuple(angles), tuple(range(len(operands))), tuple(changes), self.what(), self.tokens[self.begins].line)
        for wires in self.spread(operands) if operands else [()]:
            ops += self.applied(call, wires, self.known)
        self.touched.update(wire for operand in operands for wire in operand)
        return ops


def read(source: str, path: str = "") -> Program:
    """An OpenQASM text as a program.

    >>> program = read("OPENQASM 2.0; qreg q[2]; creg c[2]; h q[0]; cx q[0], q[1]; measure q -> c;")
    >>> program.width, program.count, program.power([1, 1])
    (2, 2, 1)
    >>> read('OPENQASM 3; qubit[2] q;\\nt q[1];', "a.qasm")
    Traceback (most recent call last):
    topazfern.refusals.CannotRead: a.qasm: line 2: t q[1]: not a Clifford gate
    """
    try:
        return Reader(source, path).program()
    except RecursionError:
        raise CannotRead("", "nested too deeply to be read", path=path) from None
