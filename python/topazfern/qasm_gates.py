"""OpenQASM by its gates: operands, definitions and modifiers, and what they come to in a book."""
from __future__ import annotations

from typing import Any, Dict, List, NamedTuple, Optional, Sequence, Tuple

from .program import MOST_WRITTEN_OUT, Op, Phase
from .qasm_words import Value, Words
from .standard import FIXED, NOT_CLIFFORD, OTHER_CLIFFORD, QASM_NAMES, TURNING, applied, inverted, quarters, turned

MOST_CALLS = 200_000
NOT_IN_GATES = ("for", "measure", "reset", "if", "while", "gate", "def", "include", "qreg", "creg", "qubit", "bit")


class Call(NamedTuple):
    """A gate applied inside the definition of another."""

    name: str
    angles: Tuple[Value, ...]
    operands: Tuple[int, ...]
    changes: Tuple[Tuple[str, Optional[Value]], ...]
    what: str
    line: int


class Definition(NamedTuple):
    angles: Tuple[str, ...]
    operands: int
    calls: Tuple[Call, ...]


class Gates(Words):
    """The gates of a text, on the qubits that it declares."""

    def __init__(self, source: str, path: str) -> None:
        super().__init__(source, path)
        self.qubits: Dict[str, Tuple[int, int, bool]] = {}  # name: first wire, size, whether it is a register
        self.width, self.calls = 0, 0
        self.gates: Dict[str, Definition] = {}
        self._hardware()

    def _hardware(self) -> None:
        """Hardware qubits $n become wires in rising order."""
        named = sorted({int(token.text[1:]) for token in self.tokens if token.text.startswith("$")})
        for wire, number in enumerate(named):
            self.qubits[f"${number}"] = (wire, 1, False)
        self.width = len(named)
        if named and named != list(range(len(named))):
            self.notes["hardware qubits " + ", ".join(f"${n} is wire {w}" for w, n in enumerate(named))] += 1

    # ---- operands

    def indices(self, size: int) -> List[int]:
        """What stands between brackets: a number, a range or a set."""
        if self.has("{"):
            chosen = [self.whole()]
            while self.has(","):
                chosen.append(self.whole())
            self.need("}")
        else:
            chosen = self.range(size - 1)
        self.need("]")
        for index in chosen:
            if not -size <= index < size:
                self.bad(f"index {index} is beyond {size}")
        return [index % size for index in chosen]

    def range(self, last: int) -> List[int]:
        """`a`, `a:b` or `a:step:b`, both ends included."""
        parts = [0 if self.token.text == ":" else self.whole()]
        if self.token.text != ":":
            return parts
        while self.has(":"):
            parts.append(last if self.token.text in ("]", ":") else self.whole())
        first, step, end = (parts[0], 1, parts[1]) if len(parts) == 2 else (parts[0], parts[1], parts[2])
        end = end + last + 1 if end < 0 <= first and last >= 0 else end
        if step == 0 or len(parts) > 3:
            self.bad("not a range")
        if abs(end - first) // abs(step) > MOST_WRITTEN_OUT:
            self.bad(f"more than {MOST_WRITTEN_OUT} runs")
        return list(range(first, end + (1 if step > 0 else -1), step))

    def operand(self, kept: Dict[str, Tuple[int, int, bool]], kind: str) -> List[int]:
        name = self.name()
        if name not in kept:
            self.bad(f"no {kind} {name} is declared")
        first, size, register = kept[name]
        if self.has("["):
            if not register:
                self.bad(f"{name} is a single {kind}")
            return [first + index for index in self.indices(size)]
        return list(range(first, first + size))

    def operands(self) -> List[List[int]]:
        found = [self.operand(self.qubits, "qubit")]
        while self.has(","):
            found.append(self.operand(self.qubits, "qubit"))
        return found

    def spread(self, operands: Sequence[List[int]]) -> List[Tuple[int, ...]]:
        """Registers side by side: each operand has one size, or is a single qubit."""
        sizes = {len(operand) for operand in operands if len(operand) != 1}
        if len(sizes) > 1:
            self.bad("registers of different sizes")
        size = sizes.pop() if sizes else 1
        return [tuple(operand[at if len(operand) > 1 else 0] for operand in operands) for at in range(size)]

    # ---- gates

    def inner_call(self, formal: List[str]) -> Call:
        if self.token.text in NOT_IN_GATES:
            self.bad("a definition of a gate has gates only")
        changes, name, angles = self.head()
        operands: List[int] = []
        while name != "gphase" and (not operands or self.has(",")):
            operand = self.name()
            if operand not in formal:
                self.bad(f"{operand} is no operand of the gate")
            operands.append(formal.index(operand))
        self.need(";")
        self.look_up(name, len(angles))
        return Call(name, tuple(angles), tuple(operands), tuple(changes), self.what(), self.tokens[self.begins].line)

    def head(self) -> Tuple[List[Tuple[str, Optional[Value]]], str, List[Value]]:
        """Modifiers, the gate's name and its angles."""
        changes: List[Tuple[str, Optional[Value]]] = []
        while self.token.text in ("inv", "ctrl", "negctrl", "pow"):
            word, argument = self.next().text, None
            if self.has("("):
                argument = self.value()
                self.need(")")
            self.need("@")
            changes.append((word, argument))
        name, angles = self.name(), []
        if self.has("("):
            while not self.has(")"):
                angles.append(self.value())
                self.has(",")
        return changes, name, angles

    def look_up(self, name: str, angles: int) -> None:
        """Refuses a gate that is not known, by name."""
        if name in self.gates:
            if angles != len(self.gates[name].angles):
                self.bad(f"{name} takes {len(self.gates[name].angles)} angles")
            return
        known = QASM_NAMES.get(name, name)
        takes = 1 if known in TURNING or known == "gphase" else 0
        if known in FIXED or takes:
            if angles != takes:
                self.bad(f"{name} takes {takes} angles")
        elif name in NOT_CLIFFORD:
            self.bad("not a Clifford gate")
        elif name in OTHER_CLIFFORD:
            self.bad("not a gate that is read here; write it with the gates of docs/FORMATS.md")
        else:
            self.bad("an unknown gate; docs/FORMATS.md has those that are read")

    def applied(self, call: Call, wires: Sequence[int], names: Dict[str, Any]) -> List[Op]:
        """A call on wires, its modifiers taken from the last to the first."""
        on = [wires[operand] for operand in call.operands]
        self.calls += 1
        if self.calls > MOST_CALLS:
            self.bad(f"gates that call gates more than {MOST_CALLS} times")
        if len(set(on)) != len(on):
            self.bad("names the same qubit twice", call.what, call.line)
        name, changes = call.name, list(call.changes)
        while changes and changes[-1][0] in ("ctrl", "negctrl"):
            word, argument = changes.pop()
            if word == "negctrl" or name not in ("x", "y", "z") or (argument and argument(names) != 1):
                self.bad(f"only ctrl @ x, y and z are read, not {word} @ {name}", call.what, call.line)
            name = "c" + name
        ops = self.plain(call, name, on, names)
        for word, argument in reversed(changes):
            if word not in ("inv", "pow"):
                self.bad(f"{word} before another modifier is not read", call.what, call.line)
            ops = self.changed(call, ops, -1 if argument is None else argument(names))
        return ops

    def changed(self, call: Call, ops: List[Op], power: Any) -> List[Op]:
        if not isinstance(power, int) or abs(power) > MOST_WRITTEN_OUT:
            self.bad("a power that is not a whole number", call.what, call.line)
        one = ops if power >= 0 else inverted(ops)
        self._count(len(ops) * abs(power))
        return one * abs(power)

    def plain(self, call: Call, name: str, on: List[int], names: Dict[str, Any]) -> List[Op]:
        """A gate without its modifiers."""
        angles = [angle(names) for angle in call.angles]
        if name in self.gates:
            return self.expanded(call, self.gates[name], angles, on)
        known = QASM_NAMES.get(name, name)
        if known == "gphase":
            return [Phase(self.turns(call, 2 * angles[0]) % 8)]
        takes = 1 if known in TURNING else max(max(operands) for _, operands in FIXED[known]) + 1
        if len(on) != takes:
            self.bad(f"{name} takes {takes} qubits", call.what, call.line)
        return turned(known, self.turns(call, angles[0]), on[0]) if known in TURNING else applied(known, on)

    def turns(self, call: Call, angle: Any) -> int:
        count = quarters(float(angle))
        if count is None:
            least = "pi/4" if call.name == "gphase" else "pi/2"
            self.bad(f"not a Clifford gate: the angle is no multiple of {least}", call.what, call.line)
        return count

    def expanded(self, call: Call, definition: Definition, angles: List[Any], on: List[int]) -> List[Op]:
        if len(on) != definition.operands:
            self.bad(f"{call.name} takes {definition.operands} qubits", call.what, call.line)
        names = {**self.known, **dict(zip(definition.angles, angles))}
        ops: List[Op] = []
        for inner in definition.calls:
            ops += self.applied(inner, on, names)
            self._count(len(ops))
        return ops

    def _count(self, written: int) -> None:
        if written > MOST_WRITTEN_OUT:
            self.bad(f"more than {MOST_WRITTEN_OUT} gates are written out")
