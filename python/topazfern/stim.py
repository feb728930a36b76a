"""Stim's text: gates, REPEAT and M read as a program. What it cannot express is refused by name and line."""
from __future__ import annotations

import re
from collections import Counter
from typing import Dict, List, NoReturn, Tuple

from . import gates as g
from .program import MOST_WRITTEN_OUT, Measure, Op, Program, Repeat, measured
from .refusals import CannotRead
from .standard import FIXED, STIM_NAMES, applied

LINE = re.compile(r"(?P<name>[A-Za-z][A-Za-z0-9_]*)(?P<tag>\[[^\]]*\])?(?P<arguments>\([^)]*\))?(?P<targets>(?:\s.*)?)", re.S)
STRINGS = re.compile(r"#\s*topaz:\s*(.*)")
#: Lines that say nothing of the state.
REMARKS = ("TICK", "QUBIT_COORDS", "SHIFT_COORDS", "DETECTOR", "OBSERVABLE_INCLUDE")
NOISE = ("DEPOLARIZE1", "DEPOLARIZE2", "X_ERROR", "Y_ERROR", "Z_ERROR", "PAULI_CHANNEL_1", "PAULI_CHANNEL_2", "CORRELATED_ERROR", "E",
         "ELSE_CORRELATED_ERROR", "HERALDED_ERASE", "HERALDED_PAULI_CHANNEL_1", "I_ERROR", "II_ERROR")
MOST_RUNS = 1_000_000
NUMBER = re.compile("[0-9]{1,9}")


class Reader:
    """One file, line by line."""

    def __init__(self, source: str, path: str) -> None:
        self.path, self.line, self.what = path, 0, ""
        self.source = source
        self.notes: Counter = Counter()
        self.strings: Dict[str, str] = {}
        self.width, self.touched, self.starts = 0, set(), {}  # type: int, set, Dict[int, int]
        self.open: List[List[Op]] = [[]]
        self.counts: List[Tuple[int, int]] = []

    def bad(self, words: str) -> NoReturn:
        raise CannotRead(self.what, words, self.line, self.path)

    def program(self) -> Program:
        for number, line in enumerate(self.source.split("\n"), 1):
            said = STRINGS.match(line.strip())
            if said:
                words = said.group(1).split()
                self.strings.update(zip(words[::2], words[1::2]))
            self.line, self.what = number, " ".join(line.split("#")[0].split())
            if self.what:
                self.read()
        if self.counts:
            self.line, self.what = self.counts[-1][1], f"REPEAT {self.counts[-1][0]}"
            self.bad("a block that is not closed")
        if not self.width:
            raise CannotRead("", "no qubits are named, so there is no circuit", path=self.path)
        if measured(self.open[0]) > MOST_WRITTEN_OUT:
            raise CannotRead("", f"more than {MOST_WRITTEN_OUT} measurements, REPEAT written out", path=self.path)
        program = Program(self.path, self.width, self.open[0], first_left=True)
        program.notes, program.starts = self.notes, self.starts
        program.input, program.output = self.strings.get("input"), self.strings.get("output")
        return program

    def read(self) -> None:
        if self.what == "}":
            if not self.counts:
                self.bad("no block is open")
            block = tuple(self.open.pop())
            count = self.counts.pop()[0]
            if block:
                self.open[-1].append(Repeat(count, block))
            return
        found = LINE.fullmatch(self.what)
        if not found:
            self.bad("not a line of Stim")
        name, arguments, targets = found["name"].upper(), found["arguments"], found["targets"].split()
        if found["tag"]:
            self.notes["tag"] += 1
        if name == "REPEAT":
            self.repeat(targets)
        elif name in REMARKS:
            self.notes[name] += 1
            for target in targets if name == "QUBIT_COORDS" else ():
                self.wire(target)
        elif name in STIM_NAMES:
            self.gate(STIM_NAMES[name], name, arguments, targets)
        elif name in ("M", "MZ"):
            self.measure(arguments, targets)
        elif name in ("R", "RZ"):
            self.reset(targets)
        else:
            self.unknown(name)

    def unknown(self, name: str) -> NoReturn:
        if name in NOISE:
            self.bad("noise is outside; a book is of ideal gates")
        if name.startswith("MR") or name in ("RX", "RY"):
            self.bad("a reset is no gate of a book; only R at the start of a file")
        if name.startswith("M"):
            self.bad("only M is read; turn the wire by gates before and after")
        self.bad("not a gate that is read here; write it with the gates of docs/FORMATS.md")

    def repeat(self, targets: List[str]) -> None:
        if len(targets) != 2 or not NUMBER.fullmatch(targets[0]) or targets[1] != "{":
            self.bad("REPEAT wants a count and { at the end of the line")
        count = int(targets[0])
        if not 1 <= count <= MOST_RUNS:
            self.bad(f"a count of 1 to {MOST_RUNS} has to stand here")
        self.counts.append((count, self.line))
        self.open.append([])

    def wire(self, target: str) -> int:
        if target.startswith(("rec[", "sweep[")):
            self.bad(f"{target}: a book has no gate that depends on an outcome")
        if not NUMBER.fullmatch(target):
            self.bad(f"{target} is no qubit")
        wire = int(target)
        if wire >= g.MOST_WIRES:
            self.bad(f"qubit {wire}: a book has at most {g.MOST_WIRES} wires, 0 to {g.MOST_WIRES - 1}")
        self.width = max(self.width, wire + 1)
        return wire

    def gate(self, meaning: str, name: str, arguments: object, targets: List[str]) -> None:
        if arguments:
            self.bad(f"{name} takes no argument")
        wires = [self.wire(target) for target in targets]
        takes = max(max(operands) for _, operands in FIXED[meaning]) + 1
        if len(wires) % takes:
            self.bad(f"{name} takes qubits in pairs")
        for at in range(0, len(wires), takes):
            on = wires[at:at + takes]
            if len(set(on)) != takes:
                self.bad("names the same qubit twice")
            self.open[-1] += applied(meaning, on)
        self.touched.update(wires)

    def measure(self, arguments: object, targets: List[str]) -> None:
        if arguments:
            self.bad("a noisy measurement; noise is outside")
        for target in targets:
            wire = self.wire(target.lstrip("!"))
            self.open[-1].append(Measure(wire, target.count("!") % 2))
            self.touched.add(wire)

    def reset(self, targets: List[str]) -> None:
        for target in targets:
            wire = self.wire(target)
            if wire in self.touched or self.counts:
                self.bad("a reset behind a gate is no gate of a book; only at the start of a file")
            self.starts[wire] = self.line
        self.notes["R at the start"] += 1


def read(source: str, path: str = "") -> Program:
    """A text of Stim as a program; its outputs are in the order of the measurements, the first one first.

    >>> program = read("H 0\\nREPEAT 3 {\\n  CX 0 1\\n  M 1\\n}")
    >>> program.width, program.count, program.power([1, 0, 1])
    (2, 3, 1)
    >>> read("H 0\\nT 0", "a.stim")
    Traceback (most recent call last):
    topazfern.refusals.CannotRead: a.stim: line 2: T 0: not a gate that is read here; write it with the gates of docs/FORMATS.md
    """
    return Reader(source, path).program()
