"""The gates of OpenQASM and Stim that a book can express, each as gates of a book with its phase; docs/FORMATS.md lists them."""
from __future__ import annotations

import math
from typing import Dict, List, Optional, Sequence, Tuple

from .program import Gate, Op, Phase

Steps = Sequence[Tuple[str, Tuple[int, ...]]]

#: Each gate as steps on its operands, the first applied first; exact, phase included.
FIXED: Dict[str, Steps] = {
    **{name: ((name, (0,)),) for name in ("h", "s", "sdg", "z", "x", "y", "id")},
    **{name: ((name, (0, 1)),) for name in ("cz", "cx", "swap")},
    "sx": (("root_x", (0,)),),
    "sxdg": (("h", (0,)), ("sdg", (0,)), ("h", (0,))),
    "cy": (("sdg", (1,)), ("cx", (0, 1)), ("s", (1,))),
}
QASM_NAMES = {"CX": "cx", "cnot": "cx", "i": "id"}
STIM_NAMES = {
    "I": "id", "X": "x", "Y": "y", "Z": "z", "H": "h", "H_XZ": "h", "S": "s", "SQRT_Z": "s", "S_DAG": "sdg", "SQRT_Z_DAG": "sdg", "SQRT_X": "sx",
    "SQRT_X_DAG": "sxdg", "CX": "cx", "CNOT": "cx", "ZCX": "cx", "CY": "cy", "ZCY": "cy", "CZ": "cz", "ZCZ": "cz", "SWAP": "swap",
}
#: Gates with an angle, which must be a multiple of a quarter turn.
TURNING = ("p", "u1", "phase", "rz", "rx", "ry")
QUARTERS = ("id", "s", "z", "sdg")
CLOSE = 1e-9  # how near to a multiple of a quarter turn an angle has to be

NOT_CLIFFORD = {"t", "tdg", "ccx", "ccz", "cswap", "ch", "cs", "csdg", "csx", "cp", "cu1", "cphase", "crx", "cry", "crz", "cu", "cu3", "rxx", "ryy", "rzz",
                "rzx", "rccx", "rc3x", "c3x", "c4x", "c3sqrtx", "u0"}
OTHER_CLIFFORD = {"iswap", "dcx", "ecr", "U", "u", "u2", "u3"}


def quarters(angle: float) -> Optional[int]:
    """How many quarter turns an angle is, or None where it is no multiple of one.

    >>> quarters(math.pi), quarters(-math.pi / 2), quarters(math.pi / 4)
    (2, -1, None)
    """
    count = round(angle / (math.pi / 2)) if math.isfinite(angle) and abs(angle) < 1e6 else 0
    return count if abs(angle - count * math.pi / 2) <= CLOSE else None


def applied(name: str, wires: Sequence[int]) -> List[Op]:
    """A fixed gate on wires.

    >>> applied("cy", [3, 5])
    [Gate(name='sdg', wires=(5,)), Gate(name='cx', wires=(3, 5)), Gate(name='s', wires=(5,))]
    """
    return [Gate(step, tuple(wires[operand] for operand in operands)) for step, operands in FIXED[name]]


def turned(name: str, count: int, wire: int) -> List[Op]:
    """A gate with an angle of so many quarter turns: phase gates diag(1, i^k), rotations with their eighth turns.

    >>> turned("rz", 1, 0)
    [Gate(name='s', wires=(0,)), Phase(eighths=7)]
    >>> turned("rx", 1, 0)
    [Gate(name='quarter_x', wires=(0,))]
    """
    plain = Gate(QUARTERS[count % 4], (wire,))
    turn = [Phase(-count % 8)] if count % 8 else []
    if name in ("p", "u1", "phase"):
        return [plain]
    if count % 4 == 0 or name == "rz":
        return [plain, *turn]
    if count % 4 == 2:  # a half turn about X or Y is that gate with its eighths
        return [Gate(name[1], (wire,)), *turn]
    about_x: List[Op] = [Gate("h", (wire,)), plain, Gate("h", (wire,)), *turn]
    if count % 4 == 1:
        about_x = [Gate("quarter_x", (wire,)), *([Phase(4)] if count % 8 == 5 else [])]
    return about_x if name == "rx" else [Gate("sdg", (wire,)), *about_x, Gate("s", (wire,))]


INVERSE = {"s": "sdg", "sdg": "s"}


def inverted(ops: Sequence[Op]) -> List[Op]:
    """What undoes gates and phases.

    >>> inverted([Gate("h", (0,)), Gate("s", (0,)), Phase(1)])
    [Phase(eighths=7), Gate(name='sdg', wires=(0,)), Gate(name='h', wires=(0,))]
    """
    undone: List[Op] = []
    for op in reversed(ops):
        if isinstance(op, Phase):
            undone.append(Phase(-op.eighths % 8))
        elif isinstance(op, Gate) and op.name in ("root_x", "quarter_x"):
            undone += applied("sxdg", op.wires)
            undone += [Phase(1)] if op.name == "quarter_x" else []
        elif isinstance(op, Gate):
            undone.append(Gate(INVERSE.get(op.name, op.name), op.wires))
        else:
            raise ValueError("only gates can be undone")
    return undone
