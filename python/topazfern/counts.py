"""A processor's counts beside ideal chances: total variation distance, and the G-test with its p-value."""
from __future__ import annotations

import json
import math
from typing import Any, Dict, List, NamedTuple, Optional, Sequence, Tuple

from .program import Program
from .refusals import CannotRead

FEWEST_EXPECTED = 5  # counts of a string, below which the G-test is not to be relied on
MOST_COUNTS = 10 ** 15  # of a string, so that doubles hold them
EPSILON = 1e-15
TINY = 1e-300


def upper_gamma(a: float, x: float) -> float:
    """The regularised upper incomplete gamma function Q(a, x): by its series below a + 1, by its continued fraction beyond.

    >>> round(upper_gamma(0.5, 1.920729410), 6), upper_gamma(1, 0)
    (0.05, 1.0)
    """
    if x <= 0:
        return 1.0
    scale = a * math.log(x) - x - math.lgamma(a)
    if x < a + 1:
        term = total = 1 / a
        n = a
        while abs(term) > abs(total) * EPSILON:
            n += 1
            term *= x / n
            total += term
        return max(0.0, 1 - total * math.exp(scale))
    b = x + 1 - a
    c, d = 1 / TINY, 1 / b
    value, i = d, 0
    while i < 10_000_000:
        i += 1
        factor = -i * (i - a)
        b += 2
        d = 1 / (factor * d + b or TINY)
        c = b + factor / c or TINY
        value *= d * c
        if abs(d * c - 1) < EPSILON:
            break
    return value * math.exp(scale) if scale > -745 else 0.0


def counts_of(text: str, path: str) -> Dict[str, int]:
    """The counts of a JSON text: strings to whole numbers, at the top or under "counts"; keys may be hex, as Qiskit writes them.

    >>> counts_of('{"counts": {"00": 3, "11": 5}}', "c.json")
    {'00': 3, '11': 5}
    """
    def once(pairs: List[Tuple[str, Any]]) -> Dict[str, Any]:
        found = dict(pairs)
        if len(found) != len(pairs):
            twice = next(key for n, (key, _) in enumerate(pairs) if key in dict(pairs[:n]))
            raise CannotRead(repr(twice), "stands twice; add its counts up", path=path)
        return found

    try:
        data = json.loads(text, object_pairs_hook=once)
    except json.JSONDecodeError as error:
        raise CannotRead("", f"not JSON: {error.msg}", error.lineno, path) from None
    except ValueError:
        raise CannotRead("", "a number that is too long", path=path) from None
    except RecursionError:
        raise CannotRead("", "nested too deeply to be read", path=path) from None
    if isinstance(data, dict) and isinstance(data.get("counts"), dict):
        data = data["counts"]
    if not isinstance(data, dict) or not data:
        raise CannotRead("", 'no counts: write {"00": 512, "11": 488}', path=path)
    for key, value in data.items():
        if isinstance(value, bool) or not isinstance(value, int) or not 0 <= value <= MOST_COUNTS:
            raise CannotRead(repr(key), f"{json.dumps(value)[:40]} is not a count; write a whole number", path=path)
    if not sum(data.values()):
        raise CannotRead("", "all counts are 0; there is nothing to compare", path=path)
    return data


class Row(NamedTuple):
    """An output: its text, how often it was counted, and its e (None where it cannot occur)."""

    text: str
    counted: int
    power: Optional[int]


class Comparison(NamedTuple):
    """Counts beside chances."""

    rows: List[Row]
    runs: int
    spread: int  # two to this many outputs can occur
    distance: float
    forbidden: int  # counts of outputs that cannot occur
    g: float
    freedom: int
    p: float

    @property
    def expected(self) -> float:
        """How often each output that can occur is expected.

        >>> Comparison([], 100, 2, 0, 0, 0, 3, 1).expected
        25.0
        """
        return self.runs / 2.0 ** self.spread


def bits_of(program: Program, key: str, path: str) -> List[int]:
    """The bits of a key of the counts.

    >>> bits_of(Program("", 2, []), "0x1", "c.json")
    [1, 0]
    """
    if key[:2].lower() == "0x":
        try:
            number = int(key, 16)
        except ValueError:
            raise CannotRead(repr(key), "neither a string of 0 and 1 nor a hex number", path=path) from None
        if number >> program.letters:
            raise CannotRead(repr(key), f"has more than the {program.letters} bits of {program.path}", path=path)
        return [number >> bit & 1 for bit in range(program.letters)]
    try:
        return program.bit_of(key)
    except CannotRead as error:
        raise CannotRead(repr(key), error.words, path=path) from None


def compared(program: Program, counts: Dict[str, int], start: int, path: str = "") -> Comparison:
    """Counts beside the ideal chances of a program from an input string.

    All outputs of Clifford gates and measurements that can occur have one chance, so that those that were not counted need no call.

    >>> from .qasm import read
    >>> bell = read("OPENQASM 3; qubit[2] q; h q[0]; cx q[0], q[1];")
    >>> found = compared(bell, {"00": 60, "11": 40}, 0)
    >>> found.spread, round(found.distance, 3), found.forbidden, round(found.p, 4)
    (1, 0.1, 0, 0.0448)
    """
    rows: Dict[str, Row] = {}
    for key, counted in counts.items():
        bits = bits_of(program, key, path)
        text = program.text_of(bits)
        if text in rows:
            raise CannotRead(repr(key), "stands twice, written in two ways; add its counts up", path=path)
        rows[text] = Row(text, counted, program.power(bits, start))
    runs = sum(counts.values())
    spread = next((row.power for row in rows.values() if row.power is not None), None)
    if spread is None:
        spread = program.spread(start)
    possible = [row.counted for row in rows.values() if row.power is not None]
    forbidden = runs - sum(possible)
    chance = 0.5 ** spread
    unseen = max(0.0, 1 - len(possible) * chance)
    distance = (sum(abs(counted / runs - chance) for counted in possible) + forbidden / runs + unseen) / 2
    g, freedom = g_statistic(possible, spread), (1 << spread) - 1
    p = upper_gamma(freedom / 2, g / 2) if freedom else 1.0
    return Comparison(sorted(rows.values()), runs, spread, distance, forbidden, g, freedom, p)


def g_statistic(counts: Sequence[int], spread: int) -> float:
    """G of counts against equal chances on two to `spread` outputs.

    >>> round(g_statistic([60, 40], 1), 4)
    4.0271
    """
    runs = sum(counts)
    return max(0.0, 2 * sum(count * (math.log(count / runs) + spread * math.log(2)) for count in counts if count)) if runs else 0.0


def verdict(found: Comparison, alpha: float, allowed: float) -> Tuple[bool, str]:
    """Whether counts agree, and the line that says so.

    >>> verdict(Comparison([], 100, 1, 0.1, 0, 4.03, 1, 0.0448), 0.01, 0.0)
    (True, 'agrees: no string that cannot occur was counted, and p = 0.0448 is not below 0.01')
    """
    share = found.forbidden / found.runs
    if share > allowed:
        return False, f"DIFFERS: {found.forbidden} of {found.runs} counts are of strings that cannot occur" + (
            f", more than the allowed share {allowed:g}" if allowed else "")
    none = "no string that cannot occur was counted" if not found.forbidden else f"strings that cannot occur have a share of {share:.4g}, allowed {allowed:g}"
    if found.freedom == 0:
        return True, f"agrees: {none}, and only one string can occur"
    if found.expected < FEWEST_EXPECTED:
        return False, f"UNDECIDED: {none}, but {found.expected:.3g} counts a string are too few for the G-test, which wants {FEWEST_EXPECTED}"
    if found.p < alpha:
        return False, f"DIFFERS: {none}, but p = {found.p:.3g} is below {alpha:g}"
    return True, f"agrees: {none}, and p = {found.p:.3g} is not below {alpha:g}"
