"""The shared library: where it is found, and its calls with the types of include/topazfern.h.

It is looked for in this order, and the first that is there is taken:

1. the file that the environment variable ``TOPAZFERN_LIBRARY`` names, and then no other;
2. ``libtopazfern.so`` beside this file, where ``python/make-library`` puts it (pip takes it along);
3. ``libtopazfern.so`` where the system keeps its libraries.
"""
from __future__ import annotations

import ctypes
import os
from ctypes import POINTER, c_char_p, c_int32, c_size_t, c_uint8, c_uint16, c_uint32, c_uint64, c_void_p
from pathlib import Path
from typing import Any, Callable, Dict, NamedTuple, Optional, Tuple

from .refusals import Missing, NoLibrary, taken

FILE = "libtopazfern.so"
BESIDE = Path(__file__).resolve().parent / FILE
VARIABLE = "TOPAZFERN_LIBRARY"
LISTING_MAX = 312

_slice = (c_char_p, c_size_t)  # bytes that are only read, and how many
_area = (c_void_p, c_size_t)  # bytes that are written, and how many
_circuit = (c_uint8, c_uint8, *_slice)  # edition, width, gates
_words = (POINTER(c_uint64), c_size_t)
_amount = (POINTER(c_uint8), POINTER(c_int32), POINTER(c_uint8))  # zero, power, phase
_body = (POINTER(c_uint8), POINTER(c_size_t), POINTER(c_size_t), *_amount)  # kind, live, ties, and the amount
_count = (POINTER(c_size_t),)
_element = (POINTER(c_uint8),)

#: Each call's parameters; it answers a number of refusal, a listing its length. A new call needs a line here and a method that uses it.
CALLS: Dict[str, Tuple[Any, ...]] = {
    "topazfern_amplitude": (c_uint8, c_uint8, c_uint32, c_uint32, *_slice, *_amount),
    "topazfern_chance": (c_uint8, c_uint32, *_slice, POINTER(c_uint8), POINTER(c_uint32)),
    "topazfern_tableau": (*_circuit, *_words, c_uint64, POINTER(c_uint8)),
    "topazfern_tableau_of": (*_circuit, *_words, POINTER(c_uint64)),
    "topazfern_same": (*_circuit, *_circuit, POINTER(c_uint8)),
    "topazfern_common_phase": (*_circuit, *_circuit, POINTER(c_uint8), POINTER(c_uint8)),
    "topazfern_listing": (*_slice, *_area),
    "topazfern_listing_strict": (*_slice, *_area),
    "topazfern_read": (*_slice, c_size_t, *_body),
    "topazfern_read_strict": (*_slice, c_size_t, *_body),
    "topazfern_entry": (*_slice, c_uint8, c_uint64, *_amount),
    "topazfern_lay": (*_area, c_uint8, *_slice, *_slice, POINTER(c_uint16), c_size_t, *_count),
    "topazfern_write": (*_slice, c_uint8, *_area, c_size_t, *_count),
    "topazfern_remove": (*_area, c_size_t, c_size_t, *_count),
    "topazfern_replace": (*_area, c_size_t, c_size_t, c_uint8, c_uint8, *_slice, *_count),
    "topazfern_add": (*_area, c_size_t, c_uint8, c_uint8, *_slice, *_count),
    "topazfern_product": (c_uint8, c_uint8, *_element),
    "topazfern_inverse": (c_uint8, *_element),
    "topazfern_closing": (*_slice, *_element),
}
ANSWERS_A_LENGTH = ("topazfern_listing", "topazfern_listing_strict")


class Library:
    """A loaded library; a call that it does not have is an error that names it."""

    def __init__(self, path: str) -> None:
        self.path = path
        self._dll = ctypes.CDLL(path)
        self._calls: Dict[str, Callable[..., int]] = {}

    def has(self, name: str) -> bool:
        """Whether this library has a call.

        >>> load().has("topazfern_listing"), load().has("topazfern_no_such_call")
        (True, False)
        """
        return hasattr(self._dll, name)

    def call(self, name: str) -> Callable[..., int]:
        """The call of a name.

        >>> load().call("topazfern_inverse") is load().call("topazfern_inverse")
        True
        """
        if name not in self._calls:
            try:
                found = getattr(self._dll, name)
            except AttributeError:
                raise Missing(name, self.path) from None
            found.argtypes = CALLS[name]
            found.restype = c_size_t if name in ANSWERS_A_LENGTH else c_uint8
            self._calls[name] = found
        return self._calls[name]


_loaded: Optional[Library] = None


def find() -> Optional[str]:
    """The file that would be loaded by the rule above, or None where the system has to look.

    >>> find() in (None, os.environ.get(VARIABLE), str(BESIDE))
    True
    """
    named = os.environ.get(VARIABLE)
    if named:
        return named
    return str(BESIDE) if BESIDE.is_file() else None


def load() -> Library:
    """The library, loaded once.

    >>> load() is load()
    True
    """
    global _loaded
    if _loaded is None:
        path = find() or FILE
        try:
            _loaded = Library(path)
        except OSError as error:
            raise NoLibrary(f"no shared library: {error}. In a clone, python/make-library makes it; else let {VARIABLE} name the file") from None
    return _loaded


def ask(name: str, *given: Any, place: str = "") -> None:
    """Makes a call that answers a number of refusal, and raises it where it is not 0.

    >>> ask("topazfern_inverse", 24, ctypes.byref(c_uint8()))
    Traceback (most recent call last):
    topazfern.refusals.Refused: refused 3: a number is out of range: the second byte of a one-wire gate is not 0, an outcome is neither 0 nor 1, a block's count is 0, a mark has a stray byte, or a one-wire element is above 23
    """
    taken(load().call(name)(*given), place)


class Amount(NamedTuple):
    """An exact value: zero, or the square root of two to a power, turned by a phase in eighths."""

    zero: bool
    power: int
    phase: int

    @property
    def chance(self) -> float:
        """The squared size: of an amplitude, the chance of its output.

        >>> Amount(False, -1, 3).chance
        0.5
        """
        return 0.0 if self.zero else 2.0 ** self.power

    def __complex__(self) -> complex:
        """The nearest complex number, for showing.

        >>> complex(Amount(False, 0, 2))
        1j
        """
        if self.zero:
            return 0j
        turn = (1, 1 + 1j, 1j, -1 + 1j, -1, -1 - 1j, -1j, 1 - 1j)[self.phase]
        power = self.power - self.phase % 2
        size = 2.0 ** (power // 2) * (2 ** 0.5 if power % 2 else 1)
        return complex(turn) * size

    def __str__(self) -> str:
        """As a listing has it.

        >>> print(Amount(False, -1, 0), Amount(True, 0, 0), sep=", ")
        -1 0, zero
        """
        return "zero" if self.zero else f"{self.power} {self.phase}"


class Told:
    """Room for an amount behind three pointers."""

    def __init__(self) -> None:
        self.zero, self.power, self.phase = c_uint8(), c_int32(), c_uint8()

    @property
    def pointers(self) -> Tuple[Any, Any, Any]:
        """What a call writes through.

        >>> len(Told().pointers)
        3
        """
        return ctypes.byref(self.zero), ctypes.byref(self.power), ctypes.byref(self.phase)

    @property
    def amount(self) -> Amount:
        """What was written.

        >>> print(Told().amount)
        0 0
        """
        return Amount(bool(self.zero.value), self.power.value, self.phase.value)


def element(name: str, *given: Any) -> int:
    """A call that answers a one-wire element.

    >>> element("topazfern_product", 1, 2)
    3
    """
    told = c_uint8()
    ask(name, *given, ctypes.byref(told))
    return told.value
