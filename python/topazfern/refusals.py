"""Numbers of refusal in words, and the exceptions of this package."""
from __future__ import annotations

from typing import Optional

#: What each number says, as documents 01 and 02 have it.
WORDS = {
    1: "a slot is 64 or more, or free, or a mask or assignment has a bit that is not live",
    2: "a gate names the same wire twice",
    3: "a number is out of range: the second byte of a one-wire gate is not 0, an outcome is neither 0 nor 1, a block's count is 0, a mark has a "
       "stray byte, or a one-wire element is above 23",
    4: "no room for a bit: 64 are live",
    5: "the power of root two would leave -2,000..2,000",
    6: "the width of a circuit is not 1..31, or a wire is not below it",
    7: "unknown gate code",
    8: "a string has a bit at or above the width",
    9: "header: the book is shorter than 4 or longer than 60,000 bytes, or its letters, edition or count are wrong, or there would be more than 16 bodies",
    10: "contents: too short, or a body's kind, start or end is wrong, or the book would be longer than 60,000 bytes",
    11: "the body's length is wrong, it has more than 4,096 gates and marks, or a field is out of range",
    12: "the table is not normal",
    13: "the area is too short",
    14: "the book has no body of that number",
    15: "more than 20 live bits",
    16: "a block is unclosed, empty or unopened, more than 8 are open at once, or more than 65,536 gates are written out",
    17: "a label is in use",
}


class Refused(Exception):
    """The library's refusal: its number, what the number says, and where.

    >>> refusal = Refused(7, "gate 3")
    >>> refusal.number, refusal.words, refusal.place
    (7, 'unknown gate code', 'gate 3')
    >>> print(refusal)
    refused 7: unknown gate code (gate 3)
    """

    def __init__(self, number: int, place: str = "") -> None:
        self.number = number
        self.words = WORDS.get(number, "a number that this package does not know")
        self.place = place
        super().__init__(number, place)

    def __str__(self) -> str:
        return f"refused {self.number}: {self.words}" + (f" ({self.place})" if self.place else "")


class Missing(Exception):
    """A call that this shared library does not have, by its name.

    >>> print(Missing("topazfern_some_call", "/lib/libtopazfern.so"))
    /lib/libtopazfern.so has no call topazfern_some_call: it is older than this package; make it again by python/make-library
    """

    def __init__(self, call: str, path: str) -> None:
        self.call, self.path = call, path
        super().__init__(call, path)

    def __str__(self) -> str:
        return f"{self.path} has no call {self.call}: it is older than this package; make it again by python/make-library"


class NoLibrary(Exception):
    """The shared library was not found or could not be loaded; the words say what to do."""


class CannotRead(Exception):
    """A text that cannot be read, or says what a book cannot: the file, the line, the words of it and what to do.

    >>> print(CannotRead("t q[3]", "not a Clifford gate", line=12, path="a.qasm"))
    a.qasm: line 12: t q[3]: not a Clifford gate
    """

    def __init__(self, what: str, words: str, line: Optional[int] = None, path: str = "") -> None:
        self.what, self.words, self.line, self.path = what, words, line, path
        super().__init__(what, words, line, path)

    def __str__(self) -> str:
        parts = [self.path, f"line {self.line}" if self.line is not None else "", plain(self.what), plain(self.words)]
        return ": ".join(part for part in parts if part)


def plain(text: str) -> str:
    """A text with all that a terminal would not print written out.

    >>> print(plain("a\x1b[2J"))
    a\\x1b[2J
    """
    return "".join(letter if letter.isprintable() else letter.encode("unicode_escape").decode("ascii") for letter in text)


def taken(number: int, place: str = "") -> None:
    """Raises a refusal where a call answered its number.

    >>> taken(0)
    """
    if number:
        raise Refused(number, place)
