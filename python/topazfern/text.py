"""A book as text, and back: what `topaz show` writes and `topaz make` reads. Any book whose contents can be read comes back as the same bytes."""
from __future__ import annotations

import re
from typing import Dict, List, NoReturn, Optional, Tuple

from . import gates as g
from .book import Body, Book
from .circuit import CIRCUIT, RECORD, TABLE, Circuit
from .refusals import WORDS, CannotRead
from .table import Table, Tie

FIRST = re.compile(r"\s*(?:#[^\n]*\n\s*)*book\s+edition\b")
KINDS = {"circuit": CIRCUIT, "table": TABLE, "record": RECORD}
#: What must stand behind each word of an item.
WIRES = {**{name: 1 for name in g.ONE_WIRE}, **{name: 2 for name in g.TWO_WIRES}, "element": 2, "measure": 2, "item": 3, "repeat": 1, "end": 0}


# ---- a book as text

def shown(book: Book) -> str:
    """A book as text.

    >>> book = Book()
    >>> book.add(Circuit(2).h(0).cx(0, 1), "00", "11")
    >>> print(shown(book), end="")
    book edition 2
    <BLANKLINE>
    circuit 2    # body 0: C -1 0
    input 00
    output 11
    h 0
    cx 0 1
    """
    lines = book.listing().splitlines()[1:]
    parts = [f"book edition {book.edition}\n"]
    for body, line in zip(book.bodies, lines):
        number, answer = line.split(" ", 1)
        if answer.startswith("refused "):
            answer += f", {WORDS[int(answer.split()[1])]}"
        parts.append("\n" + shown_body(body, book.edition, f"    # body {number}: {answer}"))
    return "".join(parts)


def shown_body(body: Body, edition: int, remark: str = "") -> str:
    """A body by its fields where they say all of it, else by its bytes.

    >>> print(shown_body(Body(1, 1, b"abc"), 2), end="")
    bytes 1 1
    61 62 63
    """
    try:
        lines = by_fields(body, edition)
        if Reader("\n".join([f"book edition {edition}", *lines]), "").bodies() == [body]:
            return "\n".join([lines[0] + remark, *lines[1:]]) + "\n"
    except (ValueError, CannotRead):
        pass
    rows = [body.data[at:at + 24].hex(" ") for at in range(0, len(body.data), 24)]
    return "\n".join([f"bytes {body.kind} {body.width}{remark}", *rows]) + "\n"


def by_fields(body: Body, edition: int) -> List[str]:
    content = body.content(edition)
    if isinstance(content, Table):
        return table_lines(content)
    kind = "circuit" if body.kind == CIRCUIT else "record"
    lines = [f"{kind} {body.width}", f"input {g.text_of(body.input, body.width)}"]
    if body.kind == CIRCUIT:
        lines.append(f"output {g.text_of(body.output, body.width)}")
    depth = 0
    for item in content.text():
        depth -= item == "end"
        lines.append("  " * max(depth, 0) + item)
        depth += item.startswith("repeat ")
    return lines


def table_lines(table: Table) -> List[str]:
    """A table's lines: only what is not 0.

    >>> table_lines(Table(2, power=-3).sign(0, 1))
    ['table 2', 'power -3', 'sign 0 1']
    """
    lines = [f"table {table.width}"] + ["zero"] * table.zero
    lines += [f"{name} {value}" for name, value in (("power", table.power), ("phase", table.phase)) if value]
    lines += [f"turn {slot} {turn}" for slot, turn in enumerate(table.turns) if turn]
    lines += [f"sign {u} {v}" for u, v in table.signs()]
    for mask, r in table.ties:
        slots = " ".join(str(slot) for slot in range(64) if mask >> slot & 1)
        lines.append(f"tie {slots} = {r}")
    return lines


# ---- text as a book

class Reader:
    """The text of a book, line by line; nothing but its form is tested, which leaves all refusals to the library."""

    def __init__(self, source: str, path: str) -> None:
        self.path, self.number, self.what = path, 0, ""
        self.lines = [(n, line.split("#")[0].split()) for n, line in enumerate(source.split("\n"), 1)]
        self.edition = 0
        self.done: List[Body] = []
        self.kind: Optional[str] = None
        self.width, self.strings, self.data = 0, {}, bytearray()  # type: int, Dict[str, int], bytearray
        self.table: Optional[Table] = None
        self.raw = 0

    def bad(self, words: str) -> NoReturn:
        raise CannotRead(self.what, words, self.number, self.path)

    def bodies(self) -> List[Body]:
        for self.number, words in self.lines:
            self.what = " ".join(words)
            if not words:
                continue
            if not self.edition:
                self._first(words)
            elif words[0] in KINDS or words[0] == "bytes":
                self._close()
                self._open(words)
            elif self.kind is None:
                self.bad("a body has to begin first: circuit, record, table or bytes")
            elif self.kind == "bytes":
                self._bytes()
            elif self.kind == "table":
                self._field(words)
            else:
                self._item(words)
        self._close()
        if not self.edition:
            raise CannotRead("", "the first line is not 'book edition 2'", path=self.path)
        return self.done

    def _first(self, words: List[str]) -> None:
        if words[:2] != ["book", "edition"] or len(words) != 3:
            self.bad("the first line is 'book edition' and 1 or 2")
        self.edition = self._numbers(words[2:], 1)[0]

    def _numbers(self, words: List[str], count: int, low: int = 0, high: int = 255) -> List[int]:
        numbers = [int(word) for word in words if re.fullmatch(r"-?\d{1,9}", word)]
        if len(words) != count or len(numbers) != count or not all(low <= n <= high for n in numbers):
            self.bad(f"{count} numbers of {low} to {high} have to stand here")
        return numbers

    def _open(self, words: List[str]) -> None:
        numbers = self._numbers(words[1:], 2 if words[0] == "bytes" else 1)
        self.kind, self.width, self.strings, self.data = words[0], numbers[-1], {}, bytearray()
        self.raw = numbers[0]
        self.table = Table(self.width) if words[0] == "table" else None
        if self.table and self.width > 64:
            self.bad("a table has at most 64 slots")

    def _close(self) -> None:
        if self.kind is None:
            return
        if self.kind == "bytes":
            self.done.append(Body(self.raw, self.width, bytes(self.data)))
        elif self.table is not None:
            self.done.append(Body.of(self.table))
        elif self.kind == "circuit":
            strings = [self.strings.get(name, 0).to_bytes(4, "little") for name in ("input", "output")]
            self.done.append(Body(CIRCUIT, self.width, b"".join(strings) + bytes(self.data)))
        else:
            self.done.append(Body(RECORD, self.width, self.strings.get("input", 0).to_bytes(4, "little") + bytes(self.data)))

    def _bytes(self) -> None:
        try:
            self.data += bytes.fromhex(self.what)
        except ValueError:
            self.bad("bytes are pairs of hex digits")

    def _item(self, words: List[str]) -> None:
        name = words[0]
        if name in ("input", "output") and not (name == "output" and self.kind == "record"):
            if len(words) > 2 or not re.fullmatch("[01]{0,32}", words[-1] if len(words) == 2 else "") or name in self.strings:
                self.bad("a string of 0 and 1 has to stand here, once")
            self.strings[name] = int(words[1], 2) if len(words) == 2 else 0
            return
        if name not in WIRES:
            self.bad(f"not an item: {', '.join(WIRES)} are")
        numbers = self._numbers(words[1:], WIRES[name])
        self.data += bytes(self._three(name, numbers))

    def _three(self, name: str, numbers: List[int]) -> Tuple[int, int, int]:
        if name == "item":
            return numbers[0], numbers[1], numbers[2]
        if name == "element":
            if numbers[0] >= g.ELEMENTS:
                self.bad(f"elements are 0 to {g.ELEMENTS - 1}")
            return g.FIRST_ELEMENT + numbers[0], numbers[1], 0
        code = {**g.ONE_WIRE, **g.TWO_WIRES, "measure": g.MEASURED, "repeat": g.OPEN, "end": g.CLOSE}[name]
        return (code, *([*numbers, 0, 0][:2]))  # type: ignore[return-value]

    def _field(self, words: List[str]) -> None:
        table, name = self.table, words[0]
        assert table is not None
        if name == "zero" and len(words) == 1:
            table.zero = 1
        elif name == "power":
            table.power = self._numbers(words[1:], 1, -32768, 32767)[0]
        elif name == "phase":
            table.phase = self._numbers(words[1:], 1)[0]
        elif name == "turn":
            slot, turn = self._numbers(words[1:], 2)
            table.turns[self._slot(slot)] = turn
        elif name == "sign":
            u, v = self._numbers(words[1:], 2)
            table.sign(self._slot(u), self._slot(v))
        elif name == "tie" and words[-2:-1] == ["="]:
            slots = self._numbers(words[1:-2], len(words) - 3, 0, 63)
            table.ties.append(Tie(sum(1 << slot for slot in set(slots)), self._numbers(words[-1:], 1)[0]))
        else:
            self.bad("not a field: zero, power, phase, turn, sign and tie are")

    def _slot(self, slot: int) -> int:
        if slot >= self.width:
            self.bad(f"slot {slot} is not below {self.width}")
        return slot


def looks_like(source: str) -> bool:
    """Whether a text begins as a shown book does.

    >>> looks_like("# mine\\nbook edition 2")
    True
    """
    return FIRST.match(source) is not None


def read(source: str, path: str = "") -> Tuple[int, List[Body]]:
    """The edition and the bodies of a text.

    >>> read("book edition 2\\ncircuit 1\\nh 0")[1][0].data.hex()
    '0000000000000000010000'
    >>> read("book edition 2\\ncircuit 1\\nt 0", "a.txt")
    Traceback (most recent call last):
    topazfern.refusals.CannotRead: a.txt: line 3: t 0: not an item: h, s, sdg, z, x, y, sx, cz, cx, swap, element, measure, item, repeat, end are
    """
    reader = Reader(source, path)
    bodies = reader.bodies()
    return reader.edition, bodies
