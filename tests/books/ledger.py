"""What a run really met: counts taken from what `amps` printed, and edges measured on the books themselves.

A run that never met something it set out to meet has to fail: a list of demands stands at the end.
"""
from collections import Counter

import blocks
import book as books
import gates as g
import order
import records
import tables
import words

# the numbers that a book can be refused by; 1, 4, 5, 13 and 14 need other calls
REACHED_BY_BOOKS = (2, 3, 6, 7, 8, 9, 10, 11, 12, 16)


class Ledger:
    def __init__(self):
        self.counts = Counter()
        self.refusals = Counter()
        self.met = Counter()

    # ---- counts, from the text that was printed

    def count(self, said):
        self.counts["books"] += 1
        for line in said.splitlines():
            words = line.split()
            if words[0] == "refused":
                self.refusals[int(words[1])] += 1
            elif words[0] == "book":
                self.counts["books answered"] += 1
            elif words[1] == "refused":
                self.counts["bodies"] += 1
                self.counts["bodies refused"] += 1
                self.refusals[int(words[2])] += 1
            else:
                kind = {"C": "amplitudes", "T": "tables", "R": "chances"}[words[1]]
                self.counts["bodies"] += 1
                self.counts["zero " + kind if words[-1] in ("zero", "none") else kind] += 1
                if words[1] == "R":
                    self.met[f"chance {words[2]}"] += 1
                if words[1] == "C" and words[-1] != "zero":
                    self.met[f"amplitude phase {words[3]}"] += 1
                    self.met[f"amplitude power {words[2]}"] += 1

    # ---- edges, from the book

    def note(self, book, said):
        """A book, and what `amps` said of it, which was found right."""
        self.count(said)
        faults = list(books.faults(book))
        self.note_lines(said)
        if faults:
            self.note_refused(book, faults)
        else:
            self.note_answered(book)

    def note_lines(self, said):
        """Where refused bodies stand among answered ones."""
        refused = [" refused " in line for line in said.splitlines()[1:]]
        for pair in zip(refused, refused[1:]):
            self.met["a body {} behind one {}".format(*("refused" if bad else "answered" for bad in reversed(pair)))] += 1
        if refused and all(refused):
            self.met["every body refused"] += 1

    def note_answered(self, book):
        self.met[f"{book[3]} bodies"] += 1
        self.met[f"{len(book)} bytes"] += 1
        for entry, data in books.bodies(book):
            if entry.kind == books.CIRCUIT:
                circuit = g.written(data)
                self.met[f"circuit width {entry.width}"] += 1
                self.met[f"{len(circuit)} gates"] += 1
                for code in {gate[0] for gate in circuit}:
                    self.met[f"code {code}, edition {book[2]}"] += 1
                if any(item[0] in blocks.MARKS for item in circuit):
                    self.note_blocks(circuit)
            elif entry.kind == books.RECORD:
                self.met[f"record width {entry.width}"] += 1
                self.met[f"{len(records.written(data))} items of a record"] += 1
            else:
                self.note_table(tables.read(entry.width, data))

    def note_blocks(self, items):
        deep, most = 0, 0
        for code, times, _ in items:
            deep += {blocks.OPEN: 1, blocks.CLOSE: -1}.get(code, 0)
            most = max(most, deep)
            if code == blocks.OPEN:
                self.met[f"block {times} times"] += 1
        self.met[f"blocks {most} deep"] += 1
        self.met[f"{len(blocks.expansion(items)[0])} gates written out"] += 1
        self.met[f"{len(items)} items with marks"] += 1

    def note_table(self, table):
        mark = "zero table" if table.zero else "table"
        self.met[f"{mark} width {table.width}"] += 1
        self.met[f"table power {table.power}"] += 1
        if table.width and len(table.ties) == table.width:
            self.met[f"as many ties as slots, {table.width}"] += 1

    def note_refused(self, book, faults):
        first = faults[0]
        self.met[f"{first.number} by {first.reason}"] += 1
        if len({(fault.number, fault.reason) for fault in faults}) == 1:
            self.met[f"{first.number} by {first.reason} alone"] += 1
            self.note_edge(book, first)
        if first.reason in ("circuit width", "table width"):
            self.met[f"{first.number} by {first.reason} {books.entries(book)[first.at].width}"] += 1
        for other in faults[1:]:
            if other.number != first.number:
                self.met[f"{first.number} before {other.number}, {place(first, other)}"] += 1

    def note_edge(self, book, first):
        """The exact size of what was too large by itself."""
        if first.reason == "longer than 60,000":
            self.met[f"9 by {len(book)} bytes"] += 1
        elif first.reason == "edition":
            self.met[f"9 by edition {book[2]}"] += 1
        elif first.reason == "count":
            self.met[f"9 by {book[3]} bodies"] += 1
        elif first.stage == "body":
            entry, data = books.bodies(book)[first.at]
            if first.reason == "too many gates":
                self.met[f"11 by {len(g.written(data))} gates"] += 1
            elif first.reason == "power":
                self.met[f"11 by power {tables.read(entry.width, data).power}"] += 1
            elif first.reason == "unknown code" and entry.kind == books.CIRCUIT:
                self.met[f"7 by code {g.written(data)[first.gate][0]}, edition {book[2]}"] += 1

    # ---- the close

    def missing(self):
        numbers = [f"refusal {number}" for number in REACHED_BY_BOOKS if not self.refusals[number]]
        return numbers + [name for name in demands() if not self.met[name]]

    def summary(self):
        names = ("books", "books answered", "bodies", "bodies refused", "amplitudes", "zero amplitudes", "tables", "zero tables", "chances", "zero chances")
        yield ", ".join(f"{self.counts[name]} {name}" for name in names)
        yield "refusals: " + ", ".join(f"{count} by {number}" for number, count in sorted(self.refusals.items()))
        yield f"{len(demands())} edges, faults and orders asked for, {sum(1 for name in demands() if self.met[name])} met"


def place(first, other):
    """Where the second of two faults stands, seen from the first."""
    if first.stage != "body":
        return "in a body before" if other.stage == "body" and other.at < first.at else other.stage
    if other.at != first.at:
        return "a later body"
    if other.number == 16:
        return "its blocks"
    if first.gate < 0:
        return "the same body"
    return "the same gate" if first.gate == other.gate else "a later gate"


# ---- what a run must meet

def answered_edges():
    yield from (f"{count} bodies" for count in (0, 1, 15, 16))
    yield from ("60000 bytes", "59999 bytes", "0 gates", "4095 gates", "4096 gates")
    yield from (f"circuit width {width}" for width in range(1, 32))
    yield from (f"code {code}, edition {edition}" for edition in g.EDITIONS for code in g.KNOWN)
    yield from (f"code {code}, edition 2" for code in (*words.CODES, *blocks.MARKS))
    yield from (f"block {times} times" for times in (1, 2, 255))
    yield from (f"blocks {deep} deep" for deep in range(1, 9))
    yield from ("65536 gates written out", "65535 gates written out", "4096 items with marks")
    yield from (f"amplitude phase {phase}" for phase in range(8))
    yield from (f"amplitude power {power}" for power in range(-31, 1))
    yield from (f"table width {width}" for width in range(65))
    yield from (f"zero table width {width}" for width in range(65))
    yield from (f"table power {power}" for power in (2000, -2000, 1999, -1999, 0, 1, -1))
    yield from (f"as many ties as slots, {width}" for width in (1, 2, 63, 64))


def record_edges():
    yield from (f"chance {power}" for power in ("none", 0, 1, 2, 3, 10, 255, 32768))
    yield from (f"record width {width}" for width in (1, 2, 3, 31))
    yield from ("0 items of a record", "4096 items of a record")


def lines():
    """Answers and refusals side by side: "and the rest goes on" """
    states = ("answered", "refused")
    yield from (f"a body {a} behind one {b}" for a in states for b in states)
    yield "every body refused"


def refused_edges():
    yield from ("9 by 60001 bytes", "9 by 17 bodies", "11 by 4097 gates", "11 by power 2001", "11 by power -2001")
    yield from (f"6 by circuit width {width}" for width in (0, *range(32, 256)))
    yield from (f"11 by table width {width}" for width in (65, 66, 128, 255))
    yield from (f"7 by code {code}, edition {edition}" for edition in g.EDITIONS for code in g.unknown(edition))
    yield from (f"9 by edition {edition}" for edition in (0, 3, 255))


def lone_faults():
    """Every reason, in a book where nothing else is wrong; but more ties than slots cannot be normal either."""
    yield "11 by more ties than slots"
    reasons = {
        9: ("shorter than 4", "longer than 60,000", "first letter", "second letter", "edition", "count"),
        10: ("contents too short", "kind", "start too early", "start too late", "end beyond the book",
             "last end before the book's", "no body, but bytes"),
        11: ("no room for the strings", "gate bytes not in threes", "too many gates", "no room for the string", "record bytes not in threes", "too many items of a record", "table width", "length below the fields",
             "length and ties differ", "zero mark", "phase", "power", "turn", "row bit", "mask bit", "side"),
        12: ("empty tie", "order of leads", "lead in another tie", "turn of a lead", "row of a lead", "sign of a slot with itself",
             "signs not symmetric", "zero with a power", "zero with a phase", "zero with ties", "zero with turns",
             "zero with signs"),
        6: ("circuit width", "wire", "second wire", "record width", "measured wire"),
        8: ("input", "output", "input of a record"),
        7: ("unknown code",),
        3: ("second byte", "outcome", "count of 0", "wire byte of a close", "second byte of a mark"),
        16: ("unclosed", "unopened", "empty", "depth", "too long"),
        2: ("wire twice",),
    }
    yield from (f"{number} by {reason} alone" for number, names in reasons.items() for reason in names)


def orders():
    """Pairs of numbers in one book, the one that decides named first."""
    yield "9 before 10, contents"
    yield from (f"9 before {other}, body" for other in order.OF_BODIES)
    yield from (f"10 before {other}, in a body before" for other in order.OF_BODIES)
    yield from (f"{a} before {b}, a later body" for a in order.OF_BODIES for b in order.OF_BODIES if a != b)
    yield from (f"{a} before {b}, a later gate" for a in order.OF_GATES for b in order.OF_GATES if a != b)
    yield from (f"{a} before {b}, the same gate" for a, b in ((7, 6), (6, 3), (6, 2)))
    yield from (f"{a} before 16, its blocks" for a in (*order.OF_GATES, 8, 11))
    yield from (f"11 before {b}, the same body" for b in (2, 3, 6, 7, 8, 12))
    yield from (f"6 before {b}, the same body" for b in (2, 3, 7, 8))
    yield from (f"8 before {b}, the same body" for b in (2, 3, 6, 7))


def demands():
    return [*answered_edges(), *record_edges(), *lines(), *refused_edges(), *lone_faults(), *orders()]
