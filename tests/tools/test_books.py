"""Books through the package: against the reader of tests/books, shown and read back, edited, and why they are refused."""
import random
import sys
import unittest

import common

sys.path.append(str(common.ROOT / "tests" / "books"))

import book as reader
import families
from topazfern import Body, Book, CannotRead, Circuit, Record, Table, Tie, text, why
from topazfern.refusals import Refused


def some_books(seed, count):
    """Books of both editions, sound and damaged, made by tests/books."""
    rng = random.Random(seed)
    drawn = [book for family in families.ALL for _, book in family(random.Random(f"{seed} {family.__name__}"))]
    return [path.read_bytes() for path in sorted(common.EXAMPLES.glob("*.book"))] + rng.sample(drawn, min(count, len(drawn)))


class Books(unittest.TestCase):
    @classmethod
    def setUpClass(cls):
        cls.books = some_books("tools", 400)

    def test_listings(self):
        for data in self.books:
            self.assertEqual(Book.of(data).listing(), reader.listing(data))
            self.assertEqual(Book.of(data).listing(strict=True), reader.strict_listing(data))

    def test_answers(self):
        for data in self.books[:150]:
            lines = reader.listing(data).splitlines()
            for j, line in enumerate(lines[1:]):
                self.assertEqual(self.answered(Book.of(data), j), line)

    def answered(self, book, j):
        try:
            answer = book.answer(j)
        except Refused as refusal:
            return f"{j} refused {refusal.number}"
        amount = answer.amount
        if answer.kind == 1:
            return f"{j} C {amount}"
        if answer.kind == 3:
            return f"{j} R {'none' if amount.zero else -amount.power // 2}"
        return f"{j} T {answer.live} {amount}" if amount.zero else f"{j} T {answer.live} {answer.ties} {amount}"

    def test_shown_and_read_back(self):
        shown = 0
        for data in self.books:
            book = Book.of(data)
            if book.refusal():
                continue
            edition, bodies = text.read(text.shown(book))
            self.assertEqual(Book.laid(bodies, edition).data, data)
            shown += 1
        self.assertGreater(shown, 200)

    def test_why(self):
        """The number, the body and the gate are those of the first fault that the reader finds."""
        gates = whole = 0
        for data in self.books:
            faults = {}
            for fault in reader.faults(data):
                faults.setdefault(fault.at if fault.stage == "body" else None, fault)
            expected = [faults[None]] if None in faults else [faults[j] for j in sorted(faults)]
            found = list(why.reasons(Book.of(data)))
            self.assertEqual([(reason.number, reason.body) for reason in found], [(f.number, f.at if f.stage == "body" else None) for f in expected])
            for reason, fault in zip(found, expected):
                self.assertTrue(reason.words)
                whole += fault.stage != "body"
                if fault.number != 16 and fault.gate >= 0:
                    gates += 1
                    self.assertIn(f"(gate {fault.gate}: ", reason.words)
                    self.at_byte(data, reason, fault)
        self.assertGreater(gates, 10)
        self.assertGreater(whole, 10)

    def at_byte(self, data, reason, fault):
        """The byte that is told is that of the gate."""
        entry, body = reader.bodies(data)[fault.at]
        self.assertEqual(data[reason.byte:reason.byte + 3], body[len(body) % 3 + 3 * (fault.gate + (8 if entry.kind == 1 else 4) // 3):][:3])


class Edited(unittest.TestCase):
    def test_edits(self):
        """Edits beside the same edits of a list of bodies."""
        rng = random.Random("edits")
        for _ in range(60):
            book, bodies = Book(2), []
            for _ in range(rng.randrange(1, 25)):
                body = Body.of(*rng.choice([(Circuit(2).h(0).cx(0, 1), 0, 3), (Record(1).h(0).measure(0, 1),), (Table(rng.randrange(4), power=rng.randrange(-9, 9)),)]))
                j = rng.randrange(17)
                self.edit(rng.choice(("add", "replace", "remove")), book, bodies, j, body)
                self.assertEqual(book.bodies, bodies)
                self.assertEqual(book.data, reader.lay(bodies, 2))

    def edit(self, kind, book, bodies, j, body):
        number = (9 if len(bodies) == 16 else 0) if kind == "add" else 14 if j >= len(bodies) else 0
        kept = book.data
        try:
            {"add": lambda: book.add(body), "replace": lambda: book.replace(j, body), "remove": lambda: book.remove(j)}[kind]()
        except Refused as refusal:
            self.assertEqual((refusal.number, book.data), (number, kept))
            return
        self.assertEqual(number, 0)
        if kind == "add":
            bodies.append(body)
        elif kind == "replace":
            bodies[j] = body
        else:
            del bodies[j]

    def test_refused(self):
        for content, number, place in [(Circuit(1).h(0).h(1), 6, "gate 1: h 1"), (Circuit(2).cx(1, 1), 2, "gate 0: cx 1 1"), (Record(1).measure(0, 2), 3, "gate 0: measure 0 2"),
                                       (Circuit(1).put(65, 0), 16, ""), (Circuit(0), 6, ""), (Circuit(1).put(80, 0), 7, "gate 0: measure 0 0"), (Circuit(32), 6, "")]:
            with self.assertRaises(Refused) as caught:
                Book().add(content)
            self.assertEqual((caught.exception.number, caught.exception.place), (number, place))
        with self.assertRaises(Refused) as caught:
            Book(3)
        self.assertEqual(caught.exception.number, 9)

    def test_editions(self):
        book = Book(1)
        with self.assertRaises(Refused) as caught:
            book.add(Record(1))
        self.assertEqual(caught.exception.number, 10)
        book.add(Circuit(1, edition=1).sx(0))
        self.assertEqual(book.listing(), "book 1\n0 C -1 1\n")

    def test_numbers_that_have_no_place(self):
        for call in (lambda: Circuit(256), lambda: Circuit(1).h(-1), lambda: Circuit(1).h(300), lambda: Circuit(1).amplitude(1 << 32), lambda: Circuit(1).amplitude("00"),
                     lambda: Table(1).entry(-1), lambda: Book().add(Circuit(1), -1), lambda: Book.laid([Body(1, 1, bytes(70000))])):
            with self.assertRaises(ValueError):
                call()

    def test_a_table_that_is_not_normal(self):
        table = Table(2)
        table.ties.append(Tie(0, 1))
        with self.assertRaises(Refused) as caught:
            table.tested()
        self.assertEqual(caught.exception.number, 12)


class Text(unittest.TestCase):
    def test_tables_by_their_fields(self):
        shown = text.shown(Book.read(common.EXAMPLES / "tables.book"))
        self.assertEqual([line.split("  ")[0] for line in shown.splitlines()],
                         ["book edition 1", "", "table 2", "phase 2", "turn 1 3", "tie 0 1 = 1", "", "table 3", "power -3", "phase 5", "turn 1 1", "turn 2 3", "sign 1 2", "tie 0 2 = 0", "",
                          "table 0", "power 2000", "phase 7"])

    def test_what_is_no_text_of_a_book(self):
        for source, words in [("", "the first line is not"), ("circuit 1", "line 1: circuit 1: the first line is"), ("book edition 2\nh 0", "line 2: h 0: a body has to begin first"),
                              ("book edition 2\ncircuit 1\nh", "line 3: h: 1 numbers of 0 to 255"), ("book edition 2\ncircuit 1\nh 256", "1 numbers of 0 to 255"),
                              ("book edition 2\ncircuit 1\ninput 2", "a string of 0 and 1"), ("book edition 2\nrecord 1\noutput 1", "not an item"),
                              ("book edition 2\ntable 70", "at most 64 slots"), ("book edition 2\ntable 2\nturn 2 1", "slot 2 is not below 2"), ("book edition 2\ntable 2\nx", "not a field"),
                              ("book edition 2\nbytes 1 1\nxyz", "pairs of hex digits"), ("book edition 2\ncircuit 1\nelement 24 0", "elements are 0 to 23")]:
            with self.assertRaises(CannotRead, msg=source) as caught:
                text.read(source, "f")
            self.assertIn(words, str(caught.exception))
