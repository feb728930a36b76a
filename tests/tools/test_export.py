"""Random bodies that go out as OpenQASM or Stim and come in again."""
import random
import unittest

import common
from topazfern import Book, Circuit, Record, export, qasm, stim
from topazfern.book import Body

READERS = {"qasm2": qasm, "qasm3": qasm, "stim": stim}


def drawn(rng, kind, codes, blocks):
    """A body of random items; blocks hold items and further blocks."""
    width = rng.randrange(1, 5)
    content = kind(width)

    def more(depth):
        for _ in range(rng.randrange(1, 7)):
            if blocks and depth < 3 and rng.random() < 0.2:
                with content.repeat(rng.choice((1, 2, 3, 5))):
                    more(depth + 1)
            elif kind is Record and rng.random() < 0.3:
                content.measure(rng.randrange(width), 0 if rng.random() < 0.7 else 1)
            else:
                code = rng.choice([c for c in codes if width > 1 or c < 16 or c > 18])
                wires = rng.sample(range(width), 2) if code in (16, 17, 18) else [rng.randrange(width), 0]
                content.put(code, *wires)
    more(0)
    return Body.of(content, rng.randrange(1 << width), rng.randrange(1 << width)) if kind is Circuit else Body.of(content, rng.randrange(1 << width))


def back(body, edition, format):
    """What comes in again, by the strings that the text carries."""
    program = READERS[format].read(export.written(body, edition, format), "f")
    return program.body(program.input, program.output or "0" * program.letters, edition)


class RoundTrip(unittest.TestCase):
    def test_the_ten_gates_come_back_as_the_same_bytes(self):
        rng = random.Random("ten")
        for n in range(150):
            edition = 1 + n % 2
            codes = (1, 2, 3, 4, 5, 6, 7, 16, 17, 18) if edition == 1 else (1, 2, 3, 4, 5, 6, 16, 17, 18, 32, 38)
            body = drawn(rng, Circuit, codes, False)
            for format in READERS:
                self.assertEqual(back(body, edition, format), body)

    def test_blocks_come_back_as_the_same_bytes(self):
        rng = random.Random("blocks")
        for _ in range(100):
            body = drawn(rng, Circuit, (1, 2, 3, 4, 5, 6, 7, 16, 17, 18), True)
            self.assertEqual(back(body, 2, "qasm3"), body)
            self.assertEqual(back(body, 2, "qasm3" if 7 in body.data[8::3] else "stim"), body)

    def test_every_code_means_the_same(self):
        rng = random.Random("codes")
        for _ in range(150):
            body = drawn(rng, Circuit, (*range(1, 8), 16, 17, 18, *range(32, 56)), True)
            for format in ("qasm2", "qasm3"):
                self.assertEqual(Book.laid([back(body, 2, format)]).listing(), Book.laid([body]).listing())
            chance = Book.laid([back(body, 2, "stim")]).answer(0).amount  # Stim does not know a phase
            self.assertEqual(chance[:2], Book.laid([body]).answer(0).amount[:2])

    def test_records(self):
        rng = random.Random("records")
        listed = set()
        for _ in range(150):
            body = drawn(rng, Record, (*range(1, 8), 16, 17, 18, 32, 40, 55), True)
            for format in READERS:
                listing = Book.laid([back(body, 2, format)]).listing() if 80 in body.data[4::3] else None
                self.assertIn(listing, (None, Book.laid([body]).listing()))
                listed.add(listing)
        self.assertGreater(len(listed), 4)

    def test_a_record_in_blocks_of_stim(self):
        body = Body.of(Record(1, bytes([64, 255, 0, 1, 0, 0, 80, 0, 0, 65, 0, 0])))
        self.assertEqual(back(body, 2, "stim"), body)
