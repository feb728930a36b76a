"""What is said of circuits as operators: whether two are the same, and the tableau of one; by worked cases and by plain state vectors."""
import cmath
import math
import random
import unittest

import common
import model
from topazfern import Circuit, Refused, qasm
from topazfern.library import load

# as document 02's A14 gives them: rows, signs
WORKED = [
    (Circuit(1).h(0), (2, 1), 0), (Circuit(1).s(0), (1, 3), 1), (Circuit(1).sdg(0), (1, 3), 0), (Circuit(1).x(0), (1, 2), 2), (Circuit(1).y(0), (1, 2), 3), (Circuit(1).z(0), (1, 2), 1),
    (Circuit(1).sx(0), (3, 2), 0), (Circuit(1, edition=1).sx(0), (3, 2), 0), (Circuit(2).cx(0, 1), (1, 3, 0xC, 8), 0), (Circuit(2).cz(0, 1), (1, 2, 6, 9), 0),
    (Circuit(2).swap(0, 1), (2, 1, 8, 4), 0), (Circuit(1).h(0).s(0), (2, 3), 2), (Circuit(2).cx(0, 1).s(0).s(1), (1, 3, 0xD, 0xB), 3),
]


@unittest.skipUnless(load().has("topazfern_same"), "the library has no topazfern_same yet")
class Same(unittest.TestCase):
    def test_worked(self):
        one, two = (lambda: Circuit(1)), (lambda: Circuit(2))
        for first, second, phase in [(one().h(0).h(0), one(), 0), (two().cx(0, 1).cx(1, 0).cx(0, 1), two().swap(0, 1), 0), (one().h(0).s(0).h(0), Circuit(1, edition=1).sx(0), 0),
                                     (one().sx(0), Circuit(1, edition=1).sx(0), 1), (Circuit(1, edition=1).sx(0), one().sx(0), 7), (one().x(0).z(0), one().z(0).x(0), 4),
                                     (one().z(0).x(0), one().y(0), 2), (one().h(0), one().s(0), None)]:
            self.assertEqual(first.common_phase(second), phase)
            self.assertEqual(first.same(second), phase == 0)

    def test_refused(self):
        for first, second, number, place in ((Circuit(1), Circuit(2), 6, "or the widths differ"), (Circuit(1), Circuit(2).put(9, 0), 7, "the second circuit, gate 0"), (Circuit(1).h(0).put(9, 0), Circuit(2), 7, "gate 1")):
            with self.assertRaises(Refused) as caught:
                first.same(second)
            self.assertEqual(caught.exception.number, number)
            self.assertIn(place, caught.exception.place)

    def test_imported_circuits(self):
        """Against all entries of both, up to one common phase."""
        rng = random.Random("same")
        answers = set()
        for _ in range(150):
            width = rng.randrange(1, 3)
            first, second = ([*model.drawn(rng, width, rng.randrange(5), model.TEN), ("phase", (rng.randrange(8),))] for _ in range(2))
            columns = [(model.run(width, string, first), model.run(width, string, second)) for string in range(1 << width)]
            phases = [p for p in range(8) if all(abs(a * cmath.exp(0.25j * math.pi * p) - b) < 1e-9 for column in columns for a, b in zip(*column))]
            circuits = [qasm.read(model.as_qasm(rng, 3, width, ops)).circuit() for ops in (first, second)]
            self.assertEqual(circuits[0].common_phase(circuits[1]), phases[0] if phases else None)
            self.assertEqual(circuits[0].same(circuits[1]), phases == [0])
            answers.add(phases[0] if phases else None)
        self.assertGreater(len(answers), 4)


class Tableau(unittest.TestCase):
    def test_worked(self):
        for circuit, rows, h in WORKED:
            self.assertEqual(circuit.tableau(), (rows, h))
            self.assertTrue(circuit.has_tableau(rows, h))
            self.assertFalse(circuit.has_tableau(rows, h ^ 1))
            self.assertFalse(circuit.has_tableau((rows[0] ^ 1, *rows[1:]), h))

    def test_refused(self):
        for call, number in ((lambda: Circuit(0).tableau(), 6), (lambda: Circuit(1).put(9, 0).tableau(), 7), (lambda: Circuit(1).has_tableau([1], 0), 11),
                             (lambda: Circuit(1).has_tableau([1, 4], 0), 11), (lambda: Circuit(1, edition=3).tableau(), 9)):
            with self.assertRaises(Refused) as caught:
                call()
            self.assertEqual(caught.exception.number, number)
        with self.assertRaises(ValueError):
            Circuit(1).has_tableau([1, -1], 0)

    def test_imported_circuits(self):
        """U P is the image of P times U, on every string."""
        rng = random.Random("tableau")
        for n in range(40):
            width = rng.randrange(1, 4)
            ops = model.drawn(rng, width, rng.randrange(15), (*model.TEN, "cy", "rz(1)", "ry(3)"))
            rows, h = qasm.read(model.as_qasm(rng, 3, width, ops)).circuit(1 + n % 2).tableau()
            for t in range(2 * width):
                before = [("x" if t < width else "z", (t % width,))]
                image = [(name, (wire,)) for wire in range(width) for name, row in (("x", wire), ("z", width + wire)) if rows[row] >> t & 1]
                both = sum(rows[wire] >> t & rows[width + wire] >> t & 1 for wire in range(width))
                turn = [("phase", (2 * (both % 2) + 4 * (h >> t & 1),))]
                for string in range(1 << width):
                    left, right = model.run(width, string, [*before, *ops]), model.run(width, string, [*ops, *image, *turn])
                    for a, b in zip(left, right):
                        self.assertAlmostEqual(a, b, places=9)
