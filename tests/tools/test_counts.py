"""Counts: the incomplete gamma function against closed formulas, distance and G against plain sums over all strings, and the verdict."""
import itertools
import math
import random
import unittest

import common
import model
from topazfern import CannotRead, counts, qasm
from topazfern.counts import Comparison


class Gamma(unittest.TestCase):
    def test_one_degree(self):
        for n in range(1, 200):
            x = n * 0.37
            self.assertAlmostEqual(counts.upper_gamma(0.5, x / 2) / math.erfc(math.sqrt(x / 2)), 1, places=10)

    def test_even_degrees(self):
        """Of 2k degrees it is the chance that a Poisson number is below k."""
        for k, n in itertools.product((1, 2, 3, 8, 40, 200), range(1, 60)):
            mean = n * 0.11 * k
            poisson = sum(math.exp(i * math.log(mean) - mean - math.lgamma(i + 1)) for i in range(k))
            self.assertAlmostEqual(counts.upper_gamma(k, mean), poisson, places=10)

    def test_known_points(self):
        # the 5 % and 1 % points of chi-squared, as every table prints them
        for freedom, point, p in ((1, 3.841, 0.05), (3, 7.815, 0.05), (7, 14.067, 0.05), (15, 24.996, 0.05), (1, 6.635, 0.01), (10, 23.209, 0.01), (100, 124.342, 0.05)):
            self.assertAlmostEqual(counts.upper_gamma(freedom / 2, point / 2), p, places=4)

    def test_far_ends(self):
        self.assertEqual(counts.upper_gamma(0.5, 0), 1)
        self.assertEqual(counts.upper_gamma(0.5, 1e6), 0)
        self.assertAlmostEqual(counts.upper_gamma(1e6, 1e6), 0.5, places=3)


class Compared(unittest.TestCase):
    def test_against_plain_sums(self):
        rng = random.Random("counts")
        for n in range(60):
            width = rng.randrange(1, 5)
            ops = model.drawn(rng, width, rng.randrange(15), model.TEN)
            program = qasm.read(model.as_qasm(rng, 3, width, ops))
            ideal = [abs(value) ** 2 for value in model.run(width, 0, ops)]
            texts = [format(string, f"0{width}b") for string in range(1 << width)]
            kept = {text: rng.randrange(1, 50) for text, chance in zip(texts, ideal) if rng.random() < (0.9 if chance > 1e-9 else n % 3 * 0.3)}
            if kept:
                self.same(counts.compared(program, kept, 0), kept, dict(zip(texts, ideal)))

    def same(self, found, kept, ideal):
        runs = sum(kept.values())
        possible = {text for text, chance in ideal.items() if chance > 1e-9}
        self.assertAlmostEqual(found.distance, sum(abs(kept.get(text, 0) / runs - chance) for text, chance in ideal.items()) / 2)
        self.assertEqual(found.forbidden, sum(count for text, count in kept.items() if text not in possible))
        self.assertEqual({row.text for row in found.rows if row.power is None}, {text for text in kept if text not in possible})
        good = {text: count for text, count in kept.items() if text in possible}
        total = sum(good.values())
        self.assertAlmostEqual(found.g, 2 * sum(count * math.log(count / (total * ideal[text])) for text, count in good.items()))
        self.assertEqual(found.freedom, len(possible) - 1)

    def test_keys(self):
        bell = qasm.read("OPENQASM 2.0; qreg q[2]; creg a[1]; creg b[1]; x q[0]; measure q[0] -> a[0]; measure q[1] -> b[0];")
        for key in ("01", "0 1", "0x1", "0_1", "0X1"):
            found = counts.compared(bell, {key: 10}, 0)
            self.assertEqual((found.forbidden, found.rows[0].text), (0, "01"))
        self.assertEqual(counts.compared(bell, {"10": 10}, 0).forbidden, 10)
        for kept in ({"0": 1}, {"0x4": 1}, {"ab": 1}, {"0xg": 1}, {"01": 1, "0 1": 1}, {"": 1}):
            with self.assertRaises(CannotRead, msg=kept):
                counts.compared(bell, kept, 0)

    def test_wide(self):
        """31 qubits, and two to 31 strings that can occur."""
        wide = qasm.read("OPENQASM 3; qubit[31] q; h q;")
        found = counts.compared(wide, {"0" * 31: 1, "1" * 31: 1}, 0)
        self.assertEqual((found.spread, found.forbidden), (31, 0))
        self.assertTrue(counts.verdict(found, 0.01, 0)[1].startswith("UNDECIDED"))

    def test_json(self):
        self.assertEqual(counts.counts_of('{"00": 1}', "f"), {"00": 1})
        self.assertEqual(counts.counts_of('{"shots": 3, "counts": {"0": 3}}', "f"), {"0": 3})
        for source, words in [("", "f: line 1: not JSON"), ("{\n\n1}", "line 3: not JSON"), ("[]", "no counts"), ("{}", "no counts"), ('{"0": 1.5}', "'0': 1.5 is not a count"), ('{"0": -1}', "-1 is not a count"),
                              ('{"0": true}', "true is not a count"), ('{"0": 0}', "all counts are 0"), ('{"0": 1, "0": 2}', "'0': stands twice"), ('{"0": "1"}', "is not a count"), ("[" * 100000, "f: "), ('{"0": ' + "1" * 5000 + "}", "f: a number that is too long"), ('{"0": 1' + "0" * 400 + "}", "is not a count"), ('{"0": NaN}', "NaN is not a count")]:
            with self.assertRaises(CannotRead, msg=source) as caught:
                counts.counts_of(source, "f")
            self.assertIn(words, str(caught.exception))


class Verdict(unittest.TestCase):
    def said(self, **fields):
        plain = dict(rows=[], runs=1000, spread=1, distance=0.0, forbidden=0, g=1.0, freedom=1, p=0.3)
        return counts.verdict(Comparison(**{**plain, **fields}), 0.01, fields.pop("allowed", 0.0))

    def test_verdicts(self):
        self.assertTrue(self.said()[0])
        self.assertTrue(self.said(p=0.01)[0])
        self.assertTrue(self.said(spread=0, freedom=0)[0])
        for fields, word in (({"p": 0.0099}, "DIFFERS"), ({"forbidden": 1}, "DIFFERS"), ({"runs": 9}, "UNDECIDED")):
            agrees, line = self.said(**fields)
            self.assertFalse(agrees)
            self.assertTrue(line.startswith(word))
        self.assertTrue(counts.verdict(Comparison([], 1000, 1, 0.0, 20, 1.0, 1, 0.3), 0.01, 0.02)[0])
        self.assertFalse(counts.verdict(Comparison([], 1000, 1, 0.0, 21, 1.0, 1, 0.3), 0.01, 0.02)[0])
