"""Importers: hand-made cases item by item, random circuits against plain state vectors, and everything that must be refused by name."""
import random
import unittest

import common
import model
from topazfern import Book, CannotRead, qasm, stim

EDITION_2_SX = "element 6"  # H, S, H with its phase


def items(source, reader=qasm, edition=2, output=None):
    program = reader.read(source, "f")
    body = program.body("0" * program.width, output or "0" * program.letters, edition)
    return body.content(edition).text()


def head(version=3, qubits=3, bits=0):
    if version == 2:
        return f'OPENQASM 2.0;\ninclude "qelib1.inc";\nqreg q[{qubits}];\n' + (f"creg c[{bits}];\n" if bits else "")
    return f'OPENQASM 3.0;\ninclude "stdgates.inc";\nqubit[{qubits}] q;\n' + (f"bit[{bits}] c;\n" if bits else "")


class ByHand(unittest.TestCase):
    """Texts whose items were written down by hand."""

    def test_the_ten_gates_of_openqasm(self):
        for version in (2, 3):
            text = head(version) + "h q[0]; s q[0]; sdg q[1]; z q[1]; x q[2]; y q[2]; sx q[0]; cz q[0],q[1]; cx q[1],q[2]; swap q[0],q[2];"
            self.assertEqual(items(text), ["h 0", "s 0", "sdg 1", "z 1", "x 2", "y 2", "element 6 0", "cz 0 1", "cx 1 2", "swap 0 2"])
            self.assertEqual(items(text, edition=1), ["h 0", "s 0", "sdg 1", "z 1", "x 2", "y 2", "sx 0", "cz 0 1", "cx 1 2", "swap 0 2"])

    def test_the_ten_gates_of_stim(self):
        text = "H 0\nS 0\nS_DAG 1\nZ 1\nX 2\nY 2\nSQRT_X 0\nCZ 0 1\nCX 1 2\nSWAP 0 2\n"
        self.assertEqual(items(text, stim), ["h 0", "s 0", "sdg 1", "z 1", "x 2", "y 2", "element 6 0", "cz 0 1", "cx 1 2", "swap 0 2"])

    def test_other_names(self):
        self.assertEqual(items(head() + "CX q[0], q[1]; id q[2]; cy q[0], q[1]; sxdg q[0];"),
                         ["cx 0 1", "element 0 2", "sdg 1", "cx 0 1", "s 1", "h 0", "sdg 0", "h 0"])
        self.assertEqual(items("h 0\nH_XZ 0\ncnot 0 1 1 2\nZCZ 0 1\nSQRT_Z 1\nSQRT_Z_DAG 1\nI 2\nZCY 0 1\nSQRT_X_DAG 0", stim),
                         ["h 0", "h 0", "cx 0 1", "cx 1 2", "cz 0 1", "s 1", "sdg 1", "element 0 2", "sdg 1", "cx 0 1", "s 1", "h 0", "sdg 0", "h 0"])

    def test_whole_registers(self):
        self.assertEqual(items(head() + "h q;"), ["h 0", "h 1", "h 2"])
        two = "OPENQASM 2.0; qreg a[2]; qreg b[2]; cx a, b; cx a[0], b; cz a, b[1];"
        self.assertEqual(items(two), ["cx 0 2", "cx 1 3", "cx 0 2", "cx 0 3", "cz 0 3", "cz 1 3"])

    def test_indices(self):
        self.assertEqual(items(head(qubits=5) + "h q[-1]; x q[1:3]; y q[0:2:4]; z q[{0, 3}]; const int n = 2; s q[n + 1];"),
                         ["h 4", "x 1", "x 2", "x 3", "y 0", "y 2", "y 4", "z 0", "z 3", "s 3"])

    def test_hardware_qubits(self):
        program = qasm.read("OPENQASM 3; cx $7, $3; h $3;")
        self.assertEqual(program.width, 2)
        self.assertEqual(program.body("00", "00").content().text(), ["cx 1 0", "h 0"])
        self.assertTrue(program.notes)

    def test_comments_and_layout(self):
        text = "// first\nOPENQASM 3.0; /* a\nlong one */ qubit q; // q\n\n  h\n q ;;"
        self.assertEqual(items(text), ["h 0"])

    def test_loops(self):
        self.assertEqual(items(head() + "for uint i in [1:200] { h q[0]; s q[1]; }"), ["repeat 200", "h 0", "s 1", "end"])
        self.assertEqual(items(head() + "for int i in [0:2] h q[i];"), ["h 0", "h 1", "h 2"])
        self.assertEqual(items(head() + "for int i in {2, 0} { x q[i]; }"), ["x 2", "x 0"])
        self.assertEqual(items(head() + "for int i in [2:-1:0] { x q[i]; }"), ["x 2", "x 1", "x 0"])
        self.assertEqual(items(head() + "for uint i in [1:2] { for uint j in [1:3] { h q[0]; } }"), ["repeat 2", "repeat 3", "h 0", "end", "end"])
        self.assertEqual(items(head() + "for uint i in [1:2] h q[0];", edition=1), ["h 0", "h 0"])

    def test_long_loops(self):
        for count in (256, 1000, 65_535, 65_536, 257, 509):
            body = qasm.read(head() + f"for int i in [1:{count}] {{ x q[0]; }}").body("000", "001" if count % 2 else "000")
            book = Book.laid([body])
            self.assertEqual(book.listing(), "book 1\n0 C 0 0\n", count)

    def test_definitions(self):
        text = head(2) + "gate mine a, b { h a; cx a, b; } gate twice a, b { mine b, a; mine a, b; } twice q[2], q[0];"
        self.assertEqual(items(text), ["h 0", "cx 0 2", "h 2", "cx 2 0"])
        self.assertEqual(items(head() + "gate turn(t, u) a { p(t/2) a; p(u + pi) a; } turn(pi, -pi/2) q[1];"), ["s 1", "s 1"])

    def test_modifiers(self):
        self.assertEqual(items(head() + "inv @ s q[0]; inv @ sdg q[0]; ctrl @ x q[0], q[1]; ctrl @ z q[1], q[2]; pow(3) @ s q[0]; pow(-1) @ s q[1]; inv @ inv @ s q[2];"),
                         ["sdg 0", "s 0", "cx 0 1", "cz 1 2", "s 0", "s 0", "s 0", "sdg 1", "s 2"])
        self.assertEqual(items(head() + "gate m a, b { h a; s a; cx a, b; } inv @ m q[0], q[1];"), ["cx 0 1", "sdg 0", "h 0"])

    def test_repeat_of_stim(self):
        self.assertEqual(items("REPEAT 3 {\n  H 0\n  REPEAT 2 {\n    S 0\n  }\n}", stim), ["repeat 3", "h 0", "repeat 2", "s 0", "end", "end"])
        self.assertEqual(items("H 0\nREPEAT 1000 {\nX 0\n}", stim), ["h 0", "repeat 4", "repeat 250", "x 0", "end", "end"])

    def test_measurements(self):
        text = head(2, 3, 3) + "h q[0]; measure q -> c; x q[1];"
        self.assertEqual(items(text, output="011"), ["h 0", "measure 0 1", "measure 1 1", "measure 2 0", "x 1"])
        self.assertEqual(items(head(3, 2, 2) + "c[1] = measure q[0]; c[0] = measure q[1];", output="10"), ["measure 0 1", "measure 1 0"])
        self.assertEqual(items("OPENQASM 3; qubit[2] q; bit b = measure q[1]; bit[2] c; c[0] = measure q[0];", output="011"), ["measure 1 1", "measure 0 1"])

    def test_measurements_of_stim(self):
        self.assertEqual(items("M 0 !1\nM 2", stim, output="110"), ["measure 0 1", "measure 1 0", "measure 2 0"])
        three = "REPEAT 3 {\n H 0\n M 0\n}"
        self.assertEqual(items(three, stim, output="111"), ["repeat 3", "h 0", "measure 0 1", "end"])
        self.assertEqual(items(three, stim, output="011"), ["h 0", "measure 0 0", "repeat 2", "h 0", "measure 0 1", "end"])
        self.assertEqual(items(three, stim, output="010"), ["h 0", "measure 0 0", "h 0", "measure 0 1", "h 0", "measure 0 0"])

    def test_without_effect(self):
        program = qasm.read(head() + "reset q; barrier q; h q[0]; barrier q[0], q[1];\n#pragma x y\n@note\nx q[0];")
        self.assertEqual(program.body("000", "000").content().text(), ["h 0", "x 0"])
        self.assertEqual(dict(program.notes), {"reset at the start": 1, "barrier": 2, "pragma": 1, "annotation": 1})
        program = stim.read("QUBIT_COORDS(0, 1) 3\nR 0 1\nTICK\nH 0\nDETECTOR rec[-1]\nOBSERVABLE_INCLUDE(0) rec[-1]\nSHIFT_COORDS(1)\n# x")
        self.assertEqual((program.width, program.body("0000", "0000").content().text()), (4, ["h 0"]))
        self.assertEqual(sum(program.notes.values()), 6)

    def test_a_reset_wire_starts_in_0(self):
        program = qasm.read(head() + "reset q[1]; h q[0];", "f")
        self.assertEqual(program.start("101"), 5)
        with self.assertRaisesRegex(CannotRead, "^f: line 4: reset of wire 1: input 010 has a 1 there"):
            program.start("010")


class Refused(unittest.TestCase):
    """What a book cannot express, by name and line."""

    def refused(self, cases, reader):
        for source, words in cases:
            with self.assertRaises(CannotRead, msg=source) as caught:
                program = reader.read(source, "f")
                program.body("0" * program.width, "0" * program.letters)
            for part in words if isinstance(words, tuple) else (words,):
                self.assertIn(part, str(caught.exception), source)

    def test_openqasm(self):
        two, three = head(2, 4, 2), head(3, 4, 2)
        cases = [(two + "\n" * 7 + "t q[3];", "f: line 12: t q[3]: not a Clifford gate")]
        cases += [(three + "\n" + call, ("f: line 6: ", say)) for call, say in [
            ("tdg q[0];", "tdg q[0]: not a Clifford gate"), ("ccx q[0], q[1], q[2];", "ccx q[0], q[1], q[2]: not a Clifford gate"),
            ("rz(pi/4) q[0];", "rz(pi/4) q[0]: not a Clifford gate: the angle is no multiple of pi/2"), ("rx(0.3) q[0];", "no multiple of pi/2"),
            ("gphase(pi/8);", "no multiple of pi/4"), ("p(3/2*pi) q[0];", "a division of whole numbers that leaves a rest"), ("U(0, 0, pi) q[0];", "U(0, 0, pi) q[0]: not a gate that is read here"),
            ("foo q[0];", "foo q[0]: an unknown gate"), ("h q[4];", "h q[4]: index 4 is beyond 4"), ("h r[0];", "no qubit r is declared"),
            ("h c[0];", "no qubit c is declared"), ("cx q[0], q[0];", "names the same qubit twice"), ("cx q[0];", "cx takes 2 qubits"), ("h q[0], q[1];", "h takes 1 qubits"),
            ("h(pi) q[0];", "h takes 0 angles"), ("rx q[0];", "rx takes 1 angles"), ("rx(x) q[0];", "x is not known"), ("h q[0]", "';' is missing at the end"),
            ("if (c[0] == 1) { x q[0]; }", "if (c[0] == 1): a book has no gate that depends on an outcome"), ("while (c[0] == 1) { x q[0]; }", "while"),
            ("reset q[0]; h q[0]; reset q[0];", "reset q[0]: a reset behind a gate is no gate of a book"), ("measure q[0];", "the outcome goes nowhere"),
            ("c[0] = measure q[0]; c[0] = measure q[1];", "the bit was measured into before, on line 6"), ("c = measure q;", "4 qubits are measured into 2 bits"),
            ("c[0] = 1;", "a bit gets its value by a measurement only"), ("qubit[30] r;", "34 qubits: a book has at most 31 wires"), ("qubit q;", "q is declared twice"),
            ("def f(qubit a) { h a; }", "subroutines are not read"), ("int i = 3;", "variables are not read"), ("let a = q[0];", "aliases are not read"),
            ("delay[100ns] q[0];", "a book has no time"), ('include "mine.inc";', "only qelib1.inc and stdgates.inc are known"), ("ctrl @ h q[0], q[1];", "only ctrl @ x, y and z"),
            ("negctrl @ x q[0], q[1];", "only ctrl @ x, y and z are read, not negctrl @ x"), ("pow(0.5) @ x q[0];", "a power that is not a whole number"),
            ("for int i in [0:3] { t q[i]; }", "t q[i]: not a Clifford gate"), ("for int i in [0:100000] { h q[0]; }", "more than 65536 runs"),
            ("bit[1000000000] d;", "more than 65536 bits"), ("h q[" + "1" * 5000 + "];", "a number that is too long"), ("$" + "1" * 5000, "a number that is too long"), ("h q[10**400];", "cannot be computed"),
            ("rx(1e999) q[0];", "no multiple of pi/2"), ("h\x1b[2J q[0];", "\\x1b[2J q[0];: not OpenQASM"), ("for int i in [1:65536] { for int j in [1:65536] { barrier q[j % i]; } }", "statements are run"),
            ("for int i in [0:2] { bit d; }", "a declaration inside a loop"), ("for int i in [0:3] { h q[0];", "a loop that does not end"),
            ("gate a x { a x; } a q[0];", "a x: an unknown gate"), ("gate a x { h y; }", "y is no operand of the gate"), ("gate a x { measure x; }", "a definition of a gate has gates only"),
            ("/* never", "a comment that does not end"), ("h q[1/0];", "cannot be computed"), ("h q[0.5];", "0.5 is not a whole number"), ("rx(sqrt(-1)) q[0];", "cannot be computed"), ("rx(exp(1e9)) q[0];", "cannot be computed"), ("h q[-pi];", "is not a whole number"), ("?", "?: not OpenQASM"),
        ]]
        cases += [(three + "h $0;", "f: line 3: qubit[4] q: hardware qubits and declared ones in one file"), ("OPENQASM 2.0; qubit q; h q;", "OpenQASM 2 has no qubit"), ("OPENQASM 4; qubit q;", "OpenQASM 2 and 3 are read"), ("OPENQASM 3;", "no qubits are declared"),
                  ("", "no qubits are declared"), (two + "opaque g a;", "a gate without a body"), (two + "OPENQASM 2.0;", "the version must stand first"),
                  (head(3, 1) + "gate g0 a { " + "x a; " * 300 + "} " + "".join(f"gate g{n} a {{ g{n - 1} a; g{n - 1} a; }} " for n in range(1, 40)) + "g39 q[0];", "more than 65536 gates"),
                  (head(3, 1) + "gate g0 a { } " + "".join(f"gate g{n} a {{ g{n - 1} a; g{n - 1} a; }} " for n in range(1, 40)) + "g39 q[0];", "more than 200000 times"),
                  (head(3, 1) + "x q[" + "(" * 5000 + "0" + ")" * 5000 + "];", "nested too deeply")]
        self.refused(cases, qasm)

    def test_stim(self):
        self.refused([("H 0\n" + line, ("f: line 2: ", say)) for line, say in [
            ("T 0", "T 0: not a gate that is read here"), ("SQRT_XX 0 1", "SQRT_XX 0 1: not a gate"), ("DEPOLARIZE1(0.01) 0", "DEPOLARIZE1(0.01) 0: noise is outside"),
            ("M(0.01) 0", "M(0.01) 0: a noisy measurement"), ("MX 0", "MX 0: only M is read"), ("MR 0", "MR 0: a reset is no gate of a book"), ("R 0", "R 0: a reset behind a gate"),
            ("MPP X0*Z1", "only M is read"), ("CX rec[-1] 0", "rec[-1]: a book has no gate that depends on an outcome"), ("CX 0", "CX takes qubits in pairs"),
            ("CX 1 1", "names the same qubit twice"), ("H 31", "qubit 31: a book has at most 31 wires"), ("H a", "a is no qubit"), ("H(1) 0", "H takes no argument"), ("REPEAT 3", "REPEAT wants a count"),
            ("REPEAT 0 {\nH 0\n}", "a count of 1 to"), ("H " + "1" * 5000, "is no qubit"), ("REPEAT " + "9" * 5000 + " {", "REPEAT wants a count"), ("}", "}: no block is open"), ("REPEAT 3 {\nH 0", "a block that is not closed"), ("!!", "not a line of Stim"), ("H -1", "-1 is no qubit"),
        ]] + [("", "no qubits are named"), ("TICK", "no qubits are named"), ("REPEAT 999999 {\nREPEAT 999999 {\nM 0\n}\n}", "more than 65536 measurements")], stim)

    def test_outputs(self):
        program = qasm.read(head(3, 2, 3) + "c[0] = measure q[0];", "f")
        with self.assertRaisesRegex(CannotRead, "output 010: has a 1 at a bit that nothing is measured into"):
            program.body("00", "010")
        for output in ("0", "0000", "0a0", ""):
            with self.assertRaisesRegex(CannotRead, "not a string of 0 and 1 over the 3 measured bits"):
                program.body("00", output)
        with self.assertRaisesRegex(CannotRead, "wire 0 last"):
            program.body("0", "000")
        with self.assertRaisesRegex(CannotRead, "a record is of edition 2"):
            program.body("00", "000", 1)


class Random(unittest.TestCase):
    """Circuits drawn at random, written as text by the model, against its state vectors."""

    def agree(self, program, width, ops, edition, rng):
        given = rng.randrange(1 << width)
        state = model.run(width, given, ops)
        circuit = program.circuit(edition)
        for output, expected in enumerate(state):
            self.assertAlmostEqual(complex(circuit.amplitude(given, output)), expected, places=9)

    def test_openqasm(self):
        rng = random.Random("openqasm")
        turned = tuple(f"{kind}({k})" for kind in ("rx", "ry", "rz", "p") for k in range(-3, 9))
        for n in range(160):
            width, version, edition = rng.randrange(1, 5), 2 + n % 2, 1 + n // 2 % 2
            names = model.TEN if n % 3 else (*model.TEN, "sxdg", "id", "cy", *turned)
            ops = model.drawn(rng, width, rng.randrange(25), names)
            if version == 3:
                ops.insert(rng.randrange(len(ops) + 1), ("phase", (rng.randrange(-9, 9),)))
            source = model.as_qasm(rng, version, width, ops)
            self.agree(qasm.read(source, "f"), width, ops, edition, rng)

    def test_modifiers(self):
        rng = random.Random("modifiers")
        turned = tuple(f"{kind}({k})" for kind in ("rx", "ry", "rz", "p") for k in range(-3, 9))
        for name in (*model.ONE_WIRE, *turned):
            for text, power in (("inv @", -1), ("pow(2) @", 2), ("pow(-3) @", -3), ("inv @ pow(2) @", -2), ("pow(0) @", 0)):
                source = f"OPENQASM 3; qubit[2] q; {text} {model.call(rng, name)} q[1];"
                (a, b), (c, d) = model.matrix(name)
                undone = ((complex(a).conjugate(), complex(c).conjugate()), (complex(b).conjugate(), complex(d).conjugate()))
                for column in (0, 2):
                    state = model.basis(2, column)
                    for _ in range(abs(power)):
                        state = model.one_wire(state, model.matrix(name) if power > 0 else undone, 1)
                    for row, expected in enumerate(state):
                        self.assertAlmostEqual(complex(qasm.read(source).circuit().amplitude(column, row)), expected, places=9, msg=source)

    def test_stim(self):
        rng = random.Random("stim")
        for n in range(80):
            width = rng.randrange(1, 5)
            ops = [("id", (width - 1,)), *model.drawn(rng, width, rng.randrange(25), tuple(model.STIM))]
            self.agree(stim.read(model.as_stim(ops)), width, ops, 1 + n % 2, rng)

    def test_records(self):
        rng = random.Random("records")
        for n in range(120):
            width = rng.randrange(1, 5)
            ops = model.drawn(rng, width, rng.randrange(15), (*model.TEN, "sxdg", "cy"))
            for _ in range(rng.randrange(1, 6)):
                ops.insert(rng.randrange(len(ops) + 1), ("m", rng.randrange(width), 0))
            ops.insert(0, ("id", (width - 1,)))
            program = stim.read(model.as_stim(ops)) if n % 2 else qasm.read(model.as_qasm(rng, 2 + n % 4 // 2, width, ops))
            self.told(program, width, ops, rng.randrange(1 << width))

    def told(self, program, width, ops, given):
        """All outputs: each chance, those that can occur, and that they add up."""
        places = [at for at, op in enumerate(ops) if op[0] == "m"]
        possible = {tuple(bits): power for bits, power in program.possible(given)}
        self.assertEqual(sum(2.0 ** -power for power in possible.values()), 1)
        for number in range(1 << len(places)):
            bits = [number >> bit & 1 for bit in range(len(places))]
            for at, bit in zip(places, bits):
                ops[at] = ("m", ops[at][1], bit)
            chance = model.weight(model.run(width, given, ops))
            power = program.power(bits, given)
            self.assertAlmostEqual(0 if power is None else 2.0 ** -power, chance, places=9)
            self.assertEqual(possible.get(tuple(bits)), power)

    def test_outputs_of_circuits(self):
        """Where nothing is measured an output is over all wires."""
        rng = random.Random("outputs")
        for _ in range(60):
            width = rng.randrange(1, 5)
            ops = model.drawn(rng, width, rng.randrange(12), model.TEN)
            program, given = qasm.read(model.as_qasm(rng, 3, width, ops)), rng.randrange(1 << width)
            chances = [abs(value) ** 2 for value in model.run(width, given, ops)]
            possible = {sum(bit << wire for wire, bit in enumerate(bits)): power for bits, power in program.possible(given)}
            for output, chance in enumerate(chances):
                power = program.power([output >> wire & 1 for wire in range(width)], given)
                self.assertEqual(possible.get(output), power)
                self.assertAlmostEqual(0 if power is None else 2.0 ** -power, chance, places=9)

    def test_repeats_with_outcomes(self):
        rng = random.Random("repeats")
        for _ in range(60):
            width, count = rng.randrange(1, 4), rng.randrange(1, 5)
            before, inside, after = (model.drawn(rng, width, rng.randrange(1, 6), model.TEN) for _ in range(3))
            inside.insert(rng.randrange(len(inside) + 1), ("m", rng.randrange(width), 0))
            text = f"I {width - 1}\n" + model.as_stim(before) + f"REPEAT {count} {{\n" + model.as_stim(inside) + "}\n" + model.as_stim(after)
            program, given = stim.read(text), rng.randrange(1 << width)
            for _ in range(4):
                bits = [rng.randrange(2) for _ in range(count)]
                ops = [*before, *((op[0], op[1], bit) if op[0] == "m" else op for bit in bits for op in inside), *after]
                power = program.power(bits, given)
                self.assertAlmostEqual(0 if power is None else 2.0 ** -power, model.weight(model.run(width, given, ops)), places=9)
