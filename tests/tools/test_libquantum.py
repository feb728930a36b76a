"""Amplitudes of imported circuits against libquantum, a simulator that nobody here wrote (Debian's libquantum-dev)."""
import os
import random
import shutil
import subprocess
import tempfile
import unittest
from pathlib import Path

import common
import model
from topazfern import qasm, stim

NAMES = ("h", "s", "sdg", "z", "x", "y", "cz", "cx", "swap")
TURNED = ("rx(1)", "ry(1)", "rz(1)")
COMPILER = os.environ.get("CC", "cc")


def installed():
    asked = subprocess.run([COMPILER, "-E", "-x", "c", "-", "-o", os.devnull], input=b"#include <quantum.h>\n", stderr=subprocess.DEVNULL) if shutil.which(COMPILER) else None
    return asked is not None and asked.returncode == 0


@unittest.skipUnless(installed(), "libquantum-dev is not installed")
class Libquantum(unittest.TestCase):
    def test_imported_circuits(self):
        rng = random.Random("libquantum")
        cases = []
        for n in range(150):
            width = rng.randrange(2, 6)
            ops = [("x", (width - 1,)), *model.drawn(rng, width, rng.randrange(1, 30), NAMES if n % 3 == 2 else (*NAMES, *TURNED))]
            text = model.as_stim(ops) if n % 3 == 2 else model.as_qasm(rng, 2 + n % 3, width, ops)
            cases.append((width, rng.randrange(1 << width), ops, (stim if n % 3 == 2 else qasm).read(text, "f").circuit()))
        answers = iter(self.simulated(cases))
        for width, given, ops, circuit in cases:
            for output in range(1 << width):
                self.assertAlmostEqual(complex(circuit.amplitude(given, output)), next(answers), delta=1e-3, msg=str(ops))

    def simulated(self, cases):
        with tempfile.TemporaryDirectory() as place:
            program = Path(place) / "libquantum"
            subprocess.run([COMPILER, "-O2", "-w", "-fopenmp", str(common.HERE / "libquantum.c"), "-o", str(program), "-lquantum", "-lm"], check=True)
            lines = []
            for width, given, ops, _ in cases:
                lines.append(f"{width} {given} {len(ops)}")
                lines += [f"{name} {wires[0]} {wires[-1]}" for name, wires in ops]
            said = subprocess.run([str(program)], input="\n".join(lines) + "\n", stdout=subprocess.PIPE, text=True, check=True, timeout=60,
                                  env={**os.environ, "OMP_NUM_THREADS": "1"}).stdout
        return [complex(*map(float, line.split())) for line in said.splitlines()]
