"""The worked lines of the package run, every public function and method has one, and nothing but the standard library is imported."""
import ast
import doctest
import importlib
import os
import pkgutil
import re
import sys
import tempfile
import unittest

import common
import topazfern

MODULES = [importlib.import_module(f"topazfern.{found.name}") for found in pkgutil.iter_modules(topazfern.__path__) if found.name not in ("__main__", "libtopazfern")]
CALLED = ("book", "circuit", "table", "gates", "refusals", "library")  # what outsiders call


class Worked(unittest.TestCase):
    def test_lines_run(self):
        count = 0
        for module in [topazfern, *MODULES]:
            result = doctest.testmod(module)
            self.assertEqual(result.failed, 0, module.__name__)
            count += result.attempted
        self.assertGreater(count, 120)

    def test_readme(self):
        text = (common.ROOT / "README.md").read_text(encoding="utf-8")
        part = text.split("**From Python.**")[1].split("\n## ")[0]
        test = doctest.DocTestParser().get_doctest(part, {}, "README.md", None, 0)
        kept = os.getcwd()
        with tempfile.TemporaryDirectory() as place:
            os.chdir(place)
            try:
                result = doctest.DocTestRunner().run(test)
            finally:
                os.chdir(kept)
        self.assertEqual((result.failed, result.attempted > 5), (0, True))

    def test_formats(self):
        """The text of a book that docs/FORMATS.md shows is read, and every gate of its table is known."""
        text = (common.ROOT / "docs/FORMATS.md").read_text(encoding="utf-8")
        shown = text.split("bad bodies too.\n\n")[1].split("\n\nGates have")[0]
        edition, bodies = topazfern.text.read(shown)
        self.assertEqual((edition, [body.kind for body in bodies]), (2, [1, 3, 2, 1]))
        self.assertEqual(topazfern.Book.laid(bodies).listing(), "book 4\n0 C -1 6\n1 R 1\n2 T 3 1 -3 5\n3 refused 6\n")
        rows = [[cell.strip() for cell in line.split("|")[1:3]] for line in text.split("\n") if line.startswith("| `")]
        for openqasm, stim in rows:
            for name in re.findall("`(\\w+)", openqasm):
                self.assertTrue(name in topazfern.standard.FIXED or name in topazfern.standard.QASM_NAMES or name in (*topazfern.standard.TURNING, "gphase"), name)
            for name in re.findall("`(\\w+)`", stim):
                self.assertIn(name, topazfern.standard.STIM_NAMES)
        told = {name for _, stim in rows for name in re.findall("`(\\w+)`", stim)}
        self.assertEqual(told, set(topazfern.standard.STIM_NAMES))

    def test_each_call_has_one(self):
        for name in CALLED:
            tree = ast.parse((common.ROOT / "python/topazfern" / f"{name}.py").read_text(encoding="utf-8"))
            for scope in [tree, *(node for node in tree.body if isinstance(node, ast.ClassDef))]:
                for node in scope.body:
                    if isinstance(node, ast.FunctionDef) and not node.name.startswith("_"):
                        self.assertIn(">>>", ast.get_docstring(node) or "", f"{name}.{node.name} has no worked line")

    def test_types_are_told(self):
        for path in sorted((common.ROOT / "python/topazfern").glob("*.py")):
            for node in ast.walk(ast.parse(path.read_text(encoding="utf-8"))):
                if isinstance(node, ast.FunctionDef) and not node.name.startswith("_"):
                    self.assertIsNotNone(node.returns, f"{path.name}: {node.name} does not tell what it answers")

    def test_standard_library_only(self):
        allowed = set(sys.stdlib_module_names) | {"topazfern"} if hasattr(sys, "stdlib_module_names") else None
        for path in sorted((common.ROOT / "python/topazfern").glob("*.py")):
            for node in ast.walk(ast.parse(path.read_text(encoding="utf-8"))):
                names = [alias.name for alias in node.names] if isinstance(node, ast.Import) else [node.module or ""] if isinstance(node, ast.ImportFrom) and not node.level else []
                for name in names:
                    if allowed and not (path.name == "chart.py" and name.startswith("matplotlib")):
                        self.assertIn(name.split(".")[0], allowed, path.name)
