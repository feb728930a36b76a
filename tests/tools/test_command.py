"""The command topaz, run as a user runs it."""
import importlib.util
import json
import os
import pty
import shutil
import signal
import stat
import subprocess
import sys
import tempfile
import time
import unittest
from pathlib import Path

import common
from common import EXAMPLES, ROOT, TOPAZ, topaz

GHZ = EXAMPLES / "ghz.qasm"
LONG = [sys.executable, str(TOPAZ)]
SLOW = 20  # seconds that a stopped command may take on a busy machine


class Command(unittest.TestCase):
    def setUp(self):
        place = tempfile.TemporaryDirectory()
        self.addCleanup(place.cleanup)
        self.place = Path(place.name)

    def file(self, name, content):
        path = self.place / name
        path.write_bytes(content if isinstance(content, bytes) else content.encode())
        return path

    def ends(self, said, status, out=None, err=None):
        """A run ended so, its output contains this, and nothing looks like a fault of the program."""
        self.assertEqual(said[0], status, said)
        self.assertNotIn("Traceback", said[2])
        for words, text in ((out, said[1]), (err, said[2])):
            for part in [words] if isinstance(words, str) else words or []:
                self.assertIn(part, text)
        return said[1]


class AsReadmeSays(Command):
    def test_three_commands(self):
        book = self.place / "ghz.book"
        self.ends(topaz("make", GHZ, "--output", "all", "--out", book), 0, "8 bodies")
        out = self.ends(topaz("list", book), 0, "1 book: 8 bodies listed, 0 of them refused")
        self.assertEqual([line.split(": ")[1] for line in out.splitlines()[:8]], ["0 R 1", *(f"{n} R none" for n in range(1, 7)), "7 R 1"])
        self.ends(topaz("compare", EXAMPLES / "ghz.counts.json", GHZ), 0, ["total variation distance: 0.00708", "G = 0.8213, 1 degree of freedom, p = 0.365", "\nagrees: "])
        self.ends(topaz("compare", EXAMPLES / "ghz-noisy.counts.json", GHZ), 1, ["cannot occur", "counts of strings that cannot occur: 147 of 4096", "\nDIFFERS: 147 of 4096"])

    def test_readme_shows_what_comes(self):
        """Each command of README that is shown with its output and begins with ./topaz prints what stands below it."""
        text = (ROOT / "README.md").read_text(encoding="utf-8").split("\n")
        tried = 0
        for at, line in enumerate(text):
            if line.startswith("    $ ./topaz "):
                shown = []
                for below in text[at + 1:]:
                    if not below.startswith("    ") or below.startswith("    $"):
                        break
                    shown.append(below[4:])
                self.assertEqual(self.run_line(line[6:]).rstrip("\n").split("\n"), shown, line)
                tried += 1
        self.assertGreaterEqual(tried, 6)

    def run_line(self, line):
        clone = self.place / "clone"
        if not clone.exists():
            clone.mkdir()
            for name in ("topaz", "python", "examples", "crates"):
                (clone / name).symlink_to(ROOT / name)
        done = subprocess.run(line, shell=True, cwd=clone, stdout=subprocess.PIPE, stderr=subprocess.DEVNULL, timeout=60, env={**os.environ, "PYTHONIOENCODING": "utf-8"})
        return done.stdout.decode()

    def test_help(self):
        self.ends(topaz("--help"), 0, ["make", "show", "list", "why", "chances", "compare", "Exit status"])
        for name in ("make", "show", "list", "why", "chances", "compare"):
            self.ends(topaz(name, "--help"), 0, [f"usage: topaz {name}", "Exit status"])
        self.ends(topaz("--version"), 0, "topaz 1.0")

    def test_usage(self):
        self.ends(topaz(), 2, err="COMMAND")
        self.ends(topaz("lsit"), 2, err="invalid choice")
        self.ends(topaz("make", GHZ), 2, err="--out")
        self.ends(topaz("list"), 2, err="BOOK")
        self.ends(topaz("list", "--jobs", "0", "x"), 2, err="0 is not 1 or more")
        self.ends(topaz("compare", "--alpha", "2", "a", "b"), 2, err="2 is not between 0 and 1")


class Make(Command):
    def test_inputs_and_outputs(self):
        circuit = self.file("c.qasm", "OPENQASM 3; qubit[2] q; h q[0]; cx q[0], q[1];")
        book = self.place / "b.book"
        self.ends(topaz("make", circuit, "--out", book, "--input", "00", "--input", "01", "--output", "11", "--output", "00"), 0, "4 bodies")
        out = self.ends(topaz("show", book), 0)
        self.assertEqual([line for line in out.splitlines() if line.startswith(("input", "output"))],
                         ["input 00", "output 11", "input 00", "output 00", "input 01", "output 11", "input 01", "output 00"])
        self.assertEqual([line.split("#")[1] for line in out.splitlines() if "#" in line], [" body 0: C -1 0", " body 1: C -1 0", " body 2: C -1 4", " body 3: C -1 0"])

    def test_round_trip(self):
        for path in sorted(EXAMPLES.glob("*.book")):
            shown = topaz("show", path)
            if path.stem == "cut":
                self.ends(shown, 2, err="refused 10: body 5: ends at 133")
                continue
            source, again = self.file("b.txt", shown[1]), self.place / "again.book"
            refused = "refused" in path.with_suffix(".listing").read_text()
            self.ends(topaz("make", source, "--out", again), 1 if refused else 0, err=["refused"] if refused else None)
            self.assertEqual(again.read_bytes(), path.read_bytes(), path.name)

    def test_by_pipes(self):
        done = subprocess.run(f"'{TOPAZ}' show '{EXAMPLES / 'tables.book'}' | '{TOPAZ}' make - --out - | '{TOPAZ}' list -", shell=True, stdout=subprocess.PIPE, timeout=60)
        self.assertIn("-: 2 T 0 0 2000 7\n", done.stdout.decode())

    def test_as_other_formats(self):
        book = EXAMPLES / "blocks.book"
        for form, name in (("qasm3", "c.qasm"), ("stim", "c.stim")):
            shown = self.file(name, self.ends(topaz("show", book, "--as", form, "--body", "0"), 0))
            self.ends(topaz("make", shown, "--out", self.place / "b.book"), 0)
            self.ends(topaz("list", self.place / "b.book"), 0, ": 0 C 0 1\n")
        self.ends(topaz("show", book, "--as", "qasm3"), 2, err="has 4 bodies; say which by --body 0 to 3")
        self.ends(topaz("show", EXAMPLES / "tables.book", "--as", "stim", "--body", "0"), 2, err="body 0 is a table")
        self.ends(topaz("show", book, "--body", "4"), 2, err="has no body 4")

    def test_what_cannot_be_made(self):
        out = self.place / "b.book"
        for name, content, words in [("t.qasm", "OPENQASM 2.0;\nqreg q[4];\nt q[3];\n", "t.qasm: line 3: t q[3]: not a Clifford gate"), ("e.stim", "H 0\nX_ERROR(0.1) 0", "e.stim: line 2: X_ERROR(0.1) 0: noise"),
                                     ("l.qasm", b"OPENQASM 2.0;\nqreg q[1]; // \xe9\n", "l.qasm: line 2: not UTF-8 (byte 28 is 0xe9); save it as UTF-8"), ("x.dat", "hello", "say --format"),
                                     ("b.book", b"QN\x02\x00", "is a book already"), ("n.qasm", "OPENQASM 3; qubit q;" + "h q;" * 4097, "does not fit into a book: refused 11"),
                                     ("d.stim", "REPEAT 2 {\n" * 9 + "H 0\n" + "}\n" * 9, "refused 16"), ("u.qasm", "", "no qubits are declared")]:
            path = self.file(name, content)
            self.ends(topaz("make", path, "--out", self.place / "o.book"), 2, err=words)
        self.assertFalse((self.place / "o.book").exists())
        self.ends(topaz("make", GHZ, "--out", out, "--output", "00"), 2, err="output '00': not a string of 0 and 1 over the 3 measured bits")
        self.ends(topaz("make", GHZ, "--out", out, "--input", "0"), 2, err="wire 0 last")
        self.ends(topaz("make", GHZ, "--out", out, "--edition", "1"), 2, err="a record is of edition 2")
        self.ends(topaz("make", GHZ, "--out", GHZ), 2, err="would be written over")
        self.ends(topaz("make", GHZ, "--out", self.place / "no" / "b.book"), 2, err="b.book: cannot be written: No such file or directory")
        self.ends(topaz("make", GHZ, "--out", "/dev/full"), 2, err="/dev/full: cannot be written: No space left on device")
        self.assertEqual(sorted(path.name for path in self.place.iterdir() if path.name.startswith(".")), [])

    def test_more_than_a_book_holds(self):
        circuit = self.file("c.qasm", "OPENQASM 3; qubit[5] q; h q;")
        words = [word for n in range(20) for word in ("--output", format(n, "05b"))]
        self.ends(topaz("make", circuit, "--out", self.place / "b.book", *words), 2, err="20 bodies are more than one book holds (16, in 60,000 bytes); say --split for 2 books")
        self.ends(topaz("make", circuit, "--out", self.place / "b.book", "--output", "all"), 2, err="has 2^5 outputs, and a book 16 bodies")
        self.ends(topaz("make", circuit, "--split", "--out", self.place / "b.book", *words), 0, ["b-0.book: 16 bodies", "b-1.book: 4 bodies"])
        self.ends(topaz("list", self.place / "b-0.book", self.place / "b-1.book"), 0, "2 books: 20 bodies listed")

    def test_a_link_stays(self):
        real, link = self.file("real.book", b""), self.place / "link.book"
        link.symlink_to(real)
        self.ends(topaz("make", GHZ, "--out", link), 0)
        self.assertTrue(link.is_symlink() and real.read_bytes().startswith(b"QN"))
        self.ends(topaz("make", GHZ, "--out", self.place), 2, err="cannot be written: Is a directory")

    def test_notes(self):
        self.ends(topaz("make", EXAMPLES / "parity.stim", "--out", self.place / "b.book"), 0, err="without effect on the state, and not in the book: TICK")


class ListAndWhy(Command):
    def test_order_and_names(self):
        paths = sorted(EXAMPLES.glob("*.book"))
        expected, bodies, whole = [], 0, 0
        for path in paths:
            lines = path.with_suffix(".listing").read_text().splitlines()
            if lines[0].startswith("book"):
                lines = lines[1:]
                bodies += len(lines)
            else:
                whole += 1
            expected += [f"{path}: {line}" for line in lines]
        refused = sum(" refused " in line for line in expected) - whole
        self.assertEqual(whole, 1)
        count = f"{len(paths)} books: {bodies} bodies listed, {refused} of them refused; 1 book refused whole, 0 not read"
        for jobs in (1, 3, 40):
            out = self.ends(topaz("list", "--jobs", jobs, *paths), 1, count)
            self.assertEqual([line.split(" (")[0] for line in out.splitlines()[:-1]], expected)

    def test_bad_files(self):
        huge = self.place / "huge.book"
        with open(huge, "wb") as file:
            file.truncate(1 << 40)
        bad = [self.place / "missing.book", self.place, "/proc/self/mem", huge, self.file("empty.book", b""), self.file("noise.book", bytes(range(256)))]
        out = self.ends(topaz("list", *bad, EXAMPLES / "bell.book"), 1, "7 books: 4 bodies listed, 0 of them refused; 3 books refused whole, 3 not read")
        for words in ("missing.book: cannot be read: No such file or directory", f"{self.place}: cannot be read: Is a directory", "/proc/self/mem: cannot be read: ", "huge.book: refused 9 (header",
                      "empty.book: refused 9", "bell.book: 3 C -1 0"):
            self.assertIn(words, out)
        self.ends(topaz("show", huge), 2, err="a book has at most 60,000 bytes")
        self.ends(topaz("make", huge, "--format", "qasm", "--out", "-"), 2, err="longer than 16 MiB")

    @unittest.skipIf(os.geteuid() == 0, "root may read every file")
    def test_not_readable(self):
        path = self.file("b.book", b"")
        path.chmod(0)
        self.ends(topaz("list", path), 1, "cannot be read: Permission denied")

    def test_strange_names(self):
        for name in (b"a b.book", b"\xff\xfe.book", b"new\nline.book", b"-x.book"):
            path = os.path.join(os.fsencode(self.place), name)
            shutil.copy(EXAMPLES / "zero.book", path)
            done = subprocess.run([*LONG, "list", os.fsdecode(path)], stdout=subprocess.PIPE, stderr=subprocess.PIPE, timeout=60)
            self.assertEqual((done.returncode, done.stderr), (0, b""))
            self.assertIn(name + b": 0 C zero\n", done.stdout)

    def test_strict(self):
        self.ends(topaz("list", "--strict", EXAMPLES / "night.book"), 1, "night.book: refused 7 (unknown gate code)")

    def test_why(self):
        out = self.ends(topaz("why", *(EXAMPLES / f"{name}.book" for name in ("bell", "night", "cut"))), 1, "bell.book: nothing is refused\n")
        self.assertIn("night.book: body 1: refused 7: unknown gate code (gate 0: item 8 0 0), byte 71\n", out)
        self.assertIn("night.book: body 4: refused 6: ", out)
        self.assertIn("cut.book: the whole book: refused 10: body 5: ends at 133 by its entry at byte 44, and the book has 131 bytes\n", out)
        self.ends(topaz("why", EXAMPLES / "bell.book"), 0)
        self.ends(topaz("why", GHZ), 1, "a book begins with the bytes 51 4E, and this with 4F 50")


class Chances(Command):
    def test_table_and_bars(self):
        out = self.ends(topaz("chances", EXAMPLES / "bell.book", "--body", "1", env={"PYTHONIOENCODING": "utf-8"}), 0, "2 wires, from 00: 2 of 2^2 outputs can occur")
        self.assertEqual(out.splitlines()[2:], ["00      1/2     -1 0       " + "█" * 20, "01      none    zero", "10      none    zero", "11      1/2     -1 0       " + "█" * 20])
        out = self.ends(topaz("chances", GHZ, env={"PYTHONIOENCODING": "ascii"}), 0)
        self.assertIn("111     1/2       " + "#" * 20, out)

    def test_wide(self):
        wide = self.file("w.qasm", "OPENQASM 3; qubit[31] q; h q[0]; for int i in [0:29] { cx q[i], q[i + 1]; }")
        out = self.ends(topaz("chances", wide), 0, "31 wires, from " + "0" * 31 + ": 2 of 2^31 outputs can occur")
        self.assertEqual([line.split()[:4] for line in out.splitlines()[2:]], [["0" * 31, "1/2", "-1", "0"], ["1" * 31, "1/2", "-1", "0"]])
        many = self.file("m.qasm", "OPENQASM 3; qubit[31] q; h q;")
        self.ends(topaz("chances", many), 2, err="2^31 outputs can occur, more than 4096; say --most")
        self.ends(topaz("chances", EXAMPLES / "tables.book", "--body", "0"), 2, err="a table: has no outputs")
        self.ends(topaz("chances", EXAMPLES / "night.book", "--body", "1"), 2, err="night.book: refused 7: unknown gate code")

    def test_record_of_a_book(self):
        out = self.ends(topaz("chances", EXAMPLES / "records.book", "--body", "0"), 0, "3 measured bits, from 000: 2 of 2^3 outputs can occur")
        self.assertEqual([line.split()[1] for line in out.splitlines()[2:]], ["1/2", *["none"] * 6, "1/2"])

    def test_input_and_order(self):
        first = self.file("x.qasm", "OPENQASM 3; qubit[3] q; bit[3] c; c = measure q;")
        self.ends(topaz("chances", first, "--input", "001"), 0, "\n001     1 ")
        self.ends(topaz("chances", first, "--input", "001", "--first", "left"), 0, "\n100     1 ")


class Compare(Command):
    def test_errors(self):
        for content, words in [("{", "c.json: line 1: not JSON"), ('{"00": 1}', "'00': not a string of 0 and 1 over the 3 measured bits"), (b"\xff", "c.json: line 1: not UTF-8"),
                               ('{"000": 1.5}', "'000': 1.5 is not a count")]:
            self.ends(topaz("compare", self.file("c.json", content), GHZ), 2, err=words)
        self.ends(topaz("compare", self.place / "no.json", GHZ), 2, err="no.json: cannot be read: No such file")

    def test_stim_strings_are_in_order(self):
        counts = self.file("c.json", json.dumps({"00000": 500, "00011": 510}))
        self.ends(topaz("compare", counts, EXAMPLES / "parity.stim"), 0, "agrees")
        self.ends(topaz("compare", counts, EXAMPLES / "parity.stim", "--first", "right"), 1, "510 of 1010")

    def test_allowed_share(self):
        noisy = EXAMPLES / "ghz-noisy.counts.json"
        self.ends(topaz("compare", noisy, GHZ, "--allow", "0.05"), 0, "agrees: strings that cannot occur have a share of 0.03589, allowed 0.05")
        self.ends(topaz("compare", noisy, GHZ, "--allow", "0.03"), 1, "DIFFERS")

    @unittest.skipIf(importlib.util.find_spec("matplotlib"), "matplotlib is installed")
    def test_plot_without_matplotlib(self):
        self.ends(topaz("compare", EXAMPLES / "ghz.counts.json", GHZ, "--plot", self.place / "p.png"), 2, "agrees", "--plot needs matplotlib, which is not installed here: pip install matplotlib")

    @unittest.skipUnless(importlib.util.find_spec("matplotlib"), "matplotlib is not installed")
    def test_plot(self):
        for name, begins in (("p.png", b"\x89PNG"), ("p.svg", b"<?xml")):
            self.ends(topaz("compare", EXAMPLES / "ghz.counts.json", GHZ, "--plot", self.place / name), 0, "plotted: ")
            self.assertTrue((self.place / name).read_bytes().startswith(begins))
        self.ends(topaz("compare", EXAMPLES / "ghz.counts.json", GHZ, "--plot", self.place / "p.xyz"), 2, err="p.xyz: cannot be written")


class Ends(Command):
    """How a run ends where its surroundings fail."""

    def test_closed_pipe(self):
        done = subprocess.run(["bash", "-c", 'set -o pipefail; "$0" "$1" list "${@:2}" | head -n 1', *LONG, *[str(EXAMPLES / "gates.book")] * 3000], stdout=subprocess.PIPE, stderr=subprocess.PIPE, timeout=60)
        self.assertEqual((done.returncode, done.stderr, done.stdout.count(b"\n")), (128 + signal.SIGPIPE, b"", 1))

    def test_full_disk_and_no_output(self):
        with open("/dev/full", "wb") as full:
            self.ends(topaz("list", EXAMPLES / "bell.book", stdout=full), 2, err="topaz: standard output: No space left on device")
        done = subprocess.run(["sh", "-c", '"$0" "$1" list "$2" >&-', *LONG, str(EXAMPLES / "bell.book")], stderr=subprocess.PIPE, timeout=60)
        self.assertEqual((done.returncode, done.stderr), (2, b""))

    def stopped(self, words, ready, **more):
        """A command that waits, which `ready` waits for, is stopped by Ctrl-C."""
        with subprocess.Popen([*LONG, *words], stdout=subprocess.PIPE, stderr=subprocess.PIPE, **more) as running:
            ready(running)
            began = time.monotonic()
            running.send_signal(signal.SIGINT)
            _, err = running.communicate(timeout=30)
        self.assertEqual((running.returncode, err.replace(b"\n", b"")), (130, b"topaz: stopped"))
        self.assertLess(time.monotonic() - began, SLOW)

    def test_ctrl_c(self):
        def reads_input(running):
            for _ in range(200):
                time.sleep(0.1)
                if Path(f"/proc/{running.pid}/syscall").read_text().startswith("0 0x0 "):
                    return
        reads, writes = os.pipe()
        self.stopped(["list", "-"], reads_input, stdin=reads)
        self.stopped(["make", "-", "--out", "-"], reads_input, stdin=reads)
        os.close(reads)
        os.close(writes)

    def test_ctrl_c_in_a_list(self):
        waits = self.place / "waits.book"
        os.mkfifo(waits)
        self.stopped(["list", "--jobs", "2", str(EXAMPLES / "bell.book"), str(waits), str(EXAMPLES / "bell.book")], lambda running: [running.stdout.readline() for _ in range(4)])

    def test_progress_on_a_terminal(self):
        seen, given = pty.openpty()
        done = subprocess.run([*LONG, "list", *[str(EXAMPLES / "bell.book")] * 12], stdout=subprocess.PIPE, stderr=given, timeout=60)
        os.close(given)
        drawn = os.read(seen, 65536).decode()
        os.close(seen)
        self.assertIn("12 of 12 books", drawn)
        self.assertTrue(drawn.endswith("\r\x1b[K"))
        self.assertEqual((done.returncode, done.stdout.count(b"\n")), (0, 49))


class Library(Command):
    """Where the library is found, and what is said where it is not."""

    def test_none(self):
        self.ends(topaz("list", EXAMPLES / "bell.book", env={"TOPAZFERN_LIBRARY": "/no/such.so"}), 2, err=["topaz: no shared library: /no/such.so", "python/make-library makes it"])

    def test_a_call_that_is_missing(self):
        empty = self.place / "libtopazfern.so"
        subprocess.run([os.environ.get("CC", "cc"), "-shared", "-o", str(empty), "-x", "c", "/dev/null"], check=True)
        self.ends(topaz("list", EXAMPLES / "bell.book", env={"TOPAZFERN_LIBRARY": str(empty)}), 2, err=f"{empty} has no call topazfern_listing: it is older than this package")

    def test_fresh_clone(self):
        """The first command on a clone without a library: rt is a script here that answers as rt does."""
        clone = self.place / "clone"
        clone.mkdir()
        shutil.copy(TOPAZ, clone)
        shutil.copytree(ROOT / "python", clone / "python", ignore=shutil.ignore_patterns("*.so", "__pycache__"))
        shutil.copy(ROOT / "crates.txt", clone)
        (clone / "crates/topazfern").mkdir(parents=True)
        tools = self.place / "bin"
        tools.mkdir()
        archive = ROOT / "crates/topazfern/out/libtopazfern.a"
        rt = tools / "rt"
        rt.write_text(f"#!/bin/sh\necho called >>'{self.place}/called'\nfor n in 1 2 3 4 5 6 7 8 9 10; do echo \"rt: chose --jobs 2 for crate$n\"; echo 'logic=proved functions=1'; done\n"
                      f"mkdir -p out && cp '{archive}' out/\n")
        rt.chmod(rt.stat().st_mode | stat.S_IXUSR)
        command = [sys.executable, str(clone / "topaz"), "list", str(EXAMPLES / "bell.book")]
        environment = {**os.environ, "PATH": f"{tools}:{os.environ['PATH']}"}
        environment.pop("TOPAZFERN_LIBRARY", None)
        both = [subprocess.Popen(command, stdout=subprocess.PIPE, stderr=subprocess.PIPE, env=environment) for _ in range(2)]
        said = [running.communicate(timeout=60) for running in both]
        for (out, err), running in zip(said, both):
            self.assertEqual((running.returncode, out.splitlines()[3].split(b": ")[1]), (0, b"3 C -1 0"), err)
        progress = b"".join(err for _, err in said).decode()
        for words in ("rt proves and builds the library", "an hour or more, once", "10 of ", "crates proved", "proved and built in"):
            self.assertIn(words, progress)
        self.assertEqual((self.place / "called").read_text(), "called\n")
        again = subprocess.run(command, stdout=subprocess.PIPE, stderr=subprocess.PIPE, env=environment, timeout=60)
        self.assertEqual((again.returncode, again.stderr), (0, b""))

    def test_an_old_library_serves(self):
        """Where the archive is newer and nothing can be linked, the library that is there is used."""
        clone = self.place / "clone"
        (clone / "crates/topazfern/out").mkdir(parents=True)
        shutil.copy(TOPAZ, clone)
        shutil.copytree(ROOT / "python", clone / "python", ignore=shutil.ignore_patterns("__pycache__"))
        (clone / "crates/topazfern/out/libtopazfern.a").write_bytes(b"no archive")
        done = subprocess.run([sys.executable, str(clone / "topaz"), "list", str(EXAMPLES / "zero.book")], stderr=subprocess.PIPE, stdout=subprocess.PIPE, timeout=60)
        self.assertEqual(done.returncode, 0, done.stderr)
        self.assertIn(b"the one that is there is used", done.stderr)
        self.assertIn(b"1 T 3 zero", done.stdout)

    def test_fresh_clone_without_rt(self):
        clone = self.place / "clone"
        clone.mkdir()
        shutil.copy(TOPAZ, clone)
        shutil.copytree(ROOT / "python", clone / "python", ignore=shutil.ignore_patterns("*.so", "__pycache__"))
        shutil.copy(ROOT / "crates.txt", clone)
        done = subprocess.run([sys.executable, str(clone / "topaz"), "list", str(EXAMPLES / "bell.book")], stderr=subprocess.PIPE, stdout=subprocess.PIPE, env={"PATH": "/nowhere"}, timeout=60)
        self.assertEqual(done.returncode, 2)
        self.assertIn(b"rt is not there; the library is proved and built by the Rattle kit", done.stderr)

    @unittest.skipUnless(importlib.util.find_spec("pip"), "pip is not installed")
    def test_pip(self):
        source, target = self.place / "python", self.place / "installed"
        shutil.copytree(ROOT / "python", source, ignore=shutil.ignore_patterns("__pycache__"))
        subprocess.run([sys.executable, "-m", "pip", "install", "-q", "--no-index", "--target", str(target), str(source)], check=True, stdout=subprocess.DEVNULL,
                       stderr=subprocess.DEVNULL, timeout=120)
        environment = {**os.environ, "PYTHONPATH": str(target)}
        said = subprocess.run([str(target / "bin" / "topaz"), "list", str(EXAMPLES / "paper.book")], stdout=subprocess.PIPE, env=environment, cwd="/", timeout=60)
        self.assertIn(b"1 C -1 1", said.stdout)
