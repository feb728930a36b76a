"""The command topaz: books from OpenQASM and Stim, a night's list, chances, and a processor's counts beside them."""
from __future__ import annotations

import argparse
import io
import os
import signal
import subprocess
import sys
from collections import deque
from concurrent.futures import ThreadPoolExecutor
from pathlib import Path
from typing import Any, Callable, Deque, Dict, Iterator, List, NamedTuple, NoReturn, Optional, Sequence, Tuple

from . import __version__, chart, counts, export, qasm, stim, text, why
from . import gates as g
from .book import Body, Book
from .circuit import TABLE
from .library import BESIDE, VARIABLE
from .program import Program, of_body
from .refusals import WORDS, CannotRead, Missing, NoLibrary, Refused

MOST_TEXT = 16 << 20  # bytes of a file that is read as text
MOST_JOBS = 256
FINE, FOUND, TROUBLE, STOPPED = 0, 1, 2, 130
STATUS = "Exit status: 0 fine; 1 something was refused, or counts do not agree; 2 it could not be done; 130 stopped by Ctrl-C."


class Trouble(Exception):
    """What stops a command: the words say the file and what to do."""


# ---- files

def raw(path: str, most: int) -> bytes:
    """The bytes of a file, or of standard input for "-"; one more than `most` where it is longer."""
    try:
        if path == "-":
            return sys.stdin.buffer.read(most + 1)
        with open(path, "rb") as file:
            return file.read(most + 1)
    except OSError as error:
        raise Trouble(f"{path}: cannot be read: {error.strerror}") from None
    except ValueError as error:
        raise Trouble(f"{path!r}: no name of a file: {error}") from None


def decoded(path: str, data: bytes) -> str:
    if len(data) > MOST_TEXT:
        raise Trouble(f"{path}: longer than {MOST_TEXT >> 20} MiB; a book has at most {g.MOST_BYTES:,} bytes")
    try:
        return data.decode("utf-8-sig").replace("\r\n", "\n")
    except UnicodeDecodeError as error:
        line = data.count(b"\n", 0, error.start) + 1
        raise Trouble(f"{path}: line {line}: not UTF-8 (byte {error.start} is {data[error.start]:#04x}); save it as UTF-8") from None


def format_of(path: str, data: bytes, given: Optional[str]) -> str:
    """What a file is: as it is told, by its end, or by how it begins."""
    if given:
        return given
    if data[:2] == b"QN" or path.endswith(".book"):
        return "book"
    if path.endswith(".stim"):
        return "stim"
    source = data[:4096].decode("utf-8", "replace")
    if text.looks_like(source):
        return "text"
    if path.endswith((".qasm", ".qasm2", ".qasm3", ".inc")) or "OPENQASM" in source:
        return "qasm"
    raise Trouble(f"{path}: neither OpenQASM, Stim, a book nor its text by its name or first line; say --format")


def program_of(path: str, format: Optional[str], body: Optional[int]) -> Program:
    """A circuit with its outputs open, out of any file."""
    data = raw(path, MOST_TEXT)
    kind = format_of(path, data, format)
    if kind in ("qasm", "stim"):
        return (qasm if kind == "qasm" else stim).read(decoded(path, data), path)
    if kind == "text":
        edition, bodies = text.read(decoded(path, data), path)
        book = Book.laid(bodies, edition)
    else:
        book = Book.of(data[:g.MOST_BYTES + 1])
    j, chosen = one_body(path, book, body)
    book.answer(j)  # a refused body is refused here, with its number
    return of_body(chosen, book.edition, f"{path} body {j}" if len(book) > 1 else path)


def one_body(path: str, book: Book, body: Optional[int]) -> Tuple[int, Body]:
    bodies = book.bodies
    if body is None and len(bodies) != 1:
        raise Trouble(f"{path}: has {len(bodies)} bodies; say which by --body 0 to {len(bodies) - 1}" if bodies else f"{path}: has no body")
    j = body or 0
    if not 0 <= j < len(bodies):
        raise Trouble(f"{path}: has no body {j}; it has {len(bodies)}, counted from 0")
    return j, bodies[j]


def put(path: str, data: bytes) -> None:
    """Writes a file whole or not at all."""
    if path == "-":
        sys.stdout.buffer.write(data)
        return
    target = Path(os.path.realpath(path))  # a link stays, and what it leads to is written
    special = target.exists() and not target.is_file()
    beside = target if special else target.with_name(f".{target.name}.{os.getpid()}")
    try:
        beside.write_bytes(data)
        if not special:
            os.replace(beside, target)
    except OSError as error:
        raise Trouble(f"{path}: cannot be written: {error.strerror}") from None
    finally:
        if not special and beside.exists():
            beside.unlink()


def told(program: Program) -> None:
    """What a file said that says nothing of the state."""
    if program.notes:
        said = ", ".join(f"{name} ({count})" if count > 1 else name for name, count in sorted(program.notes.items()))
        print(f"topaz: {program.path}: without effect on the state, and not in the book: {said}", file=sys.stderr)


def counted(number: int, what: str) -> str:
    return f"{number} {what}" if number == 1 else f"{number} {what[:-1]}ies" if what.endswith("y") else f"{number} {what}s"


# ---- make

def outputs_of(program: Program, given: Sequence[str]) -> List[str]:
    if list(given) == ["all"]:
        if program.letters > 4:
            raise Trouble(f"{program.path}: has 2^{program.letters} outputs, and a book 16 bodies; say which by --output, or ask topaz chances")
        return [format(n, f"0{program.letters}b") for n in range(1 << program.letters)]
    return list(given) or [program.output or "0" * program.letters]


def made(path: str, args: argparse.Namespace) -> Tuple[int, List[Body]]:
    """The bodies that a file gives, one for each input and output."""
    data = raw(path, MOST_TEXT)
    kind = format_of(path, data, args.format)
    if kind == "book":
        raise Trouble(f"{path}: is a book already; topaz show tells what it has")
    if kind == "text":
        edition, bodies = text.read(decoded(path, data), path)
        if args.edition not in (None, edition):
            raise Trouble(f"{path}: is of edition {edition}; leave --edition out")
        return edition, bodies
    program = (qasm if kind == "qasm" else stim).read(decoded(path, data), path)
    told(program)
    edition = args.edition or 2
    inputs = args.input or [program.input or "0" * program.width]
    bodies = [program.body(given, wanted, edition) for given in inputs for wanted in outputs_of(program, args.output)]
    for body in bodies:
        refusal = next(why.reasons(Book.laid([body], edition)), None)
        if refusal:
            raise Trouble(f"{path}: does not fit into a book: refused {refusal.number}: {refusal.words}")
    return edition, bodies


def packed(bodies: List[Body], split: bool) -> List[List[Body]]:
    """Bodies in as many books as they need."""
    books: List[List[Body]] = [[]]
    room = g.MOST_BYTES - 4
    for body in bodies:
        size = 8 + len(body.data)
        if books[-1] and (len(books[-1]) == g.MOST_BODIES or size > room):
            books.append([])
            room = g.MOST_BYTES - 4
        books[-1].append(body)
        room -= size
    if len(books) > 1 and not split:
        raise Trouble(f"{len(bodies)} bodies are more than one book holds (16, in 60,000 bytes); say --split for {len(books)} books, or ask for fewer")
    return books


def make(args: argparse.Namespace) -> int:
    parts = [made(path, args) for path in args.files]
    editions = {edition for edition, _ in parts}
    if len(editions) > 1:
        raise Trouble("files of different editions do not go into one book")
    if args.out != "-" and args.out in args.files:
        raise Trouble(f"{args.out}: would be written over the file that it is made of")
    books = packed([body for _, bodies in parts for body in bodies], args.split)
    status = FINE
    for number, bodies in enumerate(books):
        out = args.out if len(books) == 1 else str(Path(args.out).with_suffix("")) + f"-{number}" + Path(args.out).suffix
        book = Book.laid(bodies, parts[0][0])
        put(out, book.data)
        for reason in why.reasons(book):
            status = FOUND
            print(f"topaz: {out}: {reason}", file=sys.stderr)
        if out != "-":
            print(f"{out}: {counted(len(bodies), 'body')}, {len(book.data)} bytes")
    return status


# ---- show and why

def show(args: argparse.Namespace) -> int:
    for path in args.files:
        book = Book.of(raw(path, g.MOST_BYTES))
        refusal = next(why.reasons(book), None) if book.refusal() else None
        if refusal:
            raise Trouble(f"{path}: {refusal}")
        if args.form == "text" and args.body is None:
            sys.stdout.write(text.shown(book))
            continue
        j, body = one_body(path, book, args.body)
        if args.form == "text":
            sys.stdout.write(f"book edition {book.edition}\n\n" + text.shown_body(body, book.edition))
            continue
        if body.kind == TABLE:
            raise Trouble(f"{path}: body {j} is a table, which neither OpenQASM nor Stim can say; leave --as out")
        book.answer(j)
        sys.stdout.write(export.written(body, book.edition, args.form))
    return FINE


def explain(args: argparse.Namespace) -> int:
    status = FINE
    for path in args.files:
        found = False
        for reason in why.reasons(Book.of(raw(path, g.MOST_BYTES))):
            found, status = True, FOUND
            print(f"{path}: {reason}")
        if not found:
            print(f"{path}: nothing is refused")
    return status


# ---- list

class Listed(NamedTuple):
    """A book's part of the list."""

    lines: List[str]
    bodies: int
    refused: int  # bodies
    whole: int  # 1 where the whole book was refused
    unread: int  # 1 where the file could not be read


def listed(path: str, strict: bool) -> Listed:
    try:
        book = Book.of(raw(path, g.MOST_BYTES))
    except Trouble as trouble:
        return Listed([str(trouble)], 0, 0, 0, 1)
    lines = book.listing(strict).splitlines()
    if lines[0].startswith("refused "):
        return Listed([f"{path}: {in_words(lines[0])}"], 0, 0, 1, 0)
    refused = sum(line.split()[1] == "refused" for line in lines[1:])
    return Listed([f"{path}: {in_words(line)}" for line in lines[1:]], len(lines) - 1, refused, 0, 0)


def in_words(line: str) -> str:
    """A line of a listing, the number of a refusal with its words."""
    words = line.split()
    return f"{line} ({WORDS[int(words[-1])]})" if words[-2:-1] == ["refused"] else line


def along(paths: Sequence[str], jobs: int, strict: bool) -> Iterator[Listed]:
    """The parts in the order of the files, however many are worked on at a time; the library runs outside Python's lock."""
    if jobs == 1 or len(paths) == 1:
        for path in paths:
            yield listed(path, strict)
        return
    pool = ThreadPoolExecutor(min(jobs, MOST_JOBS))
    waiting: Deque = deque()
    try:
        for path in paths:
            waiting.append(pool.submit(listed, path, strict))
            if len(waiting) > 8 * jobs:
                yield waiting.popleft().result()
        while waiting:
            yield waiting.popleft().result()
    finally:
        pool.shutdown(wait=False, cancel_futures=True)  # a book that never comes holds up nobody who stops the list


def list_books(args: argparse.Namespace) -> int:
    progress = chart.Progress(len(args.files), "books")
    parts = []
    try:
        for part in along(args.files, args.jobs, args.strict):
            progress.clear()
            sys.stdout.write("".join(line + "\n" for line in part.lines))
            sys.stdout.flush()
            parts.append(part._replace(lines=[]))
            progress.step()
    finally:
        progress.clear()
    bodies, refused, whole, unread = (sum(column) for column in zip(*[part[1:] for part in parts]))
    print(f"{counted(len(parts), 'book')}: {counted(bodies, 'body')} listed, {refused} of them refused; {counted(whole, 'book')} refused whole, {unread} not read")
    return FOUND if refused or whole or unread else FINE


# ---- chances and compare

def strings(program: Program, args: argparse.Namespace) -> Tuple[int, str]:
    """The input as a number and as text; the order of an output's letters as it was asked for."""
    given = args.input or program.input or "0" * program.width
    if args.first:
        program.first_left = args.first == "left"
    return program.start(given), given


def chances(args: argparse.Namespace) -> int:
    program = program_of(args.file, args.format, args.body)
    told(program)
    start, given = strings(program, args)
    try:
        possible = {program.text_of(bits): (bits, power) for bits, power in program.possible(start, args.most)}
    except ValueError as error:
        raise Trouble(f"{program.path}: {error}; say --most for more, or ask for single outputs by topaz make --output") from None
    every = program.letters <= 6 or args.all and program.letters <= 16
    outputs = [format(n, f"0{program.letters}b") for n in range(1 << program.letters)] if every else sorted(possible)
    circuit = None if program.count else program.circuit(program.edition)
    letter = chart.full()
    rows = [["output", "chance", "amplitude" if circuit else "", ""]]
    for output in outputs:
        power = possible[output][1] if output in possible else None
        amplitude = str(circuit.amplitude(start, sum(bit << wire for wire, bit in enumerate(program.bit_of(output))))) if circuit else ""
        rows.append([output, chart.chance_text(power), amplitude, chart.bar(0.5 ** power if power is not None else 0, letter)])
    what = f"{program.count} measured bits" if program.count else f"{program.width} wires"
    print(f"{program.path}: {what}, from {given}: {len(possible)} of 2^{program.letters} outputs can occur")
    print(*chart.table(rows), sep="\n")
    return FINE


def compare(args: argparse.Namespace) -> int:
    program = program_of(args.circuit, args.format, args.body)
    told(program)
    start, given = strings(program, args)
    kept = counts.counts_of(decoded(args.counts, raw(args.counts, MOST_TEXT)), args.counts)
    found = counts.compared(program, kept, start, args.counts)
    what = "measured bits" if program.count else "wires"
    print(f"{args.counts} beside {program.path}: {found.runs} runs of {program.letters} {what} from {given}")
    print(*comparison_lines(found, args.most), sep="\n")
    agrees, line = counts.verdict(found, args.alpha, args.allow)
    print(line)
    if args.plot:
        plot(args.plot, f"{Path(args.counts).name} beside {Path(program.path).name}", found)
    return FINE if agrees else FOUND


def comparison_lines(found: counts.Comparison, most: int) -> Iterator[str]:
    letter = chart.full()
    rows = [["string", "counted", "expected", ""]]
    shown = sorted(found.rows, key=lambda row: (row.power is None, -row.counted, row.text))[:most]
    highest = max(row.counted for row in found.rows)
    for row in sorted(shown):
        expected = "cannot occur" if row.power is None else f"{found.expected:.6g}"
        rows.append([row.text, str(row.counted), expected, chart.bar(row.counted / highest, letter)])
    yield from chart.table(rows, right=[1, 2])
    if len(shown) < len(found.rows):
        yield f"and {len(found.rows) - len(shown)} strings more (--most shows more)"
    possible = sum(row.power is not None for row in found.rows)
    yield f"strings that can occur: {1 << found.spread if found.spread <= 16 else f'2^{found.spread}'}, of which {possible} were counted"
    yield f"counts of strings that cannot occur: {found.forbidden} of {found.runs}"
    yield f"total variation distance: {found.distance:.4g}"
    degrees = "1 degree" if found.freedom == 1 else f"{found.freedom} degrees"
    over = " over the strings that can occur" if found.forbidden else ""
    yield f"G-test{over}: G = {found.g:.4g}, {degrees} of freedom, p = {found.p:.3g}"


def plot(path: str, title: str, found: counts.Comparison) -> None:
    rows = [(row.text, row.counted / found.runs, 0.0 if row.power is None else 0.5 ** row.power) for row in found.rows]
    try:
        chart.plotted(path, title, rows)
    except ImportError:
        raise Trouble("--plot needs matplotlib, which is not installed here: pip install matplotlib") from None
    except (OSError, ValueError) as error:
        raise Trouble(f"{path}: cannot be written: {error}") from None
    print(f"plotted: {path}")


# ---- the command

def share(word: str) -> float:
    value = float(word)
    if not 0 <= value <= 1:
        raise argparse.ArgumentTypeError(f"{word} is not between 0 and 1")
    return value


def positive(word: str) -> int:
    value = int(word)
    if value < 1:
        raise argparse.ArgumentTypeError(f"{word} is not 1 or more")
    return value


FORMAT: Dict[str, Any] = {"choices": ["qasm", "stim", "book", "text"], "help": "what the file is, where its name and first line do not say it"}
Does = Callable[[argparse.Namespace], int]
BODY: Dict[str, Any] = {"type": int, "metavar": "J", "help": "body J of a book, from 0 on"}
INPUT: Dict[str, Any] = {"metavar": "STRING", "help": "the input string, wire 0 last (default: all 0)"}
FIRST: Dict[str, Any] = {"choices": ["left", "right"], "help": "where the first bit of an output stands (default: right; left for Stim and for records)"}


def parser() -> argparse.ArgumentParser:
    main = argparse.ArgumentParser(prog="topaz", description=__doc__, epilog=STATUS)
    main.add_argument("--version", action="version", version=f"topaz {__version__}")
    commands = main.add_subparsers(metavar="COMMAND", required=True, dest="command")

    def command(name: str, does: Does, words: str) -> argparse.ArgumentParser:
        added = commands.add_parser(name, help=words, description=words[0].upper() + words[1:] + ".", epilog=STATUS)
        added.set_defaults(does=does)
        return added

    book_commands(command)
    chance_commands(command)
    return main


def book_commands(command: Callable[[str, Does, str], argparse.ArgumentParser]) -> None:
    """make, show, list and why."""
    add = command("make", make, "a book from OpenQASM 2 or 3, Stim, or the text of topaz show")
    add.add_argument("files", nargs="+", metavar="FILE", help="circuits; - is standard input")
    add.add_argument("--out", required=True, metavar="BOOK", help="the book to write; - is standard output")
    add.add_argument("--input", action="append", default=[], metavar="STRING", help="an input string, wire 0 last; may be given several times")
    add.add_argument("--output", action="append", default=[], metavar="STRING",
                     help="an output: over the wires, or where the file measures, over its bits; several times, or 'all' (default: all 0)")
    add.add_argument("--edition", type=int, choices=[1, 2], help="the book's edition (default: 2)")
    add.add_argument("--split", action="store_true", help="several books where one does not hold all bodies: BOOK-0, BOOK-1, ..")
    add.add_argument("--format", choices=["qasm", "stim", "text"], help=str(FORMAT["help"]))

    add = command("show", show, "a book as text, which topaz make reads back")
    add.add_argument("files", nargs="+", metavar="BOOK")
    add.add_argument("--body", **BODY)
    add.add_argument("--as", dest="form", choices=["text", "qasm2", "qasm3", "stim"], default="text", help="one body as OpenQASM or Stim")

    add = command("list", list_books, "a night's list: a line for each body of each book")
    add.add_argument("files", nargs="+", metavar="BOOK")
    add.add_argument("--jobs", type=positive, default=os.cpu_count() or 1, metavar="N", help="so many books at a time (default: as many as processors)")
    add.add_argument("--strict", action="store_true", help="refuse a book whole where one body is refused")

    add = command("why", explain, "why books and bodies are refused, and where")
    add.add_argument("files", nargs="+", metavar="BOOK")


def chance_commands(command: Callable[[str, Does, str], argparse.ArgumentParser]) -> None:
    """chances and compare."""
    add = command("chances", chances, "the chances of all outputs of a circuit or record")
    add.add_argument("file", metavar="FILE", help="a book, OpenQASM or Stim")
    add.add_argument("--all", action="store_true", help="also the outputs that cannot occur, up to 16 bits")
    add.add_argument("--most", type=positive, default=4096, metavar="N", help="as many outputs at most (default: 4096)")

    more = command("compare", compare, "a processor's counts beside the ideal chances, with a verdict")
    more.add_argument("counts", metavar="COUNTS", help='a JSON file, as {"00": 512, "11": 488}')
    more.add_argument("circuit", metavar="FILE", help="OpenQASM, Stim or a book")
    more.add_argument("--alpha", type=share, default=0.01, help="the p-value below which counts differ (default: 0.01)")
    more.add_argument("--allow", type=share, default=0.0, metavar="SHARE", help="the share of counts that may be of strings that cannot occur (default: 0)")
    more.add_argument("--most", type=positive, default=64, metavar="N", help="show as many strings at most (default: 64)")
    more.add_argument("--plot", metavar="PICTURE", help="a PNG or SVG by matplotlib, where that is installed")
    for one in (add, more):
        one.add_argument("--input", **INPUT)
        one.add_argument("--body", **BODY)
        one.add_argument("--format", **FORMAT)
        one.add_argument("--first", **FIRST)


def ready() -> None:
    """In a clone, makes the library where it is not there or older than the archive that it is made of."""
    maker = BESIDE.parents[1] / "make-library"
    archive = BESIDE.parents[2] / "crates" / "topazfern" / "out" / "libtopazfern.a"
    if os.environ.get(VARIABLE) or not maker.is_file():
        return
    if BESIDE.is_file() and not (archive.is_file() and archive.stat().st_mtime > BESIDE.stat().st_mtime):
        return
    if subprocess.run([sys.executable, str(maker), "--if-needed"], stdout=sys.stderr).returncode == 0:
        return
    if not BESIDE.is_file():
        raise Trouble("the library could not be made; the lines above say why")
    print("topaz: the library could not be made again; the one that is there is used", file=sys.stderr)


def done(args: argparse.Namespace) -> int:
    """Runs a command; a refusal that nothing else tells is told with the file."""
    try:
        return args.does(args)
    except Refused as refusal:
        path = getattr(args, "file", None) or getattr(args, "circuit", None) or args.files[0]
        raise Trouble(f"{path}: {refusal}") from None


def main(argv: Optional[Sequence[str]] = None) -> int:
    """Runs the command and answers its exit status."""
    if hasattr(signal, "SIGPIPE"):
        signal.signal(signal.SIGPIPE, signal.SIG_DFL)  # a closed pipe ends it, as it ends other commands
    if sys.stdout is None or sys.stderr is None:
        return TROUBLE  # no place to write to, and none to say so
    for stream in (sys.stdout, sys.stderr):
        if isinstance(stream, io.TextIOWrapper):
            stream.reconfigure(errors="surrogateescape")  # names of files are printed as they are
    try:
        args = parser().parse_args(argv)
        ready()
        status = done(args)
        sys.stdout.flush()
        return status
    except (Trouble, CannotRead, Missing, NoLibrary) as trouble:
        sys.stdout.flush()
        print(f"topaz: {trouble}", file=sys.stderr)
        return TROUBLE
    except KeyboardInterrupt:
        print("\ntopaz: stopped", file=sys.stderr, flush=True)
        os._exit(STOPPED)  # whatever a thread still waits for
    except OSError as error:
        print(f"topaz: {error.filename or 'standard output'}: {error.strerror}", file=sys.stderr)
        os.dup2(os.open(os.devnull, os.O_WRONLY), 1)  # what is left in the buffer has no place to go
        return TROUBLE


def run() -> NoReturn:
    """The command, as pip installs it."""
    sys.exit(main())
