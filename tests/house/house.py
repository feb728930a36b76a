"""What the checks of this folder read: crates, their public contracts, and the definitions of their specs/."""
import re
from pathlib import Path

ROOT = Path(__file__).resolve().parents[2]
CRATES = ROOT / "crates"

# an item may go on over several lines
USE = re.compile(r"^[ \t]*(?:pub\s+)?(?:ghost\s+)?use\s+([^;{}\n]*)(?:\{([^}]*)\})?[^\n]*$", re.M)
SPECS = re.compile(r"Rattle\.(\w+)\.specs\.([\w.]+?)\.\s*")
HEAD = re.compile(r"^(?:abbrev\s+|unfoldable\s+)?(?:pub\s+)?(?:record\s+|data\s+)?([^\s:({]+)")
STARTS = re.compile(r"^(abbrev|unfoldable|pub|record|data)\b")
TOKEN = re.compile(r"[^\s(){}\[\],;.λ]+")
CLAUSE = re.compile(r"\s*(?:requires|ensures)\b")
FUNCTION = re.compile(r"^\s*(?:#\[[^\]]*\]\s*)?(pub(?:\(\w+\))? )?(?:extern \"C\" )?fn (\w+)")
IMPL = re.compile(r"^(?:unsafe )?impl\b.* for .*[^}]$")
PRIVATE = re.compile(r"^(?:pub\(\w+\) )?(?:struct|enum|trait) (\w+)", re.M)


def surface():
    """The crates whose public functions outsiders call, as README lists them."""
    text = (ROOT / "README.md").read_text(encoding="utf-8")
    line = re.search(r"^Crates that outsiders call: (.*)$", text, re.M)
    if not line:
        raise SystemExit("README.md has no line 'Crates that outsiders call: ..'")
    return re.findall(r"`(\w+)`", line.group(1).split(". ")[0])


def listed():
    """The crates of crates.txt."""
    lines = (ROOT / "crates.txt").read_text(encoding="utf-8").split("\n")
    return [l.split(":")[0].split()[0] for l in lines if ":" in l.split("#")[0]]


def names_of(text):
    """The words of a text, an infix operator under its own name as well: `a gives b` has `◌gives◌`."""
    words = set(TOKEN.findall(text))
    return words | {f"◌{w}◌" for w in words}


def used(lines):
    """What the use items bring in: a name, and the crate, the file and the name there that it comes from."""
    out = {}
    for item in USE.finditer("\n".join(lines)):
        place = SPECS.fullmatch(item.group(1))
        for name in (item.group(2) or "").split(",") if place else ():
            there, _, here = (part.strip() for part in name.partition(" as "))
            out[here or there] = (*place.groups(), there)
    return out


def unused(lines):
    """The lines, those of use items left empty."""
    return USE.sub(lambda item: "\n" * item.group(0).count("\n"), "\n".join(lines)).split("\n")


class Definitions:
    """A file of specs/: its definitions with their lines, and what it uses."""

    def __init__(self, path):
        lines = path.read_text(encoding="utf-8").split("\n")
        self.path, self.uses, self.lines, name = path, used(lines), {}, None
        for line in unused(lines):
            if not line.strip() or line.startswith(("--", "pub mod ", "infix")):
                continue
            if STARTS.match(line):
                name = HEAD.match(line).group(1)
            if name:
                self.lines.setdefault(name, []).append(line)


def specs():
    """Every file of specs/ by crate and place."""
    out = {}
    for crate in listed():
        base = CRATES / crate / "specs"
        for path in sorted(base.rglob("*.antt")):
            file = Definitions(path)
            if file.lines:
                out[crate, ".".join(path.relative_to(base).with_suffix("").parts)] = file
    return out


def find(files, crate, place, name):
    """The definition that a file has under a name: its own, or one that it hands on."""
    file = files.get((crate, place))
    if file is None:
        return None
    if name in file.lines:
        return crate, place, name
    if name in file.uses and file.uses[name] != (crate, place, name):
        return find(files, *file.uses[name])
    return None


def cites(files, found):
    """The definitions that a definition names."""
    crate, place, name = found
    file = files[crate, place]
    for word in names_of("\n".join(file.lines[name])):
        if word in file.lines:
            yield crate, place, word
        elif word in file.uses:
            there = find(files, *file.uses[word])
            if there:
                yield there


def head_from(lines, at):
    """The lines of a function's head up to its body, and the line behind them."""
    head, deep, at = [lines[at]], 0, at + 1
    # the body opens at the end of a line of the head, or on a line of its own; a clause closes the braces that it opens
    while at < len(lines) and (deep or not lines[at - 1].rstrip().endswith("{") and lines[at].strip() != "{"):
        deep += lines[at].count("{") - lines[at].count("}") if deep or CLAUSE.match(lines[at]) else 0
        head.append(lines[at])
        at += 1
    return head, at


def functions(crate):
    """The functions of a crate: file, name, whether it is public, and the lines of its head up to its body."""
    for path in sorted((CRATES / crate / "src").glob("*.rt")):
        lines = path.read_text(encoding="utf-8").split("\n")
        brings, at = used(lines), 0
        while at < len(lines):
            m = FUNCTION.match(lines[at])
            if not m:
                at += 1
                continue
            head, at = head_from(lines, at)
            yield path, m.group(2), (m.group(1) or "").strip() == "pub", head, brings


def impls(crate):
    """The clauses of a crate's impls of traits, but for types or traits of its own that are private: their members and the heads of their functions, and what the use items bring in."""
    texts = [path.read_text(encoding="utf-8") for path in sorted((CRATES / crate / "src").glob("*.rt"))]
    private = {name for text in texts for name in PRIVATE.findall(text)}
    for text in texts:
        brings, lines, at = used(text.split("\n")), unused(text.split("\n")), 0
        while at < len(lines):
            about, clauses, at = lines[at], [], at + 1
            while IMPL.match(about) and lines[at] != "}":
                if FUNCTION.match(lines[at]):
                    head, at = head_from(lines, at)
                    clauses += head
                    at = lines.index("    }", at)
                elif not lines[at].lstrip().startswith("//"):
                    clauses.append(lines[at])
                at += 1
            if clauses and not private & set(re.findall(r"\w+", about)):
                yield clauses, brings


def stated(lines, names):
    """The statements of the laws of these names, with what the modules around them are about; all of the file where names is None."""
    if names is None:
        return "\n".join(line for line in unused(lines) if not line.startswith("--"))
    text, modules, inside = [], [], None
    for line in lines:
        word = line.strip().removeprefix("pub ").split(" ")[0]
        if line.strip().startswith("module _"):
            modules, inside = modules + [line], None
        elif re.match(r"^\s*(?:pub )?\S+ : ", line):
            inside = word if word in names else None
            text += modules if inside else []
        elif inside and word == inside:
            inside = None
        if inside:
            text.append(line)
    return "\n".join(text)
