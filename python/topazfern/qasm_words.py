"""OpenQASM by its words: tokens, and the numbers that they compute."""
from __future__ import annotations

import math
import operator
import re
from collections import Counter
from typing import Any, Callable, Dict, List, NamedTuple, NoReturn, Optional

from .refusals import CannotRead

TOKEN = re.compile(r"""
    (?P<space>\s+) | (?P<comment>//[^\n]*|/\*.*?\*/) | (?P<pragma>\#?pragma\b[^\n]*) | (?P<text>"[^"\n]*"|'[^'\n]*')
  | (?P<number>0[xX][0-9a-fA-F_]+|0[bB][01_]+|(?:\d[\d_]*(?:\.[\d_]*)?|\.\d+)(?:[eE][+-]?\d+)?)
  | (?P<name>\$\d+|[^\W\d]\w*) | (?P<sign>->|==|!=|<=|>=|\*\*|&&|\|\||<<|>>|[-+*/%^@;:,()\[\]{}<>=!&|~.])
""", re.X | re.S)
STRINGS = re.compile(r"(?://|#)\s*topaz:\s*(.*)")

CONSTANTS = {"pi": math.pi, "π": math.pi, "tau": math.tau, "τ": math.tau, "euler": math.e, "ℇ": math.e}
LONGEST = 40  # letters of a number
COMPUTED: Dict[str, Callable[..., Any]] = {
    "+": operator.add, "-": operator.sub, "*": operator.mul, "%": operator.mod, "**": lambda a, b: float(a) ** b, "^": lambda a, b: float(a) ** b}
FUNCTIONS: Dict[str, Callable[..., Any]] = {"sin": math.sin, "cos": math.cos, "tan": math.tan, "exp": math.exp, "ln": math.log, "sqrt": math.sqrt}
Value = Callable[[Dict[str, Any]], Any]


class Token(NamedTuple):
    kind: str
    text: str
    line: int
    start: int


class Words:
    """A text as tokens, gone through from the first to the last."""

    def __init__(self, source: str, path: str) -> None:
        self.source, self.path, self.at, self.version = source, path, 0, 0
        self.begins = 0  # the first token of the statement that is being read
        self.notes: Counter = Counter()
        self.strings: Dict[str, str] = {}
        self.known: Dict[str, Any] = dict(CONSTANTS)
        self.tokens = self._tokens()

    def _tokens(self) -> List[Token]:
        tokens, at, line = [], 0, 1
        while at < len(self.source):
            found = TOKEN.match(self.source, at)
            if not found:
                raise CannotRead(self.source[at:at + 12].split("\n")[0], "not OpenQASM", line, self.path)
            kind, text = str(found.lastgroup), found.group()
            if self.source.startswith("/*", at) and kind != "comment":
                raise CannotRead("/*", "a comment that does not end", line, self.path)
            if len(text) > LONGEST and (kind == "number" or text[0] == "$"):
                raise CannotRead(text[:12] + "...", "a number that is too long", line, self.path)
            if kind in ("name", "number", "sign", "text"):
                tokens.append(Token(kind, text, line, at))
            elif kind == "pragma":
                self.notes["pragma"] += 1
            said = STRINGS.match(text) if kind == "comment" else None
            if said:
                words = said.group(1).split()
                self.strings.update(zip(words[::2], words[1::2]))
            line += text.count("\n")
            at = found.end()
        return [*tokens, Token("end", "", line, at)]

    @property
    def token(self) -> Token:
        return self.tokens[self.at]

    def next(self) -> Token:
        token = self.token
        self.at += token.kind != "end"
        return token

    def has(self, text: str) -> bool:
        """Goes past a token where it is this one."""
        if self.token.text != text or self.token.kind in ("text", "end"):
            return False
        self.at += 1
        return True

    def need(self, text: str) -> None:
        if not self.has(text):
            self.bad(f"{text!r} is missing before {self.token.text!r}" if self.token.text else f"{text!r} is missing at the end")

    def name(self) -> str:
        if self.token.kind != "name":
            self.bad(f"a name is missing before {self.token.text!r}")
        return self.next().text

    def what(self) -> str:
        """The words of the statement that is being read."""
        end = self.begins
        while self.tokens[end].text not in (";", "{", "}") and self.tokens[end].kind != "end":
            end += 1
        text = " ".join(self.source[self.tokens[self.begins].start:self.tokens[end].start].split())
        return text if len(text) <= 60 else text[:57] + "..."

    def bad(self, words: str, what: Optional[str] = None, line: Optional[int] = None) -> NoReturn:
        raise CannotRead(self.what() if what is None else what, words, self.tokens[self.begins].line if line is None else line, self.path)

    # ---- expressions

    def value(self, tightness: int = 0) -> Value:
        """An expression, to be computed once its names are known."""
        left = self._single()
        levels = {"+": 1, "-": 1, "*": 2, "/": 2, "%": 2, "**": 3, "^": 3}
        while self.token.kind == "sign" and levels.get(self.token.text, 0) > tightness:
            sign = self.next().text
            right = self.value(levels[sign] - (levels[sign] == 3))
            left = self._both(sign, left, right)
        return left

    def _both(self, sign: str, left: Value, right: Value) -> Value:
        line, what = self.tokens[self.begins].line, self.what()

        def computed(names: Dict[str, Any]) -> Any:
            a, b = left(names), right(names)
            try:
                if sign == "/":
                    return self._divided(a, b, what, line)
                return COMPUTED[sign](a, b)
            except (ArithmeticError, ValueError, TypeError):
                self.bad("a number that cannot be computed", what, line)
        return computed

    def _divided(self, a: Any, b: Any, what: str, line: int) -> Any:
        if isinstance(a, int) and isinstance(b, int):
            if a % b == 0:
                return a // b
            if self.version != 2:
                self.bad("a division of whole numbers that leaves a rest; write pi first, as in 3*pi/2", what, line)
        return a / b

    def _single(self) -> Value:
        if self.has("-"):
            inner = self.value(2)
            return lambda names: -inner(names)
        if self.has("+"):
            return self.value(2)
        if self.has("("):
            inner = self.value()
            self.need(")")
            return inner
        token = self.next()
        if token.kind == "number":
            text = token.text.replace("_", "")
            number = int(text, 0) if re.fullmatch(r"0[xXbB]\w+|\d+", text) and not re.fullmatch(r"0\d+", text) else float(text)
            return lambda names: number
        if token.kind == "name" and token.text in FUNCTIONS and self.has("("):
            inner = self.value()
            self.need(")")
            return self._of(token.text, inner)
        if token.kind != "name":
            self.bad(f"a number is missing before {token.text!r}")
        return self._named(token.text)

    def _of(self, name: str, inner: Value) -> Value:
        line, what, function = self.tokens[self.begins].line, self.what(), FUNCTIONS[name]

        def computed(names: Dict[str, Any]) -> Any:
            try:
                return function(inner(names))
            except (ArithmeticError, ValueError):
                self.bad("a number that cannot be computed", what, line)
        return computed

    def _named(self, name: str) -> Value:
        line, what = self.tokens[self.begins].line, self.what()

        def computed(names: Dict[str, Any]) -> Any:
            if name not in names:
                self.bad(f"{name} is not known", what, line)
            return names[name]
        return computed

    def whole(self) -> int:
        """An expression that must be a whole number now."""
        number = self.value()(self.known)
        if not isinstance(number, int):
            self.bad(f"{number} is not a whole number")
        return number
