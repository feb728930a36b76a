"""Bars in the terminal, a bar of progress, and a plot where matplotlib is there."""
from __future__ import annotations

import sys
import time
from typing import IO, List, Optional, Sequence, Tuple

WIDTH = 40  # letters of a whole bar
MOST_BARS = 64  # of a plot


def full(stream: Optional[IO[str]] = None) -> str:
    """The letter of a bar: a block where it can be written."""
    try:
        "█".encode(getattr(stream or sys.stdout, "encoding", None) or "ascii")
        return "█"
    except (UnicodeError, LookupError):
        return "#"


def bar(share: float, letter: str = "█", width: int = WIDTH) -> str:
    """A bar for a share of the largest; what is there at all has one letter.

    >>> bar(0.5, "#", 8), bar(0.0001, "#"), bar(0, "#")
    ('####', '#', '')
    """
    return letter * max(1 if share > 0 else 0, round(share * width))


def chance_text(power: Optional[int]) -> str:
    """One over two to a power, as a crew reads it.

    >>> chance_text(None), chance_text(0), chance_text(3), chance_text(40)
    ('none', '1', '1/8', '1/2^40')
    """
    if power is None:
        return "none"
    return "1" if power == 0 else f"1/{1 << power}" if power <= 16 else f"1/2^{power}"


def table(rows: Sequence[Sequence[str]], right: Sequence[int] = ()) -> List[str]:
    """Rows in columns; the columns of `right` end together.

    >>> table([["a", "1"], ["bb", "22"]], right=[1])
    ['a    1', 'bb  22']
    """
    widths = [max(len(row[at]) for row in rows) for at in range(len(rows[0]))] if rows else []
    lines = []
    for row in rows:
        cells = [cell.rjust(width) if at in right else cell.ljust(width) for at, (cell, width) in enumerate(zip(row, widths))]
        lines.append("  ".join(cells).rstrip())
    return lines


class Progress:
    """A bar of progress on a terminal; anywhere else it is silent."""

    def __init__(self, total: int, what: str, stream: Optional[IO[str]] = None) -> None:
        self.stream = stream or sys.stderr
        self.total, self.what, self.done, self.drawn, self.last = total, what, 0, False, 0.0
        self.shown = total > 1 and self.stream.isatty()
        self.letter = full(self.stream)

    def step(self) -> None:
        self.done += 1
        if self.shown and (time.monotonic() - self.last > 0.1 or self.done == self.total):
            self.last = time.monotonic()
            filled = bar(self.done / self.total, self.letter, 30).ljust(30, ".")
            self.stream.write(f"\r\x1b[K{filled} {self.done} of {self.total} {self.what}")
            self.stream.flush()
            self.drawn = True

    def clear(self) -> None:
        """Makes room for other lines."""
        if self.drawn:
            self.stream.write("\r\x1b[K")
            self.stream.flush()
            self.drawn = False


def plotted(path: str, title: str, rows: Sequence[Tuple[str, float, float]]) -> None:
    """Counts beside chances as a picture, PNG or SVG by the file's name; ImportError where matplotlib is not there."""
    import matplotlib

    matplotlib.use("Agg")
    from matplotlib import pyplot

    kept = rows[:MOST_BARS]
    figure, axes = pyplot.subplots(figsize=(max(6.4, 0.35 * len(kept) + 2), 4.8))
    places = range(len(kept))
    axes.bar([place - 0.2 for place in places], [row[1] for row in kept], 0.4, label="counted")
    axes.bar([place + 0.2 for place in places], [row[2] for row in kept], 0.4, label="ideal")
    axes.set_xticks(list(places))
    axes.set_xticklabels([row[0] for row in kept], rotation=90 if len(kept) > 4 else 0, family="monospace")
    axes.set_ylabel("share of runs")
    axes.set_title(title + (f" (the first {MOST_BARS} strings)" if len(rows) > MOST_BARS else ""), fontsize="medium")
    axes.legend()
    figure.tight_layout()
    figure.savefig(path)
    pyplot.close(figure)
