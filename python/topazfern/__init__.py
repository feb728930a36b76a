"""Exact amplitudes of Clifford circuits, chances of records, tables and books: the proved library Topazfern from Python.

>>> from topazfern import Circuit, Record, Book
>>> print(Circuit(2).h(0).cx(0, 1).amplitude("00", "11"))
-1 0
>>> Record(2).h(0).cx(0, 1).measure(0, 1).measure(1, 1).chance()
Fraction(1, 2)

An amplitude is a power of root two and a phase in eighth turns, or zero. All answers are the library's; this package makes bytes,
calls it and shows. Where the shared library is found: ``topazfern.library``.
"""
from .book import Answer, Body, Book
from .circuit import Circuit, Record, Tableau, closing, inverse, product
from .library import Amount
from .refusals import CannotRead, Missing, NoLibrary, Refused
from .table import Table, Tie

__version__ = "1.0"
__all__ = ["Amount", "Answer", "Body", "Book", "CannotRead", "Circuit", "Missing", "NoLibrary", "Record", "Refused", "Table", "Tableau", "Tie", "closing",
           "inverse", "product"]
