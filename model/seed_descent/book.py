"""The book of document 01: tables and plots in order of arrival, what is kept beside it, and the state that a run hands on."""

from typing import NamedTuple, Optional, Tuple


class Plot(NamedTuple):
    id: bytes
    parent: Optional[int]  # its position in the book
    table: Optional[int]
    k: int
    sighting: int  # a mask
    label: Optional[int]


class Book:
    """Never changed: a line that changes the book gives another one."""

    def __init__(self, tables=(), plots=()):
        self.tables = tuple(tables)
        self.plots = tuple(plots)
        self.known = {}  # what was worked out of this book already

    def __eq__(self, other):
        return self.tables == other.tables and self.plots == other.plots

    def with_table(self, rows):
        return Book(self.tables + (tuple(rows),), self.plots)

    def with_plot(self, plot):
        return Book(self.tables, self.plots + (plot,))

    def changed(self, position, plot):
        """The book with another plot at a position."""
        return Book(self.tables, self.plots[:position] + (plot,) + self.plots[position + 1 :])

    def position(self, id):
        """Where the plot with this id stands; None if there is none."""
        if "positions" not in self.known:
            self.known["positions"] = {plot.id: i for i, plot in enumerate(self.plots)}
        return self.known["positions"].get(id)

    def children(self):
        """The positions of every plot's children, by the plot's position; those of foundations come last."""
        if "children" not in self.known:
            below = [[] for _ in range(len(self.plots) + 1)]
            for i, plot in enumerate(self.plots):
                below[-1 if plot.parent is None else plot.parent].append(i)
            self.known["children"] = below
        return self.known["children"]


class Tally(NamedTuple):
    """How many lines of a scanner were accepted, and how many refused."""

    accepted: int = 0
    refused: int = 0

    def and_(self, other):
        return Tally(self.accepted + other.accepted, self.refused + other.refused)


class Kept(NamedTuple):
    """What a run keeps beside the book: a tally for each scanner (U5), and the scanner that lines come from."""

    tallies: Tuple[Tally, ...]
    scanner: int = 0

    def with_tally(self, scanner, change):
        """The same with another tally for one scanner, made of the one that it has. A scanner that has none changes nothing."""
        return self._replace(tallies=tuple(change(tally) if n == scanner else tally for n, tally in enumerate(self.tallies)))


class State(NamedTuple):
    book: Book
    kept: Kept
