"""What the programs are timed on: lines sent to a full book, and the lines that make the book first."""

import re
from collections import namedtuple

Stream = namedtuple("Stream", "name what book lines")

PLOTS = 128

# The first five starts whose book of 128 plots some naming fits, so that with the labels off its counts aren't all zero.
STARTS = (3, 18, 32, 39, 43)

# Seven of eight classes may stand below each class, so that whatever shape the plots have there are solutions, and counts are held.
DENSE = "T,255,254,253,251,247,239,223,191"

REFUSED = ("X", "", "R,", "T,1", "C,g", "C,G1", "S,G1,0", "L,G1,9", "S,G0,007", "P,A,,0,3", "P,B,A,0,3", "H,16")


class Sender:
    """Draws lines, by the generator of U3 from the start 1."""

    def __init__(self):
        self.v = 1

    def draw(self, n):
        self.v = (1664525 * self.v + 1013904223) % 2**32
        return self.v // 65536 % n

    def one_of(self, choices):
        return choices[self.draw(len(choices))]

    def plot(self):
        return f"G{self.draw(PLOTS)}"

    def count(self):
        return f"C,{self.plot()}"

    def sighting(self):
        return f"S,{self.plot()},{1 + self.draw(255)}"

    def label(self):
        return f"L,{self.plot()},{self.one_of(['', *range(8)])}"

    def relabel(self):
        return "R"

    def any_of(self, *kinds):
        return self.one_of(kinds)()


def unlabelled(book):
    """The lines of a book without its labels."""
    return [line for line in book if not line.startswith("L,")]


def with_long_ids(lines):
    """The lines with an id of eleven bytes for each of U3's; all are alike in their first eight."""
    return [re.sub(r"\bG(\d+)", lambda id: f"26HAYUNG{int(id[1]):03}", line) for line in lines]


def streams(n, book_of):
    """Every stream, of n lines; those of refused lines, which take so little each, of ten times as many. book_of gives the lines of U3's book
    of a start with a number of plots."""

    def sent(*kinds):
        sender = Sender()
        return [sender.any_of(*(getattr(sender, kind) for kind in kinds)) for _ in range(n)]

    counts = sent("count")
    for start in STARTS:
        book = book_of(start, PLOTS)
        yield Stream(f"C {start}", f"C; U3's book of start {start}, as drawn", book, counts)
        yield Stream(f"C-free {start}", f"C; U3's book of start {start}, labels off", unlabelled(book), counts)
    chain = [DENSE, "P,G0,,,8"] + [f"P,G{i},G{i - 1},0,8" for i in range(1, PLOTS)]
    yield Stream("C-chain", "C; each plot below the one before it", chain, counts)
    yield Stream("C-tables", "C; 16 tables and two plots", [DENSE] * 16 + ["P,G0,,,8", "P,G1,G0,15,8"], ["C,G1"] * n)
    drawn = book_of(STARTS[0], PLOTS)
    free = unlabelled(drawn)
    yield Stream("R", f"R; U3's book of start {STARTS[0]}, as drawn", drawn, ["R"] * n)
    yield Stream("R-free", f"R; U3's book of start {STARTS[0]}, labels off", free, ["R"] * n)
    yield Stream("SL", "S and L, as many of each", drawn, sent("sighting", "label"))
    long_ids = with_long_ids(sent("sighting", "label"))
    yield Stream("SL-long", "the same with ids of eleven bytes, alike in their first eight", with_long_ids(drawn), long_ids)
    yield Stream("mixed", "S, L, C and R, as many of each", drawn, sent("sighting", "label", "count", "relabel"))
    sender = Sender()
    yield Stream("refused", "short lines that are refused with 2 to 16", [], [sender.one_of(REFUSED) for _ in range(10 * n)])
