"""The engine of document 01 with U1 and U5 of 02: what a line says, when it is declined, what it does to the state and what it answers,
and the calls beside the lines."""

from typing import NamedTuple

from .answers import Answer
from .book import Book, Kept, Plot, State, Tally
from .loads import Loads
from .namings import Namings
from .slots import Slots
from .texts import Texts


class Field(NamedTuple):
    """What a field of a line may be. A number has a range, an id has none."""

    name: str
    least: int = 0
    most: int = None
    blank: bool = False

    def is_number(self):
        return self.most is not None


class Asked(NamedTuple):
    """What a call is asked: a line, with the state and the length of the buffer handed in."""

    state: State
    line: bytes
    fields: list
    room: int


DIGITS = b"0123456789"
ID_BYTES = b"ABCDEFGHIJKLMNOPQRSTUVWXYZ" + DIGITS


class Engine(Texts, Loads, Namings):
    slots = Slots  # the bytes in which a book is handed in

    most_tables = 16
    most_plots = 128
    most_classes = 8
    rows_of_a_table = 8
    most_id_bytes = 11
    most_digits = 3
    most_line_bytes = 40
    most_lines = 1_000_000
    scanners = 16
    least_room = 4096

    # The fields of each kind of line, behind its letter.
    fields_of = {
        b"T": [Field(f"row {r}", 0, 255) for r in range(8)],
        b"P": [Field("id"), Field("parent", blank=True), Field("table", 0, 15, blank=True), Field("k", 1, 8)],
        b"S": [Field("id"), Field("mask", 1, 255)],
        b"L": [Field("id"), Field("class", 0, 7, blank=True)],
        b"R": [],
        b"C": [Field("id")],
        b"H": [Field("scanner", 0, 15)],
    }

    # The refusals in their order: first those of every line, then those of its kind.
    of_every_line = (10, 9, 19, 1, 2, 3, 4, 5, 6, 7)
    of_its_kind = {b"T": (11,), b"P": (12, 13, 14, 15), b"S": (16, 17), b"L": (16, 17), b"C": (16,), b"R": (18,), b"H": ()}

    # A line declined with one of these isn't taken.
    not_taken = (10, 9, 19)

    # The rules of the book, whose breaking is 9. Each is a test below.
    rules_of_the_book = (
        "tables_at_most",
        "tables_are_masks",
        "plots_at_most",
        "ids_well_formed",
        "ids_different",
        "first_is_foundation",
        "later_have_parent_and_table",
        "parents_earlier",
        "tables_stand",
        "k_in_range",
        "sightings_not_empty",
        "sightings_of_own_classes",
        "labels_of_own_classes",
    )

    # Those of what is kept beside it.
    rules_of_the_kept = ("scanner_has_a_tally", "lines_at_most")

    def start(self):
        """The state of an unused run: no line was taken, and before any H line it is scanner 0."""
        return State(Book(), Kept((Tally(),) * self.scanners))

    # Fields.

    def is_id(self, field):
        return 1 <= len(field) <= self.most_id_bytes and all(b in ID_BYTES for b in field)

    def is_number(self, field):
        if not 1 <= len(field) <= self.most_digits or not all(b in DIGITS for b in field):
            return False
        return field == b"0" or not field.startswith(b"0")

    def named(self, asked):
        """The fields behind the letter with what each may be, as far as both go."""
        return list(zip(self.fields_of.get(asked.fields[0], []), asked.fields[1:]))

    def value(self, asked, name):
        """What a field says: an id, a number, or None where it is blank, malformed or not there."""
        for kind, field in self.named(asked):
            if kind.name == name:
                if not kind.is_number():
                    return field or None
                return int(field) if self.is_number(field) else None
        return None

    def plot(self, asked, name="id"):
        """Where the plot that a field names stands; None if it doesn't."""
        id = self.value(asked, name)
        return None if id is None else asked.state.book.position(id)

    # The rules of the book.

    def tables_at_most(self, book):
        return len(book.tables) <= self.most_tables

    def tables_are_masks(self, book):
        return all(len(rows) == self.rows_of_a_table and all(0 <= row <= 255 for row in rows) for rows in book.tables)

    def plots_at_most(self, book):
        return len(book.plots) <= self.most_plots

    def ids_well_formed(self, book):
        return all(self.is_id(plot.id) for plot in book.plots)

    def ids_different(self, book):
        return len({plot.id for plot in book.plots}) == len(book.plots)

    def first_is_foundation(self, book):
        return all(plot.parent is None and plot.table is None for plot in book.plots[:1])

    def later_have_parent_and_table(self, book):
        return all(plot.parent is not None and plot.table is not None for plot in book.plots[1:])

    def parents_earlier(self, book):
        return all(plot.parent is None or plot.parent < i for i, plot in enumerate(book.plots))

    def tables_stand(self, book):
        return all(plot.table is None or plot.table < len(book.tables) for plot in book.plots)

    def k_in_range(self, book):
        return all(1 <= plot.k <= self.most_classes for plot in book.plots)

    def sightings_not_empty(self, book):
        return all(plot.sighting >= 1 for plot in book.plots)

    def sightings_of_own_classes(self, book):
        return all(plot.sighting < 2**plot.k for plot in book.plots)

    def labels_of_own_classes(self, book):
        return all(plot.label is None or plot.label < plot.k for plot in book.plots)

    def scanner_has_a_tally(self, kept):
        return kept.scanner < self.scanners

    def lines_at_most(self, kept):
        return self.lines_taken(kept) <= self.most_lines

    def lines_taken(self, kept):
        """All tallies together."""
        return sum(map(sum, kept.tallies))

    def is_sound(self, state):
        """Whether a state keeps the rules."""
        known = state.book.known
        if "sound" not in known:
            known["sound"] = all(getattr(self, rule)(state.book) for rule in self.rules_of_the_book)
        return known["sound"] and all(getattr(self, rule)(state.kept) for rule in self.rules_of_the_kept)

    # The refusals, each with what it is given for. What an earlier one finds wrong with a line isn't looked at by a later one.

    def is_10(self, asked):
        return asked.room < self.least_room

    def is_9(self, asked):
        return not self.is_sound(asked.state)

    def is_19(self, asked):
        return self.lines_taken(asked.state.kept) >= self.most_lines

    def is_1(self, asked):
        return len(asked.line) > self.most_line_bytes

    def is_2(self, asked):
        return asked.fields[0] not in self.fields_of

    def is_3(self, asked):
        return not self.is_2(asked) and len(asked.fields) != 1 + len(self.fields_of[asked.fields[0]])

    def is_4(self, asked):
        ids = [(kind, field) for kind, field in self.named(asked) if not kind.is_number()]
        return any(not self.is_id(field) and not (kind.blank and field == b"") for kind, field in ids)

    def is_5(self, asked):
        numbers = [(kind, field) for kind, field in self.named(asked) if kind.is_number()]
        return any(not self.is_number(field) and not (kind.blank and field == b"") for kind, field in numbers)

    def is_6(self, asked):
        numbers = [(kind, int(field)) for kind, field in self.named(asked) if kind.is_number() and self.is_number(field)]
        return any(not kind.least <= n <= kind.most for kind, n in numbers)

    def is_7(self, asked):
        blank = {kind.name: field == b"" for kind, field in self.named(asked)}
        return asked.fields[0] == b"P" and blank.get("parent") != blank.get("table")

    def is_11(self, asked):
        return len(asked.state.book.tables) >= self.most_tables

    def is_12(self, asked):
        return len(asked.state.book.plots) >= self.most_plots

    def is_13(self, asked):
        return self.plot(asked) is not None

    def is_14(self, asked):
        """The first plot names a parent, or a later one names none, or names one that isn't in the book."""
        if not asked.state.book.plots:
            return self.value(asked, "parent") is not None
        return self.plot(asked, "parent") is None

    def is_15(self, asked):
        table = self.value(asked, "table")
        return table is not None and table >= len(asked.state.book.tables)

    def is_16(self, asked):
        return self.plot(asked) is None

    def is_17(self, asked):
        position = self.plot(asked)
        if position is None:
            return False
        plot = asked.state.book.plots[position]
        mask, label = self.value(asked, "mask") or 0, self.value(asked, "class")
        classes = {c for c in range(mask.bit_length()) if self.has_class(mask, c)} | ({label} - {None})
        return any(self.lacks(plot, c) for c in classes)

    def lacks(self, plot, c):
        return c >= plot.k

    def is_18(self, asked):
        return self.cheapest(asked.state.book) is None

    def order(self, asked):
        return self.of_every_line + self.of_its_kind.get(asked.fields[0], ())

    def refusal(self, asked):
        """The first that applies, in their order; None if none does."""
        return next((number for number in self.order(asked) if getattr(self, f"is_{number}")(asked)), None)

    # What an accepted line does to the book, or to what is kept beside it, and its answer.

    def accept(self, asked):
        """The state afterwards, but for the tally."""
        book, kept = asked.state
        if asked.fields[0] == b"H":
            return State(book, self.accept_H(kept, asked)), b""
        book, text = getattr(self, "accept_" + asked.fields[0].decode())(book, asked)
        return State(book, kept), text

    def accept_H(self, kept, asked):
        """It says that it comes from its scanner too, so it is counted for that one."""
        return kept._replace(scanner=self.value(asked, "scanner"))

    def accept_T(self, book, asked):
        return book.with_table([int(field) for field in asked.fields[1:]]), b""

    def accept_P(self, book, asked):
        id, table, k = (self.value(asked, name) for name in ("id", "table", "k"))
        return book.with_plot(self.new_plot(book, id, self.plot(asked, "parent"), table, k)), b""

    def new_plot(self, book, id, parent, table, k):
        return Plot(id, parent, table, k, 2**k - 1, None)

    def accept_S(self, book, asked):
        position = self.plot(asked)
        return book.changed(position, self.sighted(book.plots[position], self.value(asked, "mask"))), b""

    def sighted(self, plot, mask):
        return plot._replace(sighting=mask)

    def accept_L(self, book, asked):
        position = self.plot(asked)
        return book.changed(position, self.labelled(book.plots[position], self.value(asked, "class"))), b""

    def labelled(self, plot, c):
        return plot._replace(label=c)

    def accept_R(self, book, asked):
        naming = self.cheapest(book)
        return book, self.relabel_text(book, self.price(book, naming), self.relabel_list(book, naming))

    def relabel_text(self, book, number, changes):
        lines = [b"R,%d\n" % number]
        lines += [b"L,%s,%d\n" % (book.plots[i].id, c) for i, c in changes]
        return b"".join(lines)

    def accept_C(self, book, asked):
        position = self.plot(asked)
        counts = self.counts(book, position)
        return book, self.counts_text(self.value(asked, "id"), counts, self.believed(counts))

    def counts_text(self, id, counts, believed):
        return b",".join([b"C", id] + [b"%d" % n for n in counts] + [b"" if believed is None else b"%d" % believed]) + b"\n"

    # The calls.

    def step(self, state, line, buffer):
        """A line, taken or not: the state afterwards, and what is returned. The answer is written at the buffer's front."""
        asked = Asked(state, line, line.split(b","), len(buffer))
        number = self.refusal(asked)
        if number is not None:
            return self.declined(state, number), Answer(False, number)
        after, text = self.accept(asked)
        buffer[: len(text)] = text
        return self.counted(after, Tally(accepted=1)), Answer(True, len(text))

    def declined(self, state, number):
        """A refused line leaves all that is kept as it was, but for the tally of the scanner before it; one that isn't taken leaves that
        too."""
        return state if number in self.not_taken else self.counted(state, Tally(refused=1))

    def counted(self, state, line):
        """The line is counted for the scanner that lines come from, and for no other."""
        return state._replace(kept=state.kept.with_tally(state.kept.scanner, line.and_))

    def end(self, state, buffer):
        """The end of the input: 10 and 9 are given as for a line; it is none, so there is no 19."""
        if len(buffer) < self.least_room:
            return Answer(False, 10)
        if not self.is_sound(state):
            return Answer(False, 9)
        text = self.tally_text(state.kept)
        buffer[: len(text)] = text
        return Answer(True, len(text))

    def tally_text(self, kept):
        """A line for each scanner with lines, the lowest first; none where no line was taken."""
        lines = [b"N,%d,%d,%d\n" % (n, *tally) for n, tally in enumerate(kept.tallies) if self.has_lines(tally)]
        return b"".join(lines)

    def has_lines(self, tally):
        return sum(tally) > 0

    def write_book(self, state, buffer):
        """The text of the book (U1): 9 is given as for a line, and then 20. It is no line, so there is no 10 and no 19."""
        if not self.is_sound(state):
            return Answer(False, 9)
        return self.text_in(self.book_text(state.book), buffer)

    def text_in(self, text, buffer):
        """The text of a book at the buffer's front, if it has room."""
        if self.is_20(text, len(buffer)):
            return Answer(False, 20)
        buffer[: len(text)] = text
        return Answer(True, len(text))

    def is_20(self, text, room):
        """The lent buffer is shorter than the text."""
        return room < len(text)

    def counts_of(self, state, id):
        """The counts of a plot and its believed class, asked for beside the lines; a number where they are declined."""
        if not self.is_sound(state):
            return 9
        position = state.book.position(id)
        if position is None:
            return 16
        counts = self.counts(state.book, position)
        return counts, self.believed(counts)
