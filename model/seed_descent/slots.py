"""The bytes in which a book is handed to a call, as docs/DECISIONS.md has them. What stands in front says a book, which may break
the rules; what lies past the tables and plots that stand is spare, and says nothing."""

from .book import Book, Plot


def plus_one(number):
    """A parent, a table and a label are stored plus one, so that 0 is none."""
    return 0 if number is None else (number + 1) % 256


def minus_one(byte):
    return None if byte == 0 else byte - 1


class Slots:
    """How many tables and plots stand; eight rows to a table; for each plot 16 bytes for its id, and one each for all else of it."""

    most_tables = 16
    most_plots = 128
    table_wide = 8  # the rows of a table
    id_wide = 16  # the bytes that an id has; no id fills them all

    def __init__(self):
        self.tables_standing = self.plots_standing = 0
        self.rows = bytearray(self.table_wide * self.most_tables)
        self.ids = bytearray(self.id_wide * self.most_plots)
        self.parents = bytearray(self.most_plots)
        self.tables = bytearray(self.most_plots)
        self.ks = bytearray(self.most_plots)
        self.sightings = bytearray(self.most_plots)
        self.labels = bytearray(self.most_plots)

    def table_at(self, t):
        """Where the rows of a table are."""
        return slice(self.table_wide * t, self.table_wide * (t + 1))

    def id_at(self, i):
        """Where the bytes of an id are."""
        return slice(self.id_wide * i, self.id_wide * (i + 1))

    # What the bytes say.

    def book(self):
        """The book that is said. More tables or plots than have bytes are as bad as one more, of which nothing is known."""
        tables = [tuple(self.rows[self.table_at(t)]) for t in range(min(self.tables_standing, self.most_tables))]
        plots = [self.plot(i) for i in range(min(self.plots_standing, self.most_plots))]
        if self.tables_standing > self.most_tables:
            tables.append((0,) * self.table_wide)
        if self.plots_standing > self.most_plots:
            plots.append(Plot(b"", None, None, 0, 0, None))
        return Book(tables, plots)

    def plot(self, i):
        """The zeros at the end of an id are none of its bytes; a zero between others is one, and no id has such a byte."""
        id = bytes(self.ids[self.id_at(i)]).rstrip(b"\0")
        parent, table, label = (minus_one(stored[i]) for stored in (self.parents, self.tables, self.labels))
        return Plot(id, parent, table, self.ks[i], self.sightings[i], label)

    # What a line writes.

    def follow(self, before, after):
        """A line made another book of the one before: what is new or changed is written, and every other byte stays."""
        self.tables_standing, self.plots_standing = len(after.tables), len(after.plots)
        for t, rows in enumerate(after.tables[: self.most_tables]):
            if before.tables[t : t + 1] != (rows,):
                self.put_table(t, rows)
        for i, plot in enumerate(after.plots[: self.most_plots]):
            if i >= len(before.plots):
                self.put_plot(i, plot)
            elif plot != before.plots[i]:
                self.put_sighting_and_label(i, plot)

    def put_table(self, t, rows):
        self.rows[self.table_at(t)] = bytes(row % 256 for row in rows)

    def put_plot(self, i, plot):
        """A new plot: every byte of its slot is written, whatever lay there."""
        self.ids[self.id_at(i)] = plot.id[: self.id_wide].ljust(self.id_wide, b"\0")
        self.parents[i] = plus_one(plot.parent)
        self.tables[i] = plus_one(plot.table)
        self.ks[i] = plot.k % 256
        self.put_sighting_and_label(i, plot)

    def put_sighting_and_label(self, i, plot):
        self.sightings[i] = plot.sighting % 256
        self.labels[i] = plus_one(plot.label)

    # What no line does.

    def store(self, name, place, byte):
        """Puts a byte at a place of those that have a name. A place or a byte that there isn't changes nothing."""
        stored = getattr(self, name)
        if place < len(stored) and byte <= 255:
            stored[place] = byte

    def fill_spare(self, byte):
        """Puts a byte into all that is spare."""
        for name, first in (
            ("rows", self.table_wide * self.tables_standing),
            ("ids", self.id_wide * self.plots_standing),
            ("parents", self.plots_standing),
            ("tables", self.plots_standing),
            ("ks", self.plots_standing),
            ("sightings", self.plots_standing),
            ("labels", self.plots_standing),
        ):
            for place in range(first, len(getattr(self, name))):
                self.store(name, place, byte)
