"""The text of a book (U1 of 02): the lines that make it from an empty book.

Wherever the text of a book is written it is read back too: the lines are taken one by one from an empty book in an unused run, none may
be refused, and the book that they make is to be the one that was written."""


class NotReadBack(Exception):
    """A text that was read back has a line that is refused, or makes another book: the model itself is wrong."""


class Texts:
    reads_back = True  # a wrong engine doesn't: what it writes needn't be its book

    def __init__(self):
        super().__init__()
        self.read_back = 0  # how many texts were read back

    # Each kind of line, in book order.

    def table_lines(self, book):
        return [b"T," + b",".join(b"%d" % row for row in rows) for rows in book.tables]

    def plot_lines(self, book):
        return [self.plot_line(book, plot) for plot in book.plots]

    def plot_line(self, book, plot):
        parent = b"" if plot.parent is None else book.plots[plot.parent].id
        table = b"" if plot.table is None else b"%d" % plot.table
        return b"P,%s,%s,%s,%d" % (plot.id, parent, table, plot.k)

    def sighting_lines(self, book):
        return [b"S,%s,%d" % (plot.id, plot.sighting) for plot in book.plots if not self.is_all_sighted(plot)]

    def is_all_sighted(self, plot):
        """Whether a plot's sighting is all its classes, as that of a new plot is."""
        return plot.sighting == 2**plot.k - 1

    def label_lines(self, book):
        return [b"L,%s,%d" % (plot.id, plot.label) for plot in book.plots if self.is_labelled(plot)]

    def is_labelled(self, plot):
        return plot.label is not None

    # The whole.

    def book_lines(self, book):
        return self.table_lines(book) + self.plot_lines(book) + self.sighting_lines(book) + self.label_lines(book)

    def book_text(self, book):
        """The text of a book that keeps the rules, worked out once for each book."""
        if "text" not in book.known:
            book.known["text"] = b"".join(line + b"\n" for line in self.book_lines(book))
            if self.reads_back:
                self.read_text_back(book, book.known["text"])
        return book.known["text"]

    def read_text_back(self, book, text):
        state, buffer = self.start(), bytearray(self.least_room)
        *lines, behind = text.split(b"\n")
        for line in lines:
            state, answer = self.step(state, line, buffer)
            if not answer.wrote:
                raise NotReadBack(f"{line} is refused with {answer.number}, in the text of {book.tables} {book.plots}")
        if behind or state.book != book:
            raise NotReadBack(f"{text} makes {state.book.tables} {state.book.plots} of {book.tables} {book.plots}")
        self.read_back += 1
