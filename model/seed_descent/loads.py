"""The books of U3: drawn from a start and a number of plots, always the same, and the call that writes the text of one."""

from .answers import Answer
from .book import Book, Plot


class Generator:
    """Steps its state v to 1664525 times v plus 1013904223, wrapping at 2^32."""

    def __init__(self, start):
        self.v = start

    def step(self):
        self.v = (1664525 * self.v + 1013904223) % 2**32

    def draw(self, n):
        """A draw below n: the stepped state divided by 65536, rounded down, then its remainder by n."""
        self.step()
        return self.v // 65536 % n


class Loads:
    generator = Generator
    most_drawn = 128

    def load(self, start, plots):
        """The book of a start: a table of eight draws, and then plot by plot the parent's position, the label and the sighting."""
        generator = self.generator(start)
        book = Book().with_table(self.drawn_rows(generator))
        for i in range(plots):
            book = book.with_plot(self.drawn_plot(generator, i))
        return book

    def drawn_rows(self, generator):
        return [generator.draw(256) for _ in range(8)]

    def drawn_plot(self, generator, i):
        parent = self.drawn_parent(generator, i)
        label = generator.draw(8)
        sighting = self.drawn_sighting(generator)
        return Plot(self.drawn_id(i), parent, None if parent is None else 0, 8, sighting, label)

    def drawn_id(self, i):
        return b"G%d" % i

    def drawn_parent(self, generator, i):
        """A position below the plot's own; G0 has no parent."""
        return generator.draw(i) if i else None

    def drawn_sighting(self, generator):
        return 1 + generator.draw(255)

    def write_load(self, start, plots, buffer):
        """The text of the book of a start: 6 for any other number of plots than 1 to 128, and then 20, as where a book is written."""
        if not 1 <= plots <= self.most_drawn:
            return Answer(False, 6)
        return self.text_in(self.book_text(self.load(start, plots)), buffer)
