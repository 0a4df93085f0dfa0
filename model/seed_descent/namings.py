"""What a book means: its namings, its solutions, the counts of a plot and the relabel list.

Where a book has few namings they are listed, as document 01 speaks of them. Where it has many, a recursion on whole numbers gives
the same; wherever the listing is made, the recursion is made too, and the two are compared."""

from itertools import product


class Disagreement(Exception):
    """The listing and the recursion differ: the model itself is wrong."""


class Namings:
    largest_count = 4_294_967_295
    few_namings = 1500

    def __init__(self):
        self.listed = 0  # how many answers of a listing were compared with the recursion

    # What is said of one plot.

    def has_class(self, mask, c):
        """A set of classes is a mask: the sum of 2^c over its classes c."""
        return mask // 2**c % 2 == 1

    def is_sighted(self, plot, c):
        return self.has_class(plot.sighting, c)

    def is_beside(self, book, plot, c, above):
        """Whether a plot may have class c when its parent has the class above."""
        return self.has_class(book.tables[plot.table][above], c)

    def agrees(self, plot, c):
        return plot.label is None or plot.label == c

    def charge(self, plot, c):
        """What a plot adds to the price of a naming that gives it class c."""
        return 0 if self.agrees(plot, c) else 1

    def place(self, plot, c):
        """Where class c stands when the classes of a plot are compared (U2): its own label first, then the lower class first."""
        return 0 if c == plot.label else 1 + c

    # What is said of a naming: a class for each plot, in book order.

    def namings(self, book):
        return product(*(range(plot.k) for plot in book.plots))

    def fits(self, book, naming):
        return all(self.fits_at(book, naming, plot, c) for plot, c in zip(book.plots, naming))

    def fits_at(self, book, naming, plot, c):
        """Whether a naming that gives a plot class c fits there: the plot's sighting, and the class above it."""
        return self.is_sighted(plot, c) and (plot.parent is None or self.is_beside(book, plot, c, naming[plot.parent]))

    def is_solution(self, book, naming):
        return self.fits(book, naming) and all(map(self.agrees, book.plots, naming))

    def price(self, book, naming):
        return sum(map(self.charge, book.plots, naming))

    # By listing.

    def how_many_namings(self, book):
        n = 1
        for plot in book.plots:
            n *= plot.k
        return n

    def few(self, book):
        """Whether the namings of a book are few enough to be listed."""
        return self.how_many_namings(book) <= self.few_namings

    def fitting(self, book):
        """The namings that fit. Of up to 5,000 each is tested; of more, one that a plot doesn't fit into is left where that plot is met,
        since no class of a later plot could mend it."""
        if self.how_many_namings(book) <= 5000:
            return [n for n in self.namings(book) if self.fits(book, n)]
        found = [()]
        for plot in book.plots:
            found = [n + (c,) for n in found for c in range(plot.k) if self.fits_at(book, n, plot, c)]
        return found

    def numbers_listed(self, book, position):
        """How many solutions give the plot each of its classes."""
        if "solutions" not in book.known:
            book.known["solutions"] = [n for n in self.namings(book) if self.is_solution(book, n)]
        given = [naming[position] for naming in book.known["solutions"]]
        return [given.count(c) for c in range(book.plots[position].k)]

    def cheapest_listed(self, book):
        """The first of the fitting namings of least price; None if none fits."""
        return self.first_of_cheapest(book, [n for n in self.namings(book) if self.fits(book, n)])

    def first_of_cheapest(self, book, fitting):
        places = lambda naming: list(map(self.place, book.plots, naming))
        return min(fitting, key=lambda naming: (self.price(book, naming), places(naming)), default=None)

    # By recursion, from a plot to its children.

    def ways(self, book, i, narrowed):
        """For each class of plot i, in how many ways it and the plots below it can be named so. narrowed says, for some plots, the
        one class that they may have."""
        within = any(self.is_within(book, j, i) for j in narrowed)
        if not within and ("ways", i) in book.known:
            return book.known["ways", i]
        plot = book.plots[i]
        below = [(book.plots[j], self.ways(book, j, narrowed)) for j in book.children()[i]]
        row = []
        for c in range(plot.k):
            n = int(self.is_sighted(plot, c) and self.agrees(plot, c) and narrowed.get(i, c) == c)
            for child, numbers in below:
                n = self.times(n, sum(m for d, m in enumerate(numbers) if m and self.is_beside(book, child, d, c)))
            row.append(n)
        if not within:
            book.known["ways", i] = row
        return row

    def times(self, n, m):
        """What a plot is multiplied with from a child."""
        return n * m

    def is_within(self, book, j, i):
        """Whether plot j is plot i or stands below it."""
        while j is not None and j > i:
            j = book.plots[j].parent
        return j == i

    def numbers_worked_out(self, book, position):
        def number(c):
            n = 1
            for i in book.children()[-1]:
                n *= sum(self.ways(book, i, {position: c}))
            return n

        return [number(c) for c in range(book.plots[position].k)]

    # A naming is weighed by one whole number: its price, and then the place of each plot's class as a digit in base 16. The naming
    # that is looked for weighs least. The weight is a sum over the plots, so each branch can be made least on its own.

    def least(self, book, i):
        """For each class of plot i, the least weight of it and the plots below it, named so; None if they can't be."""
        plot = book.plots[i]
        below = [(book.plots[j], self.least(book, j)) for j in book.children()[i]]
        row = []
        for c in range(plot.k):
            parts = [self.weight(book, i, c) if self.is_sighted(plot, c) else None]
            for child, numbers in below:
                beside = [n for d, n in enumerate(numbers) if n is not None and self.is_beside(book, child, d, c)]
                parts.append(min(beside, default=None))
            row.append(None if None in parts else sum(parts))
        return row

    def weight(self, book, i, c):
        plot, plots = book.plots[i], len(book.plots)
        return self.charge(plot, c) * 16**plots + self.place(plot, c) * 16 ** (plots - 1 - i)

    def cheapest_worked_out(self, book):
        total = 0
        for i in book.children()[-1]:
            numbers = [n for n in self.least(book, i) if n is not None]
            if not numbers:
                return None
            total += min(numbers)
        places = [total // 16 ** (len(book.plots) - 1 - i) % 16 for i in range(len(book.plots))]
        return tuple(
            next(c for c in range(plot.k) if self.place(plot, c) == place) for plot, place in zip(book.plots, places)
        )

    # What lines ask for.

    def both(self, book, name, listed, worked_out):
        """What is asked of a book, by listing where its namings are few, and by recursion; once for each book."""
        if name not in book.known:
            answer = worked_out()
            if self.few(book):
                self.listed += 1
                if listed() != answer:
                    raise Disagreement(f"{name}: listed {listed()}, worked out {answer}, in {book.tables} {book.plots}")
            book.known[name] = answer
        return book.known[name]

    def numbers(self, book, position):
        """For each class of a plot, how many solutions give it to the plot."""
        return self.both(
            book,
            ("numbers", position),
            lambda: self.numbers_listed(book, position),
            lambda: self.numbers_worked_out(book, position),
        )

    def held(self, n):
        return min(n, self.largest_count)

    def counts(self, book, position):
        return [self.held(n) for n in self.numbers(book, position)]

    def believed(self, counts):
        """The class whose count isn't zero while all others are; None if there is none."""
        found = [c for c, n in enumerate(counts) if n != 0]
        return found[0] if len(found) == 1 else None

    def cheapest(self, book):
        """The naming that the relabel list is made of; None if none fits."""
        return self.both(book, "cheapest", lambda: self.cheapest_listed(book), lambda: self.cheapest_worked_out(book))

    def relabel_list(self, book, naming):
        """The labelled plots that a naming gives another class than their label: position and new class."""
        pairs = enumerate(zip(book.plots, naming))
        return [(i, c) for i, (plot, c) in pairs if plot.label is not None and plot.label != c]
