"""The programs of `crates` that have a stored output: what each prints for its standard input, line by line, by the model.

`plotbook` and `inputs` run whole inputs, `booktext` and `texts` print the books that inputs make as text, `generate` prints the text of a
book that is drawn, `descriptors` runs inputs that can't be read or answers that can't be written, `calls` hands states and buffers to the
calls, `exhaustive` and `exhaustive_drawn` draw small books, `broken_states` has a list of states that keep or break the rules of the book,
and `long_run` takes as many lines as a run does. The last four read nothing: which books and lines they try is part of their source, and
is said here a second time. What `generate` is asked for stands behind its name."""

from pathlib import Path

from .book import Book, Kept, Plot, State, Tally
from .loads import Generator
from .program import Model


def plotbook(make_model, data):
    for text in make_model().printed(data):
        yield from text.splitlines(keepends=True)


def booktext(make_model, data):
    yield from make_model().book_output(data).splitlines(keepends=True)


# inputs


def inputs(make_model, data):
    """Inputs one behind the other, each after its length and the size of the pieces that it is to be read in."""
    while data:
        head, rest = data.split(b"\n", 1)
        length = int(head.split(b" ")[0])
        yield from plotbook(make_model, rest[:length])
        yield b"--\n"
        data = rest[length:]


# texts


def texts(make_model, data):
    """Of inputs that are parted by byte 0 the text of the book that each makes, and whether that text, read again, has no line refused
    and gives the same text."""
    for given in data.removesuffix(b"\0").split(b"\0"):
        model = make_model()
        text = model.book_output(given)
        read = model.after(text)
        same = model.book_output(text) == text and not any(tally.refused for tally in read.kept.tallies)
        printed = text + (b"same\n" if same else b"DIFFERENT\n")
        yield from printed.splitlines(keepends=True)
        yield b"--\n"


# descriptors

FILES = Path(__file__).resolve().parents[2] / "crates" / "descriptors" / "data"


def descriptors(make_model, data):
    """What comes of inputs and outputs of which some are closed. Each file is so short that it is read at once, and what its lines
    print is then written at once."""

    def told(what, end, read, sent):
        return b"%s: %s, read %d, sent %d\n" % (what, end, read, sent)

    def answered(what, name, program):
        given = (FILES / name).read_bytes()
        printed = b"".join(program(make_model, given))
        yield from printed.splitlines(keepends=True)
        yield told(what, b"answered", len(given), len(printed))

    yield told(b"closed input", b"a read failed", 0, 0)
    yield told(b"folder", b"a read failed", 0, 0)
    for what, name in (b"book", "book.txt"), (b"silent", "silent.txt"):
        yield told(what + b" to closed output", b"a write failed", len((FILES / name).read_bytes()), 0)
    yield from answered(b"empty", "empty.txt", plotbook)
    yield from answered(b"book", "book.txt", plotbook)
    yield told(b"text of a folder", b"a read failed", 0, 0)
    yield told(b"text to closed output", b"a write failed", len((FILES / "book.txt").read_bytes()), 0)
    # the text of an empty book has no byte, so there is no write that could fail
    for what, name in (b"no text to closed output", "empty.txt"), (b"text", "book.txt"):
        yield from answered(what, name, booktext)
        tallies = make_model().after((FILES / name).read_bytes()).kept.tallies
        yield b"%s: %d lines taken, %d of them refused\n" % (what, sum(map(sum, tallies)), sum(tally.refused for tally in tallies))


# calls

WORD, TALLY, START = 2**64 - 1, 2**32 - 1, 2**32 - 1  # the largest numbers of 64 and of 32 bits


def digits(text):
    """The number that the digits of a text write, held at the largest of 64 bits."""
    found = bytes(b for b in text if b in b"0123456789").lstrip(b"0") or b"0"
    return min(int(found), WORD) if len(found) <= 20 else WORD


def numbers(text, n):
    """So many numbers parted by commas, 0 for one that isn't there. What is behind a comma too many belongs to the last."""
    parts = text.split(b",", n - 1)
    return [digits(part) for part in parts] + [0] * (n - len(parts))


class Calls:
    """What a script says is done, and what comes of it."""

    size = 16384
    filled = bytes(128 + i % 127 for i in range(size))  # bytes that no text has

    # What of the book a byte can be put into, by its letter in a script.
    named = {
        b"r": "rows",
        b"i": "ids",
        b"p": "parents",
        b"t": "tables",
        b"c": "ks",
        b"d": "sightings",
        b"l": "labels",
    }

    def __init__(self, model):
        self.model = model
        self.room = 4096
        self.begin()

    def begin(self):
        self.state = self.model.start()
        self.slots = self.model.slots()

    def obey(self, line):
        """Does what a line of the script says, and tells what is printed."""
        what, rest = line[:1], line[1:]
        if what == b">":
            return self.step(rest)
        if what == b"?":
            return self.counts_of(rest)
        if what == b".":
            return self.end()
        if what == b"=":
            return self.write_book()
        if what == b"~":
            return self.write_load(*numbers(rest, 2))
        if what == b"0":
            self.begin()
        elif what == b"#":
            self.room = digits(line) if digits(line) <= self.size else self.room
        elif what == b"@":
            scanner, accepted, refused = numbers(line, 3)
            tally = Tally(min(accepted, TALLY), min(refused, TALLY))
            self.keep(self.state.kept.with_tally(scanner, lambda _: tally))
        elif what == b"^":
            self.keep(self.state.kept._replace(scanner=digits(line)))
        else:
            self.meddle(what, line)
            self.read()
        return []

    def keep(self, kept):
        """What is kept beside the book is from here on another."""
        self.state = self.state._replace(kept=kept)

    def meddle(self, what, line):
        """Alters the bytes of the book, as no line does."""
        if what == b"%":
            self.slots.plots_standing = digits(line)
        elif what == b"$":
            self.slots.tables_standing = digits(line)
        elif what == b"*":
            self.slots.fill_spare(digits(line))
        elif what == b"!" and line[1:2] in self.named:
            self.slots.store(self.named[line[1:2]], *numbers(line, 2))

    def read(self):
        """The book that is handed in next is the one that the bytes say."""
        self.state = self.state._replace(book=self.slots.book())

    def lent(self):
        """The buffer before a call, and the part of it that is lent."""
        buffer = bytearray(self.filled)
        return buffer, memoryview(buffer)[: self.room]

    def shown(self, answer, behind, buffer):
        """The answer, its text, and a complaint if any other byte of the buffer is altered."""
        said = b"wrote" if answer.wrote else b"refused"
        length = answer.number if answer.wrote else 0
        lines = [b"%s %d%s\n" % (said, answer.number, behind)] + bytes(buffer[:length]).splitlines(keepends=True)
        altered = buffer[length:] != self.filled[length:]
        return lines + [b"ALTERED\n"] * altered

    def step(self, line):
        buffer, lent = self.lent()
        before = self.state
        self.state, answer = self.model.step(before, line, lent)
        kept = self.state.kept
        tallies = [b" %d:%d,%d" % (n, *tally) for n, tally in enumerate(kept.tallies) if tally != Tally(0, 0)]
        changed = not answer.wrote and self.state.book != before.book
        if self.state.book is not before.book:
            self.slots.follow(before.book, self.state.book)
            self.read()
        return self.shown(answer, b" %d%s" % (kept.scanner, b"".join(tallies)), buffer) + [b"CHANGED\n"] * changed

    def end(self):
        buffer, lent = self.lent()
        return self.shown(self.model.end(self.state, lent), b"", buffer)

    def write_book(self):
        buffer, lent = self.lent()
        return self.shown(self.model.write_book(self.state, lent), b"", buffer)

    def write_load(self, start, plots):
        buffer, lent = self.lent()
        return self.shown(self.model.write_load(min(start, START), plots, lent), b"", buffer)

    def counts_of(self, id):
        answer = self.model.counts_of(self.state, id)
        if isinstance(answer, int):
            return [b"refused %d\n" % answer]
        counts, believed = answer
        belief = b"-" if believed is None else b"%d" % believed
        return [b"counts %d:%s belief %s\n" % (len(counts), b"".join(b" %d" % n for n in counts), belief)]


def calls(make_model, data):
    if len(data) > 65536:
        yield b"TOO LONG\n"
        return
    script = Calls(make_model())
    for line in data.split(b"\n"):
        yield from script.obey(line)


# exhaustive, exhaustive_drawn


def small_book(generator, number):
    """A book of up to three tables and six plots. Its number says its shape, how dense its tables are, whether it is labelled."""

    def below(n):
        """A draw below n; below none it is 0, and the generator steps all the same."""
        return generator.draw(max(1, n))

    tables = 1 + below(3)
    drawn = below(25)
    plots = 0 if drawn == 0 else 1 + drawn % 6
    rows = []
    for _ in range(24):
        a, b = below(256), below(256)
        rows.append([a & b, a, a | b, 255][number // 3 % 4])
    links = []
    for i in range(6):
        shape = number % 3
        any_earlier = below(i)
        parent = i - 1 if shape == 0 else 0 if shape == 1 else any_earlier
        table = below(tables)
        links.append((parent, table) if i else (None, None))
    ks = [1 + below(8 if plots < 5 else 4) for _ in range(6)]
    sightings = []
    for k in ks:
        narrowed = below(3) == 0
        mask = 1 + below(2**k - 1)
        sightings.append(mask if narrowed else 2**k - 1)
    labels = []
    for k in ks:
        off = below(6) == 0
        c = below(k)
        labels.append(None if off or number % 5 == 0 else c)
    return Book(
        [tuple(rows[8 * t : 8 * t + 8]) for t in range(tables)],
        [Plot(b"%c" % (65 + i), *links[i], ks[i], sightings[i], labels[i]) for i in range(plots)],
    )


class Compared:
    def __init__(self):
        self.all = self.different = 0

    def add(self, same):
        self.all += 1
        self.different += not same


def compared_books(model, books):
    """The answers for small books, compared with a listing of all their namings."""
    right = Model()
    sound, counts, beliefs, relabellings = Compared(), Compared(), Compared(), Compared()
    clashing = unsolved = solved = listed = support = believed = changes = chosen = 0
    for book in books:
        sound.add(model.is_sound(model.start()._replace(book=book)))
        fitting = right.fitting(book)
        solutions = [n for n in fitting if all(map(right.agrees, book.plots, n))]
        listed += right.how_many_namings(book)
        clashing += not fitting
        unsolved += bool(fitting) and not solutions
        solved += bool(solutions)
        for i, plot in enumerate(book.plots):
            found = model.counts(book, i)
            for c in range(8):
                answer = found[c] if c < plot.k else 0
                counts.add(answer == sum(1 for n in solutions if n[i] == c))
                support += answer
            belief = model.believed(found)
            of_all = {n[i] for n in solutions}
            beliefs.add(belief == (of_all.pop() if len(of_all) == 1 else None))
            believed += belief is not None
        naming = model.cheapest(book)
        relabellings.add(naming == right.first_of_cheapest(book, fitting))
        if naming is not None:
            changes += model.price(book, naming)
            chosen += sum(naming)
    yield b"networks %d, different %d\n" % (sound.all, sound.different)
    yield b"no assignment fits %d\n" % clashing
    yield b"some fit, no solution %d\n" % unsolved
    yield b"with solutions %d\n" % solved
    yield b"assignments listed %d\n" % listed
    yield b"counts %d, different %d\n" % (counts.all, counts.different)
    yield b"sum of counts %d\n" % support
    yield b"beliefs %d, different %d\n" % (beliefs.all, beliefs.different)
    yield b"plots believed %d\n" % believed
    yield b"relabellings %d, different %d\n" % (relabellings.all, relabellings.different)
    yield b"labels to change %d\n" % changes
    yield b"sum of classes chosen %d\n" % chosen


def exhaustive(make_model, data):
    """3,000 small books of many shapes."""
    generator = Generator(1)
    yield from compared_books(make_model(), (small_book(generator, number) for number in range(3000)))


def exhaustive_drawn(make_model, data):
    """The books of U3 of one to six plots, of 200 starts each, as drawn and with every label off."""
    model = make_model()

    def books(change):
        return (change(model.load(start, plots)) for plots in range(1, 7) for start in range(200))

    def unlabelled(book):
        return Book(book.tables, [plot._replace(label=None) for plot in book.plots])

    yield b"as drawn\n"
    yield from compared_books(model, books(lambda book: book))
    yield b"every label off\n"
    yield from compared_books(model, books(unlabelled))


# generate


def generate(make_model, data):
    """What comes of the words behind the program's name, of which each has a line here."""
    yield from make_model().load_output(data.splitlines()).splitlines(keepends=True)


# broken_states

NO_ROWS = (0,) * 8


def three_plots():
    """A foundation A with two children B and C below it, three classes each, one table."""
    foundation = Plot(b"A", None, None, 3, 7, None)
    return Book([NO_ROWS], [foundation] + [Plot(id, 0, 0, 3, 7, None) for id in (b"B", b"C")])


def full_book():
    """As many plots as may stand: a chain of plots of two classes, whose ids are AA, AB, .., HP."""
    ids = [b"%c%c" % (65 + i // 16, 65 + i % 16) for i in range(128)]
    foundation = Plot(ids[0], None, None, 2, 3, None)
    return Book([NO_ROWS], [foundation] + [Plot(ids[i], i - 1, 0, 2, 3, None) for i in range(1, 128)])


def states():
    """States by name, in the order in which they are tried. A count that is far past its limit is said by a thousand. What a 129th
    plot is the engine's bytes don't say; here it is a well-formed one, so that its number is all that is wrong."""

    def tables(n):
        return Book([NO_ROWS] * n, three_plots().plots)

    def plots(n):
        return Book([NO_ROWS], full_book().plots + tuple(Plot(b"N%d" % i, 0, 0, 2, 3, None) for i in range(128, n)))

    def book(position, **values):
        return three_plots().changed(position, three_plots().plots[position]._replace(**values))

    def two_ids(first, second):
        """The three plots with other ids for the two children."""
        return book(1, id=first).changed(2, three_plots().plots[2]._replace(id=second))

    def kept(tallies, scanner=0):
        """The three plots with a tally of each scanner, and the one that lines come from."""
        return State(three_plots(), Kept(tuple(Tally(*tally) for tally in tallies), scanner))

    def lines_of(n, accepted, refused):
        """Tallies with lines of one scanner alone."""
        return [(accepted, refused) if n == other else (0, 0) for other in range(16)]

    def tallies(accepted, refused):
        return kept(lines_of(0, accepted, refused))

    rubbish = Plot(b"\xff" * 16, 254, 254, 255, 255, 254)
    yield "three plots", three_plots()
    yield "16 tables", tables(16)
    yield "17 tables", tables(17)
    yield "as many tables as a count can say", tables(1000)
    yield "128 plots", plots(128)
    yield "129 plots", plots(129)
    yield "as many plots as a count can say", plots(1000)
    yield "no id", book(1, id=b"")
    yield "a small letter", book(1, id=b"b")
    yield "the byte after Z", book(1, id=b"[")
    yield "a digit", book(1, id=b"0")
    yield "a byte behind a zero", book(1, id=b"0\x001")
    yield "no zero between the bytes", book(1, id=b"011")
    yield "eight bytes", book(1, id=b"01123456")
    yield "nine bytes", book(1, id=b"011234567")
    yield "eleven bytes", book(1, id=b"01123456789")
    yield "a zero before the bytes", book(1, id=b"\x001123456789")
    yield "a zero for the ninth of the bytes", book(1, id=b"01123456\x0089")
    yield "a small letter for the last of them", book(1, id=b"0112345678z")
    yield "the id of the plot before", book(2, id=b"B")
    yield "the id of the plot before that", book(2, id=b"A")
    yield "A and AA", book(2, id=b"AA")
    yield "eight bytes and these with a ninth", two_ids(b"01123456", b"011234567")
    yield "a difference in the last of eleven bytes", two_ids(b"0112345678A", b"0112345678B")
    yield "eleven bytes twice", two_ids(b"0112345678A", b"0112345678A")
    yield "the first id at the last of 128 plots", full_book().changed(127, full_book().plots[127]._replace(id=b"AA"))
    yield "a parent and a table at the first plot", book(0, parent=0, table=0)
    yield "a parent at the first plot", book(0, parent=0)
    yield "its own parent", book(1, parent=1)
    yield "a later parent", book(1, parent=2)
    yield "a parent past the last", book(1, parent=254)
    yield "a table and no parent", book(1, parent=None)
    yield "a second root", book(1, parent=None, table=None)
    yield "below the second plot", book(2, parent=1)
    yield "a table at the first plot", book(0, table=0)
    yield "a parent and no table", book(2, table=None)
    yield "a table that doesn't stand", book(2, table=1)
    yield "a second table that stands", Book([NO_ROWS] * 2, book(2, table=1).plots)
    yield "a table past the last", Book([NO_ROWS] * 2, book(2, table=254).plots)
    yield "no class", book(1, k=0, sighting=0)
    yield "one class", book(1, k=1, sighting=1)
    yield "eight classes", book(1, k=8, sighting=255)
    yield "nine classes", book(1, k=9, sighting=255)
    yield "255 classes", book(1, k=255, sighting=255)
    yield "no class possible", book(2, sighting=0)
    yield "the last class possible", book(2, sighting=4)
    yield "a class possible that the plot lacks", book(2, sighting=8)
    yield "all its classes possible and one more", book(2, sighting=15)
    yield "the last class as label", book(0, label=2)
    yield "a label that is k", book(0, label=3)
    yield "a label past the last class", book(0, label=254)
    yield "a label that isn't possible", book(0, sighting=6, label=0)
    yield "a million lines", tallies(999_999, 1)
    yield "a million lines and one", tallies(1_000_000, 1)
    yield "a million lines and one refused", tallies(0, 1_000_001)
    yield "lines that add up to one in 32 bits", tallies(4_294_967_295, 2)
    yield "a million lines of the last scanner", kept(lines_of(15, 1_000_000, 0))
    yield "a million lines and one of the last scanner", kept(lines_of(15, 1_000_000, 1))
    yield "a million lines of sixteen scanners", kept([(62_500, 0)] * 16)
    yield "a million lines of sixteen scanners, half of them refused", kept([(31_250, 31_250)] * 16)
    yield "a million lines of sixteen scanners and one", kept([(31_250, 31_250)] * 15 + [(31_250, 31_251)])
    yield "a million lines of each scanner", kept([(1_000_000, 0)] * 16)
    yield "lines of sixteen scanners that add up to none in 32 bits", kept([(134_217_728, 134_217_728)] * 16)
    yield "as many lines of each scanner as a tally can say", kept([(TALLY, TALLY)] * 16)
    yield "the last scanner", kept(lines_of(0, 0, 0), scanner=15)
    yield "a scanner past the last", kept(lines_of(0, 0, 0), scanner=16)
    yield "a scanner past the last, with a million lines", kept(lines_of(0, 1_000_000, 0), scanner=16)
    yield "as large a scanner as a number can say", kept(lines_of(0, 0, 0), scanner=WORD)
    # what lies past the counts is no part of a book
    yield "garbage, and nothing stands", Book()
    yield "garbage past three plots and a table", three_plots()
    yield "garbage in the fourth plot", three_plots().with_plot(rubbish)
    # a slot has 16 bytes, and an id fills no more than the first eleven
    yield "twelve bytes", book(1, id=b"01123456789A")
    yield "sixteen bytes", book(1, id=b"01123456789ABCDE")
    yield "a byte behind eleven and a zero", book(1, id=b"01123456789\0B")
    yield "a byte at the slot's end", book(1, id=b"B" + 14 * b"\0" + b"1")


def broken_states(make_model, data):
    model = make_model()
    for name, state in states():
        state = state if isinstance(state, State) else model.start()._replace(book=state)
        yield f"{name}: {'kept' if model.is_sound(state) else 'broken'}\n".encode()


# long_run

FIRST_LINES = [b"T,1,7,4,0,0,0,0,0", b"P,A,,,3", b"P,B,A,0,3", b"P,C,A,0,3"]
LINES_IN_EVERY_TEN = [b"C,A,", b"L,A,1", b"S,B,6", b"L,C,2", b"X", b"S,B,7", b"L,D,0", b"L,A,", b"S,C,8", b"L,C,"]
LINES_PAST_A_MILLION = [
    b"T,7,7,7,0,0,0,0,0",
    b"P,D,A,0,3",
    b"S,A,1",
    b"L,A,0",
    b"R",
    b"C,A",
    b"H,3",
    b"",
    b"C,D",
    b"T,255,255,255,255,255,255,255,255,255,255",
]


def lines_of_a_long_run():
    """A million lines, numbered from 1, of which each of sixteen scanners sends a part, and ten more."""
    yield from FIRST_LINES
    for number in range(5, 1_000_001):
        scanner, place = divmod(number, 62_500)
        asked = {0: b"C,B", 500: b"R"}.get(number % 1000)
        yield b"H,%d" % scanner if place == 10 else asked or LINES_IN_EVERY_TEN[number % 10]
    yield from LINES_PAST_A_MILLION


def long_run(make_model, data):
    """What comes of the last lines of a million, of those behind them and of the end."""
    model = make_model()
    state, buffer, returned = model.start(), bytearray(model.room), 0

    def told(answer):
        if not answer.wrote:
            return [b"refused %d\n" % answer.number]
        return [b"wrote %d\n" % answer.number] + bytes(buffer[: answer.number]).splitlines(keepends=True)

    for number, line in enumerate(lines_of_a_long_run(), 1):
        state, answer = model.step(state, line, buffer)
        returned += answer.number
        if number > 999_990:
            first, *others = told(answer)
            yield from [b"%d %s: %s" % (number, line, first)] + others
    first, *others = told(model.end(state, buffer))
    yield from [b"end: " + first] + others
    counts, believed = model.counts_of(state, b"A")
    yield b"counts: %d %d %d\n" % tuple(counts)
    yield b"sum of lengths and refusals: %d\n" % returned


PROGRAMS = {
    "plotbook": plotbook,
    "booktext": booktext,
    "inputs": inputs,
    "texts": texts,
    "descriptors": descriptors,
    "calls": calls,
    "generate": generate,
    "exhaustive": exhaustive,
    "exhaustive_drawn": exhaustive_drawn,
    "broken_states": broken_states,
    "long_run": long_run,
}
