"""Random inputs by seed: small and full books, damaged lines, lines that are to be refused, bytes of no meaning."""

from random import Random

from .program import Model
from .programs import Calls

CAPITALS = b"ABCDEFGHIJKLMNOPQRSTUVWXYZ"
DIGITS = b"0123456789"


class Season:
    """Lines drawn one after the other, with what the book is thought to hold: damaged lines may have done something else."""

    def __init__(self, random, most_k=8, densities=(1, 2, 2, 3, 4), narrow=0.5):
        self.random = random
        self.most_k = most_k
        self.shape = random.choice(["chain", "star", "bush"])
        self.density = random.choice(densities)  # of tables, from 1, few classes to a row, to 4, nearly all
        self.narrow = narrow  # how often a sighting leaves few classes
        self.tables = 0
        self.plots = []  # ids with their k
        self.alphabet = bytes(random.sample(list(CAPITALS + DIGITS), random.choice([2, 4, 10, 36])))

    def number(self, least, most):
        return b"%d" % self.random.randint(least, most)

    def id(self):
        """An id that may stand already. Some look like numbers."""
        if self.random.random() < 0.1:
            return self.random.choice([b"0", b"00", b"1", b"01", b"12", b"012", b"12E3", b"12000", b"1E1", b"10"])
        length = self.random.choice([1, 2, 2, 3, 3, 7, 8, 9, 11])
        return bytes(self.random.choice(self.alphabet) for _ in range(length))

    def known(self):
        """The id and the k of a plot that stands, as far as is known."""
        return self.random.choice(self.plots) if self.plots else (self.id(), 1)

    def mask(self, k):
        """One or more of k classes: any, or a single one, or all but one at most."""
        if self.random.random() < self.narrow:
            return 2 ** self.random.randrange(k) if self.random.random() < 0.4 else self.random.randint(1, 2**k - 1)
        all_classes = 2**k - 1
        return all_classes & ~(2 ** self.random.randrange(8)) or all_classes

    # Each draws a line as its fields.

    def table(self):
        self.tables += 1
        rows = []
        for _ in range(8):
            row = self.random.getrandbits(8)
            for _ in range(abs(self.density - 2)):
                other = self.random.getrandbits(8)
                row = row | other if self.density > 2 else row & other
            rows.append(b"%d" % (255 if self.density == 4 and self.random.random() < 0.5 else row))
        return [b"T"] + rows

    def plot(self):
        ids = {id for id, k in self.plots}
        id = self.id()
        while id in ids and len(ids) < 20:
            id = self.id()
        k = self.random.randint(1, self.most_k)
        if not self.plots:
            parent = table = b""
        else:
            last = len(self.plots) - 1
            at = {"chain": last, "star": 0, "bush": self.random.randint(0, last)}[self.shape]
            parent, table = self.plots[at][0], self.number(0, max(0, min(15, self.tables - 1)))
        self.plots.append((id, k))
        return [b"P", id, parent, table, b"%d" % k]

    def sighting(self):
        id, k = self.known()
        return [b"S", id, b"%d" % self.mask(k)]

    def label(self):
        id, k = self.known()
        return [b"L", id, b"" if self.random.random() < 0.2 else self.number(0, k - 1)]

    def counts(self):
        return [b"C", self.known()[0]]

    def relabel(self):
        return [b"R"]

    def scanner(self):
        return [b"H", self.number(0, 15)]

    def any_line(self):
        draws = [self.table, self.plot, self.sighting, self.label, self.counts, self.relabel, self.scanner]
        return self.random.choices(draws, [1, 3, 6, 6, 4, 4, 3])[0]()

    # Each does something to a line's fields for which it may be refused.

    def too_long(self, fields):
        line = b",".join(fields)
        fill = self.random.choice([b",", b"0", b"A", b" ", b"\0", b"x"])
        return [line + fill * max(0, self.random.choice([39, 40, 41, 41, 42, 60, 100]) - len(line))]

    def bad_letter(self, fields):
        letter = fields[0]
        others = [b"", b" " + letter, letter + b" ", letter * 2, letter.lower(), b"X", b"N", b"E", b"\xff", b"0", b"H"]
        return [self.random.choice(others)] + fields[1:]

    def other_number_of_fields(self, fields):
        if self.random.random() < 0.5 and len(fields) > 1:
            return fields[:-1]
        return fields + [self.random.choice([b"", b"0", b"1", b"A"])]

    def field_replaced(self, fields, choices):
        if len(fields) == 1:
            return fields
        at = self.random.randrange(1, len(fields))
        return fields[:at] + [self.random.choice(choices)] + fields[at + 1 :]

    def bad_id(self, fields):
        bad = [b"", b"a", b"12e3", b"A B", b" A", b"A-1", b"A\0", b"[", b"@", b"/", b":", b"\xc4", b"ABCDEFGHIJKL", b"123456789012"]
        return self.field_replaced(fields, bad)

    def bad_number(self, fields):
        bad = [b"", b"x", b"00", b"01", b"007", b"1000", b"0000", b"-1", b"+1", b" 1", b"1 ", b"1.0"]
        return self.field_replaced(fields, bad)

    def out_of_range(self, fields):
        edges = [b"0", b"7", b"8", b"9", b"15", b"16", b"17", b"128", b"255", b"256", b"999"]
        return self.field_replaced(fields, edges)

    def half_a_link(self, fields):
        plot = self.plot()
        self.plots.pop()
        at = self.random.choice([2, 3])
        plot[at] = b"" if plot[at] else (self.known()[0] if at == 2 else b"0")
        return plot

    def other_link(self, fields):
        """A plot whose id, parent or table needn't be one that it may name."""
        parent = self.random.choice([b"", self.id(), self.known()[0]])
        table = self.random.choice([b"", self.number(0, 16), b"%d" % self.tables])
        id = self.random.choice([self.id(), self.known()[0], parent])
        return [b"P", id, parent, table, self.number(1, 8)]

    def other_plot(self, fields):
        return fields[:1] + [self.id()] + fields[2:] if len(fields) > 1 else fields

    def class_lacking(self, fields):
        id, k = self.known()
        if self.random.random() < 0.5:
            return [b"S", id, b"%d" % min(255, 2**k + self.random.randrange(2**k))]
        return [b"L", id, b"%d" % min(7, k)]

    def faulty(self, fields):
        faults = [
            self.too_long,
            self.bad_letter,
            self.other_number_of_fields,
            self.bad_id,
            self.bad_number,
            self.out_of_range,
            self.half_a_link,
            self.other_link,
            self.other_plot,
            self.class_lacking,
        ]
        for fault in self.random.choices(faults, k=self.random.choice([1, 1, 1, 2, 2, 3])):
            fields = fault(fields)
        return fields

    def damaged(self, line):
        """A line with some of its bytes changed, lost, doubled or moved."""
        line = bytearray(line)
        for _ in range(self.random.choice([1, 1, 2, 4])):
            at = self.random.randint(0, len(line))
            what = self.random.randrange(5)
            if what == 0:
                line[at:at] = bytes([self.random.randrange(256)])
            elif what == 1:
                line[at : at + 1] = self.random.choice([b",", b"0", b"1", b"A", b"\r", b"\0", b" ", b""])
            elif what == 2:
                del line[at : at + self.random.randint(1, 3)]
            elif what == 3:
                line[at:at] = line[at : at + self.random.randint(1, 9)]
            elif at < len(line):
                line[at] ^= 1 << self.random.randrange(8)
        return bytes(line)


def joined(lines):
    return [b",".join(fields) for fields in lines]


def asked_of_all(season):
    """C of some of the plots, or of all where they are few, and R."""
    few = season.plots if len(season.plots) < 7 else season.random.sample(season.plots, 4)
    return [[b"C", id] for id, k in few] + [[b"R"]]


def grown(book, plots, rounds, lines_a_round, asked):
    """Tables, so many plots, and then rounds of lines, each with R and some C lines behind it in so many cases of ten."""
    random = book.random
    lines = [book.table() for _ in range(random.randint(1, 3))] + [book.plot() for _ in range(plots)]
    for _ in range(rounds):
        lines += [book.any_line() for _ in range(random.randint(1, lines_a_round))]
        if random.randrange(10) < 2:
            lines.append(book.faulty(book.any_line()))
        if random.randrange(10) < asked:
            lines += asked_of_all(book)
    return joined(lines)


def small(random):
    """A book that can be listed."""
    return grown(Season(random, random.choice([2, 3, 4])), random.randint(0, 6), random.randint(5, 25), 3, 6)


def season(random):
    """A book that is too large to be listed, and not full."""
    book = Season(random, random.choice([3, 5, 8]), (2, 3, 3, 4), random.choice([0, 0.1, 0.5]))
    return grown(book, random.randint(7, 60), random.randint(5, 20), 6, 3)


def names(random, n):
    """Different ids of three bytes."""
    serials = random.sample(range(36**3), n)
    return [bytes((DIGITS + CAPITALS)[serial // 36**place % 36] for place in range(3)) for serial in serials]


def full(random):
    """As many tables and plots as may stand, and more."""
    book = Season(random, densities=(2, 3, 3, 4), narrow=random.choice([0, 0.1, 0.3]))
    lines = [book.table() for _ in range(17)]
    book.tables = 16
    for name in names(random, 130):
        fields = book.plot()
        fields[1] = name + b"P" * random.choice([0, 0, 3, 5, 6, 8])
        book.plots[-1] = (fields[1], book.plots[-1][1])
        lines.append(fields)
    book.plots = book.plots[:128]
    for id, k in book.plots:
        if random.random() < 0.6:
            lines.append([b"L", id, book.number(0, k - 1)])
        if random.random() < 0.2:
            lines.append([b"S", id, b"%d" % book.mask(k)])
    for _ in range(random.randint(10, 30)):
        lines += [random.choice([book.sighting, book.label, book.label, book.scanner])() for _ in range(random.randint(1, 4))]
        lines += asked_of_all(book)
        if random.random() < 0.3:
            lines.append(book.faulty(book.any_line()))
    return joined(lines)


def largest(random):
    """A book of the longest text that there is: all tables and plots, every field as long as it may be. Half of them go on from there."""
    book = Season(random, narrow=0.1)
    lines = [[b"T"] + [book.number(100, 255) for _ in range(8)] for _ in range(16)]
    book.tables = 16
    for name in names(random, 128):
        fields = book.plot()
        fields[1] = name + bytes(random.choice(book.alphabet) for _ in range(8))
        fields[3:] = [book.number(10, 15) if fields[2] else b"", b"8"]
        book.plots[-1] = (fields[1], 8)
        lines.append(fields)
    said = [[b"S", id, book.number(100, 254)] for id, k in book.plots]
    said += [[b"L", id, book.number(0, 7)] for id, k in book.plots]
    lines += random.sample(said, len(said))
    for _ in range(random.choice([0, random.randint(1, 20)])):
        lines.append(book.any_line())
    return joined(lines)


def refusals(random):
    """Lines that are to be refused, for a book that is small, or growing, or full."""
    book = Season(random, random.choice([1, 3, 8]), (1, 2, 3))
    lines = [book.table() for _ in range(random.choice([0, 1, 2, 15, 16]))]
    lines += [book.plot() for _ in range(random.choice([0, 1, 2, 5, 9]))]
    for _ in range(random.randint(20, 80)):
        lines.append(book.faulty(book.any_line()))
        if random.random() < 0.2:
            lines.append(book.any_line())
    return joined(lines)


def damaged(random):
    book = Season(random, most_k=3)
    lines = []
    for draw in [book.table] * 2 + [book.plot] * random.randint(1, 6) + [book.any_line] * random.randint(5, 40):
        line = b",".join(draw())
        lines.append(book.damaged(line) if random.random() < 0.5 else line)
        if random.random() < 0.3:
            lines.append(line)
    return lines


def noise(random):
    """Bytes of no meaning, but of those that lines are made of."""
    alphabet = random.choice([b"TPSLRCH,0123456789AZ", b"R,\n", b"RC,A\n\r\0 ", b"H,01\n", bytes(range(256))])
    return [bytes(random.choice(alphabet) for _ in range(random.randint(0, 60))) for _ in range(random.randint(0, 60))]


def million(random):
    """More lines than a run takes: some of a small book, a million that say little, of several scanners, and some more."""
    book = Season(random, most_k=3)
    first = joined([book.table(), book.plot(), book.plot()] + asked_of_all(book))
    many = [random.choice([b"", b"X", b"R,", b"C,%s" % book.plots[0][0]])] * (1_000_000 - len(first) - 3)
    for at in random.sample(range(len(many)), random.randint(0, 20)):
        many[at] = b",".join(book.scanner())
    return first + many + joined(book.any_line() for _ in range(12))


KINDS = [small] * 9 + [season] * 3 + [refusals] * 3 + [damaged] * 2 + [noise, full, full, largest]


def lines_drawn(seed):
    random = Random(seed)
    kind = million if seed % 5000 == 4999 else KINDS[seed % len(KINDS)]
    return random, kind(random)


def drawn(seed):
    """The input of a seed."""
    random, lines = lines_drawn(seed)
    data = b"".join(line + b"\n" for line in lines)
    return data[:-1] if random.random() < 0.2 else data


# For each letter by which a script puts a byte into a book: bytes that are put, and one that mends what most of them break.
ODD_BYTES = {
    b"i": ([0, 32, 47, 48, 57, 58, 64, 65, 66, 90, 91, 97, 255], 65),
    b"p": ([0, 0, 1, 1, 2, 3, 4, 9, 128, 255], 1),
    b"t": ([0, 0, 1, 1, 2, 3, 4, 16, 17, 255], 1),
    b"c": ([0, 1, 2, 3, 7, 8, 9, 255], 8),
    b"d": ([0, 1, 2, 3, 4, 7, 8, 128, 255], 1),
    b"l": ([0, 1, 2, 3, 4, 8, 9, 255], 0),
    b"r": ([0, 1, 2, 7, 255], 255),
}


def byte_put(random):
    """A byte of the book that no line puts there, and one that is likely to mend it."""
    letter = random.choice(list(ODD_BYTES))
    odd, mended = ODD_BYTES[letter]
    place = random.choice([0, 0, 1, 1, 2, 2, 3, 4, 5, 6, 7, 127, random.randrange(128)])
    if letter == b"i":
        behind = random.choice([0, 0, 0, 1, 2, 7, 8, 10, 11, 15])
        place, mended = 16 * place + behind, 0 if behind else random.choice(CAPITALS)
    elif letter in (b"p", b"t") and place == 0:
        mended = 0
    return [b"!%s%d,%d" % (letter, place, random.choice(odd))], [b"!%s%d,%d" % (letter, place, mended)]


def garbage(random):
    """A byte in all that is spare."""
    return b"*%d" % random.choice([0, 1, 65, 255, 255, random.randrange(256)])


def a_scanner(random):
    """One of the sixteen mostly."""
    return random.choice([random.randrange(16)] * 7 + [0, 15, random.choice([16, 17, 255, 256, 2**32, 2**64 - 1, 2**64 + 3])])


def tally_put(random):
    """The tally of a scanner, and another one, of fewer lines."""
    accepted = random.choice([0, 1, 499_999, 500_000, 999_990, 999_999, 1_000_000, 1_000_001, 2**32 - 1, 2**32])
    refused = random.choice([0, 0, 1, 500_000, 500_001, max(0, 1_000_000 - accepted), 2**32 - 1])
    scanner = a_scanner(random)
    return [b"@%d,%d,%d" % (scanner, accepted, refused)], [b"@%d,%d,%d" % (scanner, random.randint(0, 999), random.randint(0, 999))]


def tallies_put(random):
    """The tallies of all scanners, together near a million, or near none in 32 bits, and fewer lines for those that have some."""
    scanners = random.sample(range(16), random.choice([1, 1, 2, 3, 8, 16, 16]))
    left = random.choice([999_990, 999_999, 999_999, 1_000_000, 1_000_000, 1_000_001, 2**32 - 1, 2**32, 2**33 + 1])
    lines = [0] * 16
    for n in scanners:
        lines[n] = left if n == scanners[-1] else random.randint(0, min(left, 2 * left // len(scanners)))
        left -= lines[n]
    accepted = [random.choice([0, n, random.randint(0, n)]) for n in lines]
    put = [b"@%d,%d,%d" % (n, accepted[n], lines[n] - accepted[n]) for n in range(16)]
    return put, [b"@%d,%d,%d" % (n, random.randint(0, 9), random.randint(0, 9)) for n in scanners]


def odd_commands(random):
    """Commands that make the next calls differ from those of a run, and those that end this."""
    what = random.choice(["room", "tally", "tallies", "tallies", "scanner", "plots", "tables", "garbage", "byte", "byte", "byte", "byte"])
    if what == "room":
        return [b"#%d" % random.choice([0, 1, 4095, 4095, 4096, 4097, 8192, 16384, 17000])], [b"#4096"]
    if what == "tally":
        return tally_put(random)
    if what == "tallies":
        return tallies_put(random)
    if what == "scanner":
        return [b"^%d" % a_scanner(random)], [b"^%d" % random.randrange(16)]
    if what == "plots":
        return [b"%%%d" % random.choice([0, 1, 2, 3, 127, 128, 129, 1000])], [b"%%%d" % random.randint(1, 2)]
    if what == "tables":
        return [b"$%d" % random.choice([0, 1, 2, 15, 16, 17, 1000])], [b"$%d" % random.choice([1, 2, 16])]
    if what == "garbage":
        return [garbage(random)], [garbage(random)]
    return byte_put(random)


def text_asked_for(random, calls):
    """Commands that ask for the text of the book, with as many bytes lent as it has, or fewer, or more, and that mend the room again."""
    is_sound, room = calls.model.is_sound(calls.state), calls.room
    length = len(calls.model.book_text(calls.state.book)) if is_sound else 60
    rooms = [length, length, max(0, length - 1), max(0, length - 1), length + 1, 0, room, random.randint(0, calls.size)]
    return [b"#%d" % random.choice(rooms), b"=", b"#%d" % room]


def words(seed):
    """Words for the program `generate`, a line each: two numbers mostly, and some that it can't read."""
    random = Random(seed)
    start = random.choice([0, 1, 2**31, 2**32 - 1, 2**32, 2**64 + 1] + [random.randrange(2**32)] * 20)
    plots = random.choice([0, 129, 2**8 + 3, 2**16 + 3, 2**32 + 3, 2**64 - 1, 2**64, 10**70] + [random.randint(1, 128)] * 30)
    said = [b"%d" % start, b"%d" % plots]
    if random.random() < 0.2:
        at = random.randrange(2)
        said[at] = random.choice([b"", b"0" + said[at], b"+" + said[at], b"-1", b"x", said[at] + b"x", b" 3", b"3 ", b"1.0", b"\xff", b"00"])
    if random.random() < 0.05:
        said = random.choice([[], said[:1], said + [b"3"]])
    return b"".join(word + b"\n" for word in said)


def load_asked_for(random, calls):
    """Commands that ask for the text of U3's book, with as many bytes lent as it has, or fewer, or more, and that mend the room again."""
    start = random.choice([0, 1, 2**31, 2**32 - 1, 2**32, random.randrange(2**32), random.randrange(2**32), random.randrange(2**32)])
    few, many = random.randint(1, 6), random.randint(1, 128)
    plots = random.choice([few, few, many, many, 1, 128, 0, 129, 2**8 + few, 2**16 + few, 2**32 + few, 2**64 - 1, 2**64 + few])
    buffer = bytearray(calls.size)
    answer = calls.model.write_load(min(start, 2**32 - 1), min(plots, 2**64 - 1), buffer)
    length, room = answer.number if answer.wrote else 60, calls.room
    rooms = [length, length, length - 1, length + 1, 0, room, calls.size, random.randint(0, calls.size)]
    return [b"#%d" % random.choice(rooms), b"~%d,%d" % (start, plots), b"#%d" % room]


def with_texts(random, commands):
    """The commands with some more among them, and at the end, that ask for the text of the book, or of one of U3's. How long these are the
    model says."""
    calls, more = Calls(Model()), []
    for at, command in enumerate(commands):
        calls.obey(command)
        more.append(command)
        if random.random() < 0.02 or at == len(commands) - 1:
            more += text_asked_for(random, calls)
        if random.random() < 0.01 or at == len(commands) - 1:
            more += load_asked_for(random, calls)
    return more


def script(seed):
    """A script for the program `calls`: the lines of a seed, handed over with states and buffers that no run comes to."""
    random, lines = lines_drawn(seed if seed % 5000 != 4999 else 0)
    commands, ending = [garbage(random)] if random.random() < 0.3 else [], None
    for line in lines[:450]:
        line = line.replace(b"\n", b"")
        commands.append(b">" + line)
        id = line.split(b",")[1] if b"," in line else b"A"
        commands += random.choices([[b"?" + id], [b"."], [b">R"], []], [1, 1, 1, 20])[0]
        if ending is None and random.random() < 0.1:
            put, ending = odd_commands(random)
            commands += put
        elif ending is not None and random.random() < 0.4:
            commands += ending
            ending = None
    return b"".join(command + b"\n" for command in with_texts(random, commands))
