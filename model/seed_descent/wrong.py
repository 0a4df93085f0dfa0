"""Wrong engines: the model with one thing about it changed. The stored inputs are to tell each of them from the right one.

Document 01's slips and hollow engines come first, then every two refusals in the wrong order, the rules of the book one by one,
and what can be misread under its other headings, with the tallies and scanners of U5; then the text of U1, with its call and its
program, and the load of U3."""

import re
from typing import NamedTuple, Optional

from .answers import Answer
from .book import Book, Kept, Plot, Tally
from .engine import DIGITS, ID_BYTES
from .loads import Generator
from .program import Model
from .slots import Slots

WRONG = {}

MOST = Model.most_id_bytes  # an id's limit; it was eight, as the bytes of a slot's first half are


def wrong(name, words, **values):
    """A wrong engine that has other values, or other functions, than the model."""
    assert name not in WRONG, name
    WRONG[name] = type(name, (Model,), {"words": words, "reads_back": False, **values})


def wrong_class(made):
    """The same where more than one line is needed: its name and words are those of the class."""
    name = made.__name__.replace("_", "-")
    assert name not in WRONG, name
    made.words, made.reads_back = made.__doc__, False
    WRONG[name] = made
    return made


def each_plot(book, change):
    return Book(book.tables, [change(i, plot) for i, plot in enumerate(book.plots)])


def no_labels(book):
    return each_plot(book, lambda i, plot: plot._replace(label=None))


def all_sighted(book):
    return each_plot(book, lambda i, plot: plot._replace(sighting=2**plot.k - 1))


# Slips of earlier versions.


class Stale(Model):
    """Counts are kept, and a change of one plot renews those of some plots alone."""

    def start(self):
        self.kept = {}
        return super().start()

    def counts(self, book, position):
        id = book.plots[position].id
        return self.kept[id] if id in self.kept else super().counts(book, position)

    def accept(self, asked):
        if asked.fields[0] in (b"S", b"L"):
            book, changed = asked.state.book, self.plot(asked)
            stale = [i for i in range(len(book.plots)) if not self.is_renewed(book, i, changed)]
            self.kept = {book.plots[i].id: self.counts(book, i) for i in stale}
        elif asked.fields[0] in (b"T", b"P"):
            self.kept = {}
        return super().accept(asked)


@wrong_class
class only_descendants_refreshed(Stale):
    """a changed plot renews the counts of its descendants alone"""

    def is_renewed(self, book, i, changed):
        return self.is_within(book, i, changed)


@wrong_class
class other_branches_stale(Stale):
    """a changed plot renews the counts of its ancestors and descendants, not those across"""

    def is_renewed(self, book, i, changed):
        return self.is_within(book, i, changed) or self.is_within(book, changed, i)


@wrong_class
class cheapest_at_each_clash(Model):
    """each plot in turn takes what is cheapest beside its parent, whatever stands below it"""

    def cheapest(self, book):
        if super().cheapest(book) is None:
            return None
        naming = []
        for plot in book.plots:
            sighted = [c for c in range(plot.k) if self.is_sighted(plot, c)]
            beside = [c for c in sighted if plot.parent is None or self.is_beside(book, plot, c, naming[plot.parent])]
            naming.append(min(beside or sighted, key=lambda c: (self.charge(plot, c), self.place(plot, c))))
        return tuple(naming)


@wrong_class
class held_is_infinite(Model):
    """a held count stays held, whatever it is multiplied by"""

    def times(self, n, m):
        return self.largest_count if max(n, m) >= self.largest_count else n * m


wrong(
    "believed-without-solutions",
    "a class is believed in a book without solutions",
    believed=lambda self, counts: Model.believed(self, counts) if any(counts) else 0,
)


@wrong_class
class id_read_as_a_number(Model):
    """an id is read as a number: 12E3 is 12000, and 012 is 12"""

    def value(self, asked, name):
        found = super().value(asked, name)
        if isinstance(found, bytes):
            try:
                return b"%d" % int(float(found))
            except (ValueError, OverflowError):
                pass
        return found


@wrong_class
class list_one_label_too_long(Model):
    """the list has one label more, that of a plot that keeps it"""

    def relabel_list(self, book, naming):
        right = super().relabel_list(book, naming)
        kept = [(i, plot.label) for i, plot in enumerate(book.plots) if plot.label == naming[i]]
        return right + kept[-1:]


# Hollow engines.


@wrong_class
class echoes_old_counts(Model):
    """the counts of a plot are worked out once, and the same are given from then on"""

    def start(self):
        self.first = {}
        return super().start()

    def counts(self, book, position):
        return self.first.setdefault(book.plots[position].id, super().counts(book, position))


@wrong_class
class gives_18_early(Model):
    """R is 18 where a label is to change"""

    def is_18(self, asked):
        naming = self.cheapest(asked.state.book)
        return naming is None or self.price(asked.state.book, naming) > 0


wrong("gives-12-early", "12 with 127 plots", is_12=lambda self, asked: len(asked.state.book.plots) >= 127)
wrong(
    "lists-every-label",
    "every label is listed",
    relabel_list=lambda self, book, naming: [
        (i, c) for i, (plot, c) in enumerate(zip(book.plots, naming)) if plot.label is not None
    ],
)
wrong("constant-counts", "every count is 1", counts=lambda self, book, position: [1] * book.plots[position].k)


@wrong_class
class dead_book(Model):
    """lines are accepted and leave the book as it was"""

    def accept(self, asked):
        after, text = super().accept(asked)
        return after._replace(book=asked.state.book), text


wrong("declines-every-line", "every line is declined", is_2=lambda self, asked: True)
wrong(
    "number-invented",
    "R's number is always 1",
    relabel_text=lambda self, book, number, changes: Model.relabel_text(self, book, 1, changes),
)
wrong(
    "number-of-labels",
    "R's number is that of all labels",
    relabel_text=lambda self, book, number, changes: Model.relabel_text(
        self, book, sum(plot.label is not None for plot in book.plots), changes
    ),
)

# Refusals in the wrong order: of two that apply to a line of some kind, the one that comes later is given. Not every two can
# apply to one line.

NEVER_TOGETHER = {(4, 17), (5, 17), (16, 17)}


def pairs_in_order(letter):
    kinds = Model.fields_of[letter]
    numbers = sum(kind.is_number() for kind in kinds)
    never = {2} | (set() if letter == b"P" else {7})
    never |= set() if numbers else {5, 6}
    never |= set() if numbers < len(kinds) else {4}
    order = [number for number in Model.of_every_line + Model.of_its_kind[letter] if number not in never]
    pairs = {(early, late) for i, early in enumerate(order) for late in order[i + 1 :]} - NEVER_TOGETHER
    return sorted(pairs if numbers > 1 else pairs - {(5, 6)})


def swapped(early, late, letter):
    def refusal(self, asked):
        number = Model.refusal(self, asked)
        of_kind = asked.fields[0] == letter or late == 2 and asked.fields[0] not in self.fields_of
        return late if number == early and of_kind and getattr(self, f"is_{late}")(asked) else number

    return refusal


for letter in Model.fields_of:
    for early, late in pairs_in_order(letter):
        words = f"a {letter.decode()} line is {late} where {early} is due and {late} applies too"
        wrong(f"{late}-before-{early}-in-{letter.decode()}", words, refusal=swapped(early, late, letter))
for early in (10, 9, 19, 1):
    wrong(f"2-before-{early}", f"2 is given where {early} is due and 2 applies too", refusal=swapped(early, 2, b""))

# Rules of the book: each left out, then its edges.

for rule in Model.rules_of_the_book:
    if rule != "tables_are_masks":  # neither lines nor the engine's bytes can say another table
        words = "a state that breaks this rule alone is taken"
        wrong(f"9-without-{rule.replace('_', '-')}", words, **{rule: lambda self, book: True})
wrong("9-without-tallies", "tallies past a million are taken", lines_at_most=lambda self, kept: True)


def each(test):
    """A rule of the book that is a test of each plot, with its position."""
    return lambda self, book: all(test(book, i, plot) for i, plot in enumerate(book.plots))


def id_bytes(text, more=b""):
    return all(b in ID_BYTES + more for b in text)


def together(kept):
    """How many lines all scanners together had accepted, and how many refused."""
    return sum(tally.accepted for tally in kept.tallies), sum(tally.refused for tally in kept.tallies)


def tables_rule(name, words, test):
    wrong(name, words, tables_at_most=lambda self, book: test(len(book.tables)))


def ids_rule(name, words, test):
    wrong(name, words, ids_well_formed=each(lambda book, i, plot: test(plot.id)))


def different_rule(name, words, test):
    wrong(name, words, ids_different=each(lambda book, i, plot: i == 0 or test(book, i, plot.id)))


def parents_rule(name, words, test):
    wrong(name, words, parents_earlier=each(lambda book, i, plot: plot.parent is None or test(book, i, plot.parent)))


def standing_rule(name, words, test):
    wrong(name, words, tables_stand=each(lambda book, i, plot: plot.table is None or test(book, plot.table)))


def later_rule(name, words, test):
    wrong(name, words, later_have_parent_and_table=each(lambda book, i, plot: i == 0 or test(plot)))


def k_rule(name, words, test):
    wrong(name, words, k_in_range=each(lambda book, i, plot: test(plot.k)))


def sighting_rule(name, words, test):
    wrong(name, words, sightings_of_own_classes=each(lambda book, i, plot: test(plot.sighting, 2**plot.k)))


def label_rule(name, words, test):
    wrong(name, words, labels_of_own_classes=each(lambda book, i, plot: plot.label is None or test(plot, plot.label)))


def tally_rule(name, words, test):
    """A rule of the lines accepted by all scanners together, and of those refused."""
    wrong(name, words, lines_at_most=lambda self, kept: test(*together(kept)))


tables_rule("9-for-16-tables", "16 tables break the rules", lambda n: n < 16)
tables_rule("9-not-for-17-tables", "17 tables keep the rules", lambda n: n <= 17)
wrong("9-for-128-plots", "128 plots break the rules", plots_at_most=lambda self, book: len(book.plots) < 128)
ids_rule("9-for-digits-in-ids", "an id has letters alone", lambda id: id.isalpha() and id.isupper())
ids_rule("9-for-ids-at-the-limit", "an id has a byte less than the limit", lambda id: 0 < len(id) < MOST and id_bytes(id))
ids_rule("9-for-ids-past-8-bytes", "an id has at most eight bytes, as before", lambda id: 0 < len(id) <= 8 and id_bytes(id))
ids_rule("9-not-for-no-id", "an id may have no byte", lambda id: id_bytes(id))
ids_rule("9-not-for-small-letters", "small letters are bytes of an id", lambda id: id.isalnum())
ids_rule("9-not-for-the-byte-after-Z", "the byte after Z is one of an id", lambda id: id != b"" and id_bytes(id, b"["))
ids_rule(
    "9-not-behind-a-zero",
    "an id is looked at up to a zero",
    lambda id: id[:1] not in b"\0" and id_bytes(id.split(b"\0")[0]),
)


def trimmed(lies):
    """The id that some bytes of a slot say."""
    return bytes(lies).rstrip(b"\0")


def is_short_id(lies):
    return 0 < len(trimmed(lies)) <= MOST and id_bytes(trimmed(lies))


ids_rule("9-not-past-the-limit", "an id may have a byte more than the limit", lambda id: 0 < len(id) <= MOST + 1 and id_bytes(id))
ids_rule("9-not-for-ids-of-16-bytes", "an id may fill its slot", lambda id: id != b"" and id_bytes(id))
ids_rule("9-not-past-the-eighth-byte", "only the first eight bytes are looked at", lambda id: is_short_id(id[:8]))
ids_rule("9-not-for-bytes-past-the-limit", "only as many bytes are looked at as an id may have", lambda id: is_short_id(id[:MOST]))
ids_rule(
    "9-not-for-the-byte-past-the-limit",
    "the byte behind the last that an id may have isn't looked at",
    lambda id: is_short_id(id[:MOST] + b"\0" + id[MOST + 1 :]),
)
ids_rule(
    "9-not-for-what-bytes-are-past-the-eighth",
    "past the eighth byte any byte is one of an id",
    lambda id: 0 < len(id) <= MOST and id_bytes(id[:8]),
)
ids_rule("9-not-for-the-sixteenth-byte", "the last byte isn't looked at", lambda id: is_short_id(id[:15]))
ids_rule(
    "9-not-for-other-bytes-past-the-limit",
    "past the limit only bytes of ids break the rules",
    lambda id: is_short_id(id[:MOST]) and not any(b in ID_BYTES for b in id[MOST:]),
)
ids_rule(
    "9-not-for-a-zero-before-the-ninth-byte",
    "the bytes past the eighth are an id's whatever stands before them",
    lambda id: 0 < len(trimmed(id[:8])) and len(id) <= MOST and id_bytes(trimmed(id[:8]) + id[8:]),
)
different_rule(
    "9-by-the-first-eight-bytes",
    "ids with the same first eight bytes are the same",
    lambda book, i, id: all(id[:8] != plot.id[:8] for plot in book.plots[:i]),
)
different_rule(
    "9-by-the-bytes-past-the-eighth",
    "of ids with more than eight bytes those past the eighth alone are compared",
    lambda book, i, id: all((id[8:] or id) != (plot.id[8:] or plot.id) for plot in book.plots[:i]),
)
different_rule(
    "9-by-the-id-before",
    "an id is compared with the one before it",
    lambda book, i, id: id != book.plots[i - 1].id,
)
different_rule("9-by-the-first-id", "an id is compared with the first alone", lambda book, i, id: id != book.plots[0].id)
different_rule(
    "9-by-the-first-bytes-of-ids",
    "ids with the same first byte are the same",
    lambda book, i, id: all(id[:1] != plot.id[:1] for plot in book.plots[:i]),
)
wrong(
    "9-not-for-a-parent-of-the-first",
    "the first plot may have a parent, if it has no table",
    first_is_foundation=lambda self, book: all(plot.table is None for plot in book.plots[:1]),
    parents_earlier=each(lambda book, i, plot: i == 0 or plot.parent is None or plot.parent < i),
)
wrong(
    "9-not-for-a-table-of-the-first",
    "the first plot may have a table, if it has no parent",
    first_is_foundation=lambda self, book: all(plot.parent is None for plot in book.plots[:1]),
)
later_rule(
    "9-not-for-a-later-foundation",
    "a later plot may have neither parent nor table",
    lambda plot: (plot.parent is None) == (plot.table is None),
)
later_rule("9-not-for-a-table-alone", "a later plot needs no parent, if it has a table", lambda plot: plot.table is not None)
later_rule(
    "9-not-for-a-parent-alone",
    "a later plot needs no table, if it has a parent",
    lambda plot: plot.parent is not None,
)
parents_rule("9-not-for-its-own-parent", "a plot may be its own parent", lambda book, i, parent: parent <= i)
parents_rule(
    "9-not-for-a-later-parent",
    "a parent stands anywhere in the book",
    lambda book, i, parent: parent != i and parent < len(book.plots),
)
parents_rule("9-not-for-parent-254", "a parent past the last is none", lambda book, i, parent: parent < i or parent == 254)
parents_rule("9-for-all-but-a-star", "every plot hangs below the first", lambda book, i, parent: i and parent == 0)
standing_rule("9-not-for-the-next-table", "the table behind the last stands", lambda book, table: table <= len(book.tables))
standing_rule(
    "9-not-for-table-254",
    "a table past the last is none",
    lambda book, table: table < len(book.tables) or table == 254,
)
standing_rule("9-for-the-second-table", "a plot hangs by the first table", lambda book, table: table == 0 and book.tables)
wrong(
    "9-not-for-no-class",
    "a plot may have no class",
    k_in_range=each(lambda book, i, plot: plot.k <= 8),
    sightings_not_empty=each(lambda book, i, plot: plot.k == 0 or plot.sighting >= 1),
)
k_rule("9-for-one-class", "a plot has two classes or more", lambda k: 2 <= k <= 8)
k_rule("9-for-eight-classes", "a plot has at most seven classes", lambda k: 1 <= k < 8)
k_rule("9-not-for-nine-classes", "a plot may have nine classes", lambda k: 1 <= k <= 9)
k_rule("9-not-for-255-classes", "a k of 255 is taken", lambda k: 1 <= k <= 8 or k == 255)
sighting_rule("9-not-for-k-beside-others", "a sighting may have k beside its classes", lambda mask, all: mask % all > 0)
sighting_rule("9-not-for-k-alone", "a sighting may be k alone", lambda mask, all: mask <= all)
sighting_rule(
    "9-for-the-last-class-alone",
    "one class alone may not be the last",
    lambda mask, all: mask < all and 2 * mask != all,
)
label_rule("9-not-for-a-label-of-k", "a label may be k", lambda plot, label: label <= plot.k)
label_rule("9-not-for-label-254", "a label past the last class is none", lambda plot, label: label < plot.k or label == 254)
label_rule("9-for-the-last-class-as-label", "a label is below k - 1", lambda plot, label: label < plot.k - 1)
label_rule(
    "9-for-a-label-not-sighted",
    "a label lies in the sighting",
    lambda plot, label: label < plot.k and plot.sighting // 2**label % 2 == 1,
)
tally_rule("9-for-a-million-lines", "tallies add up to less than a million", lambda a, r: a + r < 1_000_000)
tally_rule("9-not-for-a-million-and-one", "tallies may add up to one line more", lambda a, r: a + r <= 1_000_001)
tally_rule("9-by-the-lines-accepted", "only accepted lines are bounded", lambda a, r: a <= 1_000_000)
tally_rule("9-by-the-lines-refused", "only refused lines are bounded", lambda a, r: r <= 1_000_000)
tally_rule("9-by-each-tally", "each tally is bounded on its own", lambda a, r: max(a, r) <= 1_000_000)
tally_rule("9-by-tallies-in-32-bits", "tallies are added in 32 bits", lambda a, r: (a + r) % 2**32 <= 1_000_000)


def sound_where(name, words, test):
    """A state keeps the rules by another test, of its book and whether it does."""
    wrong(name, words, is_sound=lambda self, state: test(self, state, Model.is_sound(self, state)))


def unused(self, state):
    """The state with the same book, and what an unused run keeps beside it."""
    return state._replace(kept=self.start().kept)


sound_where(
    "9-not-for-tallies-without-plots",
    "tallies aren't looked at in the empty book",
    lambda self, state, right: right or not state.book.plots and Model.is_sound(self, unused(self, state)),
)
sound_where(
    "9-not-for-tallies-without-tables",
    "tallies aren't looked at in a book without tables",
    lambda self, state, right: right or not state.book.tables and Model.is_sound(self, unused(self, state)),
)
sound_where(
    "9-for-fewer-lines-than-plots",
    "the tallies match the book",
    lambda self, state, right: right and len(state.book.plots) <= self.lines_taken(state.kept),
)

# The rules of what is kept beside the book (U5): each left out, its edges, and which scanners' lines are added.

wrong("9-without-the-scanner", "lines may come from any scanner", scanner_has_a_tally=lambda self, kept: True)


def scanner_rule(name, words, test):
    wrong(name, words, scanner_has_a_tally=lambda self, kept: test(kept))


def lines_rule(name, words, test):
    wrong(name, words, lines_at_most=lambda self, kept: test(kept))


def lines_of_present(kept):
    """How many lines the scanner has sent that lines come from."""
    return sum(map(sum, kept.tallies[kept.scanner : kept.scanner + 1]))


def lines_but_of(kept, scanner):
    """How many lines the others have sent."""
    return sum(sum(tally) for n, tally in enumerate(kept.tallies) if n != scanner)


scanner_rule("9-for-scanner-0", "the first scanner breaks the rules", lambda kept: 0 < kept.scanner < 16)
scanner_rule("9-for-scanner-15", "the last scanner breaks the rules", lambda kept: kept.scanner < 15)
scanner_rule("9-not-for-scanner-16", "a scanner past the last may be the next", lambda kept: kept.scanner <= 16)
for bits in (5, 8, 16, 32, 63):
    words = f"the scanner is read in {bits} bits"
    scanner_rule(f"9-by-the-scanner-in-{bits}-bits", words, lambda kept, bits=bits: kept.scanner % 2**bits < 16)
scanner_rule(
    "9-for-a-scanner-without-lines",
    "a scanner other than 0 has lines",
    lambda kept: kept.scanner == 0 or lines_of_present(kept) > 0,
)
scanner_rule(
    "9-not-for-scanner-16-without-lines",
    "the scanner isn't looked at where no line was taken",
    lambda kept: kept.scanner < 16 or sum(together(kept)) == 0,
)
lines_rule(
    "9-by-each-scanner",
    "each scanner may send a million lines",
    lambda kept: all(sum(tally) <= 1_000_000 for tally in kept.tallies),
)
lines_rule(
    "9-by-the-present-scanner",
    "the lines of the present scanner alone are bounded",
    lambda kept: lines_of_present(kept) <= 1_000_000,
)
lines_rule(
    "9-by-scanners-in-32-bits",
    "the two numbers of each scanner are added in 32 bits",
    lambda kept: sum(sum(tally) % 2**32 for tally in kept.tallies) <= 1_000_000,
)
lines_rule(
    "9-by-accepted-and-refused-in-32-bits",
    "the accepted of all scanners are added in 32 bits, and so are the refused",
    lambda kept: sum(n % 2**32 for n in together(kept)) <= 1_000_000,
)
for n in range(16):
    words = f"the lines of scanner {n} aren't added"
    lines_rule(f"9-without-the-lines-of-scanner-{n}", words, lambda kept, n=n: lines_but_of(kept, n) <= 1_000_000)

# Rules that aren't looked at for every plot, or not by every call.

RULES_OF_PLOTS = {
    "ids_well_formed": lambda self, book, i, plot: self.is_id(plot.id),
    "ids_different": lambda self, book, i, plot: all(plot.id != other.id for other in book.plots[:i]),
    "later_have_parent_and_table": lambda self, book, i, plot: i == 0 or None not in (plot.parent, plot.table),
    "parents_earlier": lambda self, book, i, plot: plot.parent is None or plot.parent < i,
    "tables_stand": lambda self, book, i, plot: plot.table is None or plot.table < len(book.tables),
    "k_in_range": lambda self, book, i, plot: 1 <= plot.k <= self.most_classes,
    "sightings_not_empty": lambda self, book, i, plot: plot.sighting >= 1,
    "sightings_of_own_classes": lambda self, book, i, plot: plot.sighting < 2**plot.k,
    "labels_of_own_classes": lambda self, book, i, plot: plot.label is None or plot.label < plot.k,
}
PLACES = {
    "first": ("the first plot", lambda book, i: i == 0),
    "middle": ("the plots between the first and the last", lambda book, i: 0 < i < len(book.plots) - 1),
    "last": ("the last plot", lambda book, i: i == len(book.plots) - 1),
}
OF_LATER_PLOTS = ("ids_different", "later_have_parent_and_table", "parents_earlier", "tables_stand")


def but_at(place, test):
    return lambda self, book: all(place(book, i) or test(self, book, i, plot) for i, plot in enumerate(book.plots))


for rule, test in RULES_OF_PLOTS.items():
    for name, (plots, place) in PLACES.items():
        if name != "first" or rule not in OF_LATER_PLOTS:
            words = f"this rule isn't looked at for {plots}"
            wrong(f"9-without-{rule.replace('_', '-')}-{name}", words, **{rule: but_at(place, test)})
for name, (plots, place) in PLACES.items():
    words = f"the bytes past the eighth aren't looked at for {plots}"
    test = but_at(place, RULES_OF_PLOTS["ids_well_formed"])
    wrong(
        f"9-not-past-the-eighth-byte-{name}",
        words,
        ids_well_formed=lambda self, book, test=test: test(self, book)
        and all(is_short_id(plot.id[:8]) for plot in book.plots),
    )
for n in (64, 127):
    wrong(
        f"9-among-{n}-plots",
        f"the rules are looked at for the first {n} plots",
        is_sound=lambda self, state, n=n: len(state.book.plots) <= self.most_plots
        and Model.is_sound(self, state._replace(book=Book(state.book.tables, state.book.plots[:n]))),
    )


def alone(book, id):
    """The book with one plot alone, as foundation, or with none where no plot has the id."""
    i = book.position(id)
    return Book(book.tables, [] if i is None else [book.plots[i]._replace(parent=None, table=None)])


def by_plot_named(letter):
    def is_9(self, asked):
        book = alone(asked.state.book, self.value(asked, "id"))
        of_kind = asked.fields[0] == letter and self.plots_at_most(asked.state.book)
        return not self.is_sound(asked.state._replace(book=book)) if of_kind else Model.is_9(self, asked)

    return is_9


def without_ids(letter):
    def is_9(self, asked):
        rules = [rule for rule in self.rules_of_the_book if not rule.startswith("ids")]
        keeps = all(getattr(self, rule)(asked.state.book) for rule in rules)
        keeps = keeps and all(getattr(self, rule)(asked.state.kept) for rule in self.rules_of_the_kept)
        return not keeps if asked.fields[0] == letter else Model.is_9(self, asked)

    return is_9


for letter in (b"T", b"P", b"S", b"L"):
    words = f"a {letter.decode()} line looks at the rules of the plot that it names alone"
    wrong(f"9-by-the-plot-named-in-{letter.decode()}", words, is_9=by_plot_named(letter))
for letter in (b"R", b"C", b"H"):
    words = f"a {letter.decode()} line doesn't look at the rules of ids"
    wrong(f"9-not-for-ids-in-{letter.decode()}", words, is_9=without_ids(letter))


def first_halves(book):
    """The book whose ids are what the first eight bytes of the slots say."""
    return each_plot(book, lambda i, plot: plot._replace(id=trimmed(plot.id[:8])))


def by_first_halves(letter):
    def is_9(self, asked):
        halves = asked.state._replace(book=first_halves(asked.state.book))
        return not self.is_sound(halves) if asked.fields[0] == letter else Model.is_9(self, asked)

    return is_9


for letter in Model.fields_of:
    words = f"a {letter.decode()} line doesn't look past the eighth byte of ids"
    wrong(f"9-not-past-the-eighth-byte-in-{letter.decode()}", words, is_9=by_first_halves(letter))
wrong(
    "end-not-past-the-eighth-byte",
    "the end doesn't look past the eighth byte of ids",
    end=lambda self, state, buffer: Model.end(self, state._replace(book=first_halves(state.book)), buffer),
)
wrong(
    "counts-not-past-the-eighth-byte",
    "counts asked for don't look past the eighth byte of ids",
    counts_of=lambda self, state, id: Model.counts_of(self, state._replace(book=first_halves(state.book)), id),
)


wrong(
    "9-not-for-the-book-in-H",
    "an H line doesn't look at the rules of the book",
    is_9=lambda self, asked: Model.is_9(self, asked._replace(state=asked.state._replace(book=Book())))
    if asked.fields[0] == b"H"
    else Model.is_9(self, asked),
)


def looked_over(what, blind):
    """Engines of which one kind of line, or one call, goes by another that doesn't look at something."""

    def in_lines(letter):
        def is_9(self, asked):
            kind = asked.fields[0] if asked.fields[0] in self.fields_of else None
            return Model.is_9(blind if kind == letter else self, asked)

        return is_9

    for letter in [*Model.fields_of, None]:
        kind = letter.decode() if letter else "other-lines"
        wrong(f"9-not-for-{what}-in-{kind}", f"9 isn't given for {what.replace('-', ' ')} there", is_9=in_lines(letter))
    words = f"this call doesn't look at {what.replace('-', ' ')}"
    wrong(f"end-without-{what}", words, end=lambda self, state, buffer: Model.end(blind, state, buffer))
    wrong(f"counts-without-{what}", words, counts_of=lambda self, state, id: Model.counts_of(blind, state, id))
    wrong(f"text-without-{what}", words, write_book=lambda self, state, buffer: Model.write_book(blind, state, buffer))


class BlindToTheScanner(Model):
    reads_back = False

    def scanner_has_a_tally(self, kept):
        return True


class BlindToTheTallies(Model):
    reads_back = False

    def lines_at_most(self, kept):
        return True


looked_over("the-scanner", BlindToTheScanner())
looked_over("the-tallies", BlindToTheTallies())


@wrong_class
class end_looks_at_no_plot(Model):
    """the end tells the tallies where a plot breaks a rule"""

    def end(self, state, buffer):
        book = Book(state.book.tables) if self.plots_at_most(state.book) else state.book
        return super().end(state._replace(book=book), buffer)


@wrong_class
class counts_by_the_plot_named(Model):
    """counts asked for look at the rules of that plot alone"""

    def counts_of(self, state, id):
        right = super().counts_of(state, id)
        named = state._replace(book=alone(state.book, id))
        return super().counts_of(named, id) if right == 9 and self.plots_at_most(state.book) else right


# What lies in a slot before a plot or a table comes, and past those that stand.


def leaves(name, words, stored, test):
    """P leaves the byte that lay there, for some plots."""

    class Left(Slots):
        def put_plot(self, i, plot):
            lay = getattr(self, stored)[i]
            super().put_plot(i, plot)
            if test(plot):
                self.store(stored, i, lay)

    wrong(name, words, slots=Left)


leaves("label-left-in-the-slot", "P leaves the label that lay in the slot", "labels", lambda plot: True)
leaves(
    "parent-left-in-the-slot",
    "P with a blank parent leaves the one that lay in the slot",
    "parents",
    lambda plot: plot.parent is None,
)
leaves(
    "table-left-in-the-slot",
    "P with a blank table leaves the one that lay in the slot",
    "tables",
    lambda plot: plot.table is None,
)


@wrong_class
class id_not_padded(Model):
    """P leaves the bytes that lay in the slot behind the id"""

    class slots(Slots):
        def put_plot(self, i, plot):
            lay = self.ids[self.id_at(i)]
            super().put_plot(i, plot)
            self.ids[self.id_at(i)] = plot.id + lay[len(plot.id) :]


class HalfLeft(Slots):
    """P leaves some of the bytes that lay in the slot past its eighth."""

    def put_plot(self, i, plot):
        first, end = self.left(plot)
        places = range(self.id_wide * i + first, self.id_wide * i + end)
        lay = [self.ids[place] for place in places]
        super().put_plot(i, plot)
        for place, byte in zip(places, lay):
            self.ids[place] = byte


def leaves_past_the_eighth(name, words, left):
    wrong(name, words, slots=type(name, (HalfLeft,), {"left": lambda self, plot: left(plot)}))


leaves_past_the_eighth("second-half-left", "P leaves the second half of the id's slot as it was", lambda plot: (8, 16))
leaves_past_the_eighth("ninth-byte-left", "P leaves the ninth byte of the id's slot as it was", lambda plot: (8, 9))
leaves_past_the_eighth("byte-past-the-limit-left", "P leaves the byte behind the id's limit as it was", lambda plot: (MOST, MOST + 1))
leaves_past_the_eighth("sixteenth-byte-left", "P leaves the last byte of the id's slot as it was", lambda plot: (15, 16))
leaves_past_the_eighth(
    "second-half-left-behind-eight-bytes",
    "P leaves the second half of the slot as it was, where the id fills the first",
    lambda plot: (8, 16) if len(plot.id) == 8 else (8, 8),
)
leaves_past_the_eighth(
    "slot-left-behind-a-full-id",
    "P leaves the end of the slot as it was, where the id has as many bytes as it may have",
    lambda plot: (MOST, 16) if len(plot.id) == MOST else (8, 8),
)
leaves_past_the_eighth(
    "second-half-left-of-foundations",
    "P leaves the second half of the foundation's slot as it was",
    lambda plot: (8, 16) if plot.parent is None else (8, 8),
)


@wrong_class
class id_slots_of_8_bytes(Model):
    """an id has eight bytes in the array"""

    class slots(Slots):
        id_wide = 8


@wrong_class
class id_slots_of_the_limit(Model):
    """an id has as many bytes in the array as it may have"""

    class slots(Slots):
        id_wide = MOST


@wrong_class
class id_read_from_the_first_half(Model):
    """an id is read from the first half of its slot"""

    class slots(Slots):
        def plot(self, i):
            return super().plot(i)._replace(id=trimmed(self.ids[self.id_at(i)][:8]))


@wrong_class
class id_in_the_second_half(Model):
    """the first eight bytes of an id are stored behind the others"""

    class slots(Slots):
        def plot(self, i):
            lies = self.ids[self.id_at(i)]
            return super().plot(i)._replace(id=trimmed(lies[8:] + lies[:8]))

        def put_plot(self, i, plot):
            super().put_plot(i, plot)
            right = self.ids[self.id_at(i)]
            self.ids[self.id_at(i)] = right[8:] + right[:8]


@wrong_class
class id_last_byte_first(Model):
    """each eight bytes of an id are stored last byte first, as a number's highest"""

    class slots(Slots):
        def plot(self, i):
            lies = self.ids[self.id_at(i)]
            return super().plot(i)._replace(id=trimmed(lies[7::-1] + lies[:7:-1]))

        def put_plot(self, i, plot):
            super().put_plot(i, plot)
            right = self.ids[self.id_at(i)]
            self.ids[self.id_at(i)] = right[7::-1] + right[:7:-1]


@wrong_class
class id_ended_by_a_zero(Model):
    """P writes a zero behind the id's slot, into the next one"""

    class slots(Slots):
        def put_plot(self, i, plot):
            super().put_plot(i, plot)
            self.store("ids", self.id_wide * (i + 1), 0)


@wrong_class
class rows_of_0_not_written(Model):
    """T leaves what lay there for a row of 0"""

    class slots(Slots):
        def put_table(self, t, rows):
            lay = self.rows[self.table_at(t)]
            super().put_table(t, [row or byte for row, byte in zip(rows, lay)])


class GarbageBreaksTheRules(Slots):
    def book(self):
        book = super().book()
        if any(label > 8 for label in self.labels[self.plots_standing :]):
            book.known["sound"] = False
        return book


wrong("9-for-garbage", "what lies past the plots is to keep the rules too", slots=GarbageBreaksTheRules)

# Limits of lines and runs.

wrong("room-of-4095", "a buffer of 4,095 bytes is long enough", least_room=4095)
wrong("room-of-4097", "a buffer of 4,096 bytes is too short", least_room=4097)
wrong("line-of-40-bytes", "a line of 40 bytes is too long", most_line_bytes=39)
wrong("line-length-in-8-bits", "a line of 256 bytes counts as one of 0", is_1=lambda self, asked: len(asked.line) % 256 > 40)
wrong("line-length-in-6-bits", "a line of 64 bytes counts as one of 0", is_1=lambda self, asked: len(asked.line) % 64 > 40)
wrong("line-of-41-bytes", "a line of 41 bytes isn't too long", most_line_bytes=41)


def over(name, words, test):
    """19 by another test of the tallies."""
    wrong(name, words, is_19=lambda self, asked: test(asked.state.kept))


over("19-one-early", "19 comes one line early", lambda kept: sum(together(kept)) >= 999_999)
over("19-one-late", "19 comes one line late", lambda kept: sum(together(kept)) >= 1_000_001)
over("19-by-lines-accepted", "19 goes by accepted lines alone", lambda kept: together(kept)[0] >= 1_000_000)
over("19-by-lines-refused", "19 goes by refused lines alone", lambda kept: together(kept)[1] >= 1_000_000)
over("19-by-each-scanner", "19 comes when one scanner has sent a million", lambda kept: max(map(sum, kept.tallies)) >= 1_000_000)
over("19-by-the-present-scanner", "each scanner may send a million lines", lambda kept: lines_of_present(kept) >= 1_000_000)
over(
    "19-by-the-other-scanners",
    "the lines of the present scanner aren't added",
    lambda kept: lines_but_of(kept, kept.scanner) >= 1_000_000,
)
for n in range(16):
    words = f"19 comes later, as the lines of scanner {n} aren't added"
    over(f"19-without-the-lines-of-scanner-{n}", words, lambda kept, n=n: lines_but_of(kept, n) >= 1_000_000)
wrong(
    "10-not-in-H",
    "H is taken with a short buffer, as it has no text",
    is_10=lambda self, asked: asked.fields[0] != b"H" and Model.is_10(self, asked),
)
wrong("19-not-in-H", "H is taken after a million lines", is_19=lambda self, asked: asked.fields[0] != b"H" and Model.is_19(self, asked))
wrong("tables-15", "the 16th table is 11", is_11=lambda self, asked: len(asked.state.book.tables) >= 15)
wrong("tables-17", "the 17th table is taken", is_11=lambda self, asked: len(asked.state.book.tables) >= 17)
wrong("plots-129", "the 129th plot is taken", is_12=lambda self, asked: len(asked.state.book.plots) >= 129)
wrong("numbers-of-2-digits", "a number of three digits is 5", most_digits=2)
wrong("numbers-of-4-digits", "a number of four digits passes 5", most_digits=4)

# What a line says.


def with_fields(letter, **changes):
    """The fields of all kinds of lines, some of one kind changed by name: rows all together."""
    fields = [f._replace(**changes.get(f.name.split()[0], {})) for f in Model.fields_of[letter]]
    return {**Model.fields_of, letter: fields}


def fields_rule(name, words, letter, **changes):
    wrong(name, words, fields_of=with_fields(letter, **changes))


for letter, name, least, most in (
    (b"T", "row", 0, 255),
    (b"P", "table", 0, 15),
    (b"P", "k", 1, 8),
    (b"S", "mask", 1, 255),
    (b"L", "class", 0, 7),
    (b"H", "scanner", 0, 15),
):
    fields_rule(f"{name}-{least}-is-6", f"a {name} of {least} is 6", letter, **{name: {"least": least + 1}})
    fields_rule(f"{name}-{most}-is-6", f"a {name} of {most} is 6", letter, **{name: {"most": most - 1}})
    fields_rule(f"{name}-{most + 1}-passes", f"a {name} of {most + 1} passes 6", letter, **{name: {"most": most + 1}})
    if least:
        fields_rule(f"{name}-0-passes", f"a {name} of 0 passes 6", letter, **{name: {"least": 0}})
fields_rule("blank-parent-is-4", "a blank parent is 4", b"P", parent={"blank": False})
fields_rule("blank-table-is-5", "a blank table is 5", b"P", table={"blank": False})
fields_rule("blank-class-is-5", "L with a blank class is 5", b"L", **{"class": {"blank": False}})


def of_line(name, words, change):
    """The model, with another line in place of the one that it gets, if that isn't too long."""

    def step(self, state, line, buffer):
        return Model.step(self, state, change(line) if len(line) <= self.most_line_bytes else line, buffer)

    wrong(name, words, step=step)


def of_field(name, words, letter, at, change):
    """The same for one field of one kind of line."""

    def changed(line):
        fields = line.split(b",")
        if fields[0] == letter and len(fields) > at:
            fields[at] = change(fields[at])
        return b",".join(fields)

    of_line(name, words, changed)


def in_8_bits(text):
    return b"%d" % (int(text) % 256) if re.fullmatch(rb"[1-9][0-9]{0,2}", text) else text


def without_zeros(text):
    return text.lstrip(b"0") or b"0" if re.fullmatch(rb"[0-9]{1,3}", text) else text


def of_letter(name, words, change):
    """The same for a line's first field."""
    of_line(name, words, lambda line: change(line[: (line + b",").index(b",")]) + line[(line + b",").index(b",") :])


def ids_are(name, words, is_id):
    """Other ids pass 4; the rule of 9 about ids is as it was."""

    def is_4(self, asked):
        ids = [(kind, field) for kind, field in self.named(asked) if not kind.is_number()]
        return any(not is_id(self, field) and not (kind.blank and field == b"") for kind, field in ids)

    wrong(name, words, is_4=is_4)


def ids_of_field(name, words, letter, called, most):
    """Another limit of bytes in one field alone."""

    def is_4(self, asked):
        def is_id(kind, field):
            limit = most if (asked.fields[0], kind.name) == (letter, called) else self.most_id_bytes
            return 1 <= len(field) <= limit and id_bytes(field)

        ids = [(kind, field) for kind, field in self.named(asked) if not kind.is_number()]
        return any(not is_id(kind, field) and not (kind.blank and field == b"") for kind, field in ids)

    wrong(name, words, is_4=is_4)


def of_h(name, words, pattern, other):
    """Another line where a pattern is found at the front of one that isn't too long."""
    of_line(name, words, lambda line: re.sub(rb"^" + pattern, other, line, flags=re.DOTALL))


of_letter("letter-by-its-first-byte", "of the first field only the first byte is looked at", lambda field: field[:1])
of_letter("small-letters", "t is T", bytes.upper)
of_line("blanks-trimmed", "blanks around a line are passed over", lambda line: line.strip(b" "))
of_line("byte-13-trimmed", "a byte 13 at a line's end is passed over", lambda line: line.rstrip(b"\r"))
of_line("zeros-trimmed", "bytes 0 at a line's end are passed over", lambda line: line.rstrip(b"\0"))
of_line("blank-rows-are-0", "a blank row is 0", lambda line: re.sub(rb",(?=,|$)", b",0", line) if line[:1] == b"T" else line)
of_line("blank-mask-is-255", "a blank mask is 255", lambda line: line + b"255" if re.match(rb"S,.*,$", line) else line)
of_line("blank-k-is-8", "a blank k is 8", lambda line: line + b"8" if re.match(rb"P,.*,$", line) else line)
of_line(
    "byte-order-mark",
    "three bytes that some programs put first are passed over",
    lambda line: line[3:] if line[:3] == b"\xef\xbb\xbf" else line,
)
of_line("quotes", "fields may be quoted", lambda line: line.replace(b'"', b""))
of_line("last-comma-trimmed", "a comma at an R line's end opens no field", lambda line: b"R" if line == b"R," else line)
of_h("h-alone", "H alone is H,0", rb"H$", b"H,0")
of_h("h-without-a-comma", "H3 is H,3", rb"H([0-9]+)$", rb"H,\1")
of_h("h-with-a-blank-for-the-comma", "H 3 is H,3", rb"H ([0-9]+)$", rb"H,\1")
of_h("small-h", "h is H", rb"h(?=,|$)", b"H")
of_h("blank-scanner-is-0", "a blank n is 0", rb"H,$", b"H,0")
of_h("comma-behind-the-scanner", "a comma behind n opens no field", rb"(H,[0-9]+),$", rb"\1")
of_h("third-field-of-h", "a third field of H is passed over", rb"(H,[^,]*),[^,]*$", rb"\1")
of_h("blanks-before-the-scanner", "blanks before n are passed over", rb"H, +", b"H,")
of_h("blanks-behind-the-scanner", "blanks behind n are passed over", rb"(H,[0-9]+) +$", rb"\1")
of_h("scanner-with-a-sign", "n may have a plus", rb"H,\+", b"H,")
of_h("scanner-in-base-16", "n may be A for 10", rb"H,A$", b"H,10")
of_field(
    "scanner-in-4-bits",
    "n past 15 is cut to 4 bits",
    b"H",
    1,
    lambda n: b"%d" % (int(n) % 16) if re.fullmatch(rb"[1-9][0-9]{1,2}", n) else n,
)
of_field("scanner-held-at-15", "n past 15 is 15", b"H", 1, lambda n: b"15" if re.fullmatch(rb"1[6-9]|[2-9][0-9]|[1-9][0-9]{2}", n) else n)


@wrong_class
class blank_scanner_keeps_it(Model):
    """a blank n leaves the scanner as it was"""

    fields_of = with_fields(b"H", scanner={"blank": True})

    def accept_H(self, kept, asked):
        return kept if self.value(asked, "scanner") is None else super().accept_H(kept, asked)


def refuses_h(name, words, number):
    """An H line is refused with another number, by the line asked and the right one, None if it is accepted."""

    def refusal(self, asked):
        right = Model.refusal(self, asked)
        return number(asked, right) if asked.fields[0] == b"H" else right

    wrong(name, words, refusal=refusal)


for given, right in (2, 3), (5, 3), (2, 5), (3, 5), (4, 5), (6, 5), (7, 5), (2, 6), (5, 6), (16, 6), (17, 6):
    words = f"an H line is {given} where {right} is due"
    refuses_h(f"{given}-for-{right}-in-H", words, lambda asked, number, given=given, right=right: given if number == right else number)
refuses_h(
    "scanner-of-3-digits-is-5",
    "n of three digits is 5",
    lambda asked, right: 5 if right == 6 and len(asked.fields[1]) == 3 else right,
)
refuses_h(
    "scanner-of-4-digits-is-6",
    "n of four digits is 6",
    lambda asked, right: 6 if right == 5 and re.fullmatch(rb"[1-9][0-9]{3}", asked.fields[1]) else right,
)
refuses_h(
    "present-scanner-is-6",
    "the scanner that lines come from is 6",
    lambda asked, right: 6 if right is None and int(asked.fields[1]) == asked.state.kept.scanner else right,
)
refuses_h(
    "scanner-with-lines-is-6",
    "a scanner that has sent lines is 6",
    lambda asked, right: 6 if right is None and sum(asked.state.kept.tallies[int(asked.fields[1])]) else right,
)
refuses_h(
    "h-before-any-plot-is-16",
    "H is 16 in the empty book",
    lambda asked, right: 16 if right is None and not asked.state.book.plots else right,
)
wrong(
    "more-fields-pass",
    "fields too many are passed over",
    is_3=lambda self, asked: not self.is_2(asked) and len(asked.fields) <= len(self.fields_of[asked.fields[0]]),
)
wrong(
    "fewer-fields-are-blank",
    "a class that isn't there is blank",
    is_3=lambda self, asked: Model.is_3(self, asked) and not (asked.fields[0] == b"L" and len(asked.fields) == 2),
)
for letter, kinds in Model.fields_of.items():
    for at, kind in enumerate(kinds, 1):
        what = f"{kind.name} of {letter.decode()}".replace(" ", "-")
        if kind.is_number():
            of_field(f"{what}-in-8-bits", "a number past 255 is cut to 8 bits there", letter, at, in_8_bits)
            of_field(f"{what}-with-zeros", "leading zeros are passed over there", letter, at, without_zeros)
        else:
            of_field(f"{what}-in-small-letters", "small letters are capitals there", letter, at, bytes.upper)
            of_field(f"{what}-cut", "bytes past the limit are cut off there", letter, at, lambda text: text[:MOST])
            of_field(f"{what}-cut-to-8-bytes", "bytes past the eighth are cut off there", letter, at, lambda text: text[:8])
            for most, limit in ((8, "8, as before"), (MOST - 1, "one less"), (MOST + 1, "one more")):
                ids_of_field(f"{what}-of-{most}-bytes", f"the limit of bytes there is {limit}", letter, kind.name, most)
ids_are("small-letters-in-ids", "an id may have small letters", lambda self, id: Model.is_id(self, id.upper()))
ids_are("ids-of-8-bytes", "an id of nine bytes is 4, as before", lambda self, id: Model.is_id(self, id) and len(id) <= 8)
ids_are("ids-of-10-bytes", "an id at the limit is 4", lambda self, id: Model.is_id(self, id) and len(id) < MOST)
ids_are("ids-of-12-bytes", "an id of one byte more passes 4", lambda self, id: 1 <= len(id) <= MOST + 1 and id_bytes(id))
ids_are("ids-of-any-bytes", "an id is any bytes up to the limit", lambda self, id: 1 <= len(id) <= MOST)
ids_are("ids-by-eight-bytes", "what the bytes past the eighth are isn't looked at", lambda self, id: id != b"" and len(id) <= MOST and id_bytes(id[:8]))
ids_are(
    "ids-without-digits",
    "an id has no digits",
    lambda self, id: Model.is_id(self, id) and not any(b in DIGITS for b in id),
)
ids_are(
    "ids-begin-with-a-letter",
    "an id begins with a letter",
    lambda self, id: Model.is_id(self, id) and id[0] not in DIGITS,
)
ids_are("blank-ids", "a blank id passes 4", lambda self, id: id == b"" or Model.is_id(self, id))
wrong("leading-zeros", "007 is 7", is_number=lambda self, field: 1 <= len(field) <= 3 and all(b in DIGITS for b in field))
wrong("no-number-0", "0 is malformed", is_number=lambda self, field: Model.is_number(self, field) and field != b"0")
wrong("half-a-link-passes", "exactly one of parent and table may be blank", is_7=lambda self, asked: False)
wrong(
    "7-not-for-a-blank-parent",
    "a blank parent beside a table passes 7",
    is_7=lambda self, asked: Model.is_7(self, asked) and asked.fields[2] != b"",
)
wrong(
    "7-not-for-a-blank-table",
    "a blank table beside a parent passes 7",
    is_7=lambda self, asked: Model.is_7(self, asked) and asked.fields[2] == b"",
)

# What lines do to the book.


def put(name, words, change):
    """P puts another plot."""
    wrong(name, words, new_plot=lambda self, book, *fields: change(book, Model.new_plot(self, book, *fields)))


def sees(name, words, change):
    """S makes another plot of the one that it names."""
    wrong(name, words, sighted=lambda self, plot, mask: change(plot, mask))


def labels(name, words, change):
    """The same of L."""
    wrong(name, words, labelled=lambda self, plot, c: change(plot, c))


wrong("13-never", "a plot may come twice", is_13=lambda self, asked: False)
wrong(
    "13-not-for-late-plots",
    "an id is looked for among 126 plots",
    is_13=lambda self, asked: Model.is_13(self, asked) and self.plot(asked) < 126,
)
wrong(
    "13-among-64-plots",
    "an id that is to be new is looked for among the first 64",
    is_13=lambda self, asked: Model.is_13(self, asked) and self.plot(asked) < 64,
)
wrong(
    "14-not-for-the-first",
    "the first plot may name a parent",
    is_14=lambda self, asked: bool(asked.state.book.plots) and Model.is_14(self, asked),
)
wrong(
    "14-not-for-none",
    "a later plot may name no parent",
    is_14=lambda self, asked: self.value(asked, "parent") is not None and Model.is_14(self, asked),
)
wrong(
    "14-not-for-itself",
    "a plot may name itself as parent",
    is_14=lambda self, asked: Model.is_14(self, asked) and self.value(asked, "parent") != self.value(asked, "id"),
)
wrong(
    "15-one-late",
    "the table behind the last stands",
    is_15=lambda self, asked: (self.value(asked, "table") or 0) > len(asked.state.book.tables),
)
wrong("17-one-late", "class k is one of the plot's", lacks=lambda self, plot, c: c > plot.k)
wrong("17-for-the-last-class", "the last class is none of the plot's", lacks=lambda self, plot, c: c >= plot.k - 1)
wrong("17-never", "a class that the plot lacks is taken", lacks=lambda self, plot, c: False)
wrong(
    "17-for-a-class-not-sighted",
    "a class outside the sighting is one that the plot lacks",
    lacks=lambda self, plot, c: not self.is_sighted(plot, c),
)
wrong(
    "17-not-beside-others",
    "a mask is 17 only if all its classes are",
    is_17=lambda self, asked: Model.is_17(self, asked)
    and (self.value(asked, "mask") or 0) % 2 ** asked.state.book.plots[self.plot(asked)].k == 0,
)
sees(
    "sightings-add-up",
    "a sighting keeps only classes of the one before",
    lambda plot, mask: plot._replace(sighting=plot.sighting & mask or mask),
)
sees(
    "sighting-takes-the-label-off",
    "S takes the plot's label off",
    lambda plot, mask: plot._replace(sighting=mask, label=None),
)
sees("sighting-not-taken", "S is accepted and changes nothing", lambda plot, mask: plot)
labels("label-not-taken", "L is accepted and changes nothing", lambda plot, c: plot)
labels(
    "label-stays",
    "a label is never replaced by another",
    lambda plot, c: plot if None not in (plot.label, c) else plot._replace(label=c),
)
labels("label-stays-on", "a blank class leaves the label on", lambda plot, c: plot if c is None else plot._replace(label=c))
labels("blank-class-is-0", "a blank class is class 0", lambda plot, c: plot._replace(label=c or 0))
labels(
    "label-narrows",
    "a label is a sighting too",
    lambda plot, c: plot._replace(label=c, sighting=plot.sighting if c is None else 2**c),
)
put("new-plot-labelled", "a new plot is labelled 0", lambda book, plot: plot._replace(label=0))
put("new-plot-sighted-in-class-0", "a new plot's sighting is class 0", lambda book, plot: plot._replace(sighting=1))
put(
    "new-plot-below-the-first",
    "every plot hangs below the first",
    lambda book, plot: plot._replace(parent=0 if book.plots else None),
)
put(
    "new-plot-below-the-last",
    "every plot hangs below the one before",
    lambda book, plot: plot._replace(parent=len(book.plots) - 1 if book.plots else None),
)
put(
    "new-plot-by-the-first-table",
    "every plot hangs by the first table",
    lambda book, plot: plot._replace(table=0 if book.plots else None),
)
put(
    "new-plot-without-its-last-class",
    "a new plot lacks its last class",
    lambda book, plot: plot._replace(sighting=plot.sighting // 2 or 1),
)


@wrong_class
class table_in_front(Model):
    """a new table stands before the others"""

    def accept_T(self, book, asked):
        right = super().accept_T(book, asked)[0]
        return Book(right.tables[-1:] + right.tables[:-1], book.plots), b""


@wrong_class
class table_backwards(Model):
    """rows are read from the last to the first"""

    def accept_T(self, book, asked):
        rows = super().accept_T(book, asked)[0].tables[-1]
        return book.with_table(rows[::-1]), b""


@wrong_class
class r_applies_its_list(Model):
    """R changes the labels that it lists"""

    def accept_R(self, book, asked):
        after, text = super().accept_R(book, asked)
        for i, c in self.relabel_list(book, self.cheapest(book)):
            after = after.changed(i, after.plots[i]._replace(label=c))
        return after, text


@wrong_class
class parent_by_its_first_bytes(Model):
    """a parent is found by the first bytes of its id"""

    def plot(self, asked, name="id"):
        found, id = super().plot(asked, name), self.value(asked, name)
        if found is not None or name != "parent" or id is None:
            return found
        return next((i for i, plot in enumerate(asked.state.book.plots) if plot.id.startswith(id)), None)


class ChangesWhatItRefuses(Model):
    """A line that is refused with a number changes the book all the same."""

    def step(self, state, line, buffer):
        after, answer = super().step(state, line, buffer)
        if answer != Answer(False, self.number):
            return after, answer
        return after._replace(book=self.changed(state.book, line.split(b","))), answer


@wrong_class
class refused_t_is_stored(ChangesWhatItRefuses):
    """a T line refused with 6 is stored, its rows cut to 8 bits"""

    number = 6

    def changed(self, book, fields):
        return book.with_table([int(row) % 256 for row in fields[1:]]) if fields[0] == b"T" and len(book.tables) < 16 else book


@wrong_class
class refused_p_takes_the_label_off(ChangesWhatItRefuses):
    """a P line refused with 13 takes the label of the plot that stands off"""

    number = 13

    def changed(self, book, fields):
        i = book.position(fields[1])
        return book.changed(i, book.plots[i]._replace(label=None))


@wrong_class
class refused_l_is_stored(ChangesWhatItRefuses):
    """an L line refused with 17 takes the label off"""

    number = 17

    def changed(self, book, fields):
        i = book.position(fields[1])
        return book.changed(i, book.plots[i]._replace(label=None)) if fields[0] == b"L" else book


@wrong_class
class refused_s_is_stored(ChangesWhatItRefuses):
    """an S line refused with 17 is stored, cut to the plot's classes"""

    number = 17

    def changed(self, book, fields):
        i = book.position(fields[1])
        cut = int(fields[2] or b"0") % 2 ** book.plots[i].k or 1
        return book.changed(i, book.plots[i]._replace(sighting=cut)) if fields[0] == b"S" else book


# Tallies.


def uncounted(name, words, test):
    """Some accepted lines aren't counted."""

    def step(self, state, line, buffer):
        after, answer = Model.step(self, state, line, buffer)
        uncounted = after._replace(kept=after.kept._replace(tallies=state.kept.tallies))
        return uncounted if answer.wrote and test(line, state, after) else after, answer

    wrong(name, words, step=step)


wrong("refused-not-tallied", "refused lines aren't counted", declined=lambda self, state, number: state)
wrong(
    "refused-tallied-as-accepted",
    "refused lines count as accepted",
    declined=lambda self, state, number: state if number in self.not_taken else self.counted(state, Tally(accepted=1)),
)
wrong("10-taken", "a line declined with 10 is counted", not_taken=(9, 19))
wrong("9-taken", "a line declined with 9 is counted", not_taken=(10, 19))
wrong("19-taken", "a line declined with 19 is counted", not_taken=(10, 9))
for number in (1, 2, 3, 4, 5, 6, 7, 11, 12, 13, 14, 15, 16, 17, 18):
    wrong(f"{number}-not-taken", f"a line declined with {number} isn't counted", not_taken=(10, 9, 19, number))
for letter in b"TPSLRCH":
    uncounted(
        f"{letter:c}-not-counted",
        f"an accepted {letter:c} isn't counted",
        lambda line, s, t, letter=letter: line[0] == letter,
    )
uncounted(
    "unchanged-not-counted",
    "an S or L line that leaves the book as it was isn't counted",
    lambda line, state, after: line[:1] in (b"S", b"L") and after.book == state.book,
)

# Scanners (U5): which of them a line is counted for.

SIXTEEN = range(16)
NUMBERS = (1, 2, 3, 4, 5, 6, 7, 11, 12, 13, 14, 15, 16, 17, 18)


def n_line(*numbers):
    return b",".join([b"N"] + [b"%d" % n for n in numbers]) + b"\n"


def scanner_named(line):
    """A scanner that an H line says in some way, though it may be refused: the digits in its second field, cut to 4 bits."""
    field = (line + b",").split(b",")[1]
    return int(bytes(b for b in field[:40] if b in DIGITS) or b"0") % 16


class Taken(NamedTuple):
    """A line that was taken: what was kept before it, and what the right engine keeps after it."""

    line: bytes
    number: Optional[int]  # of its refusal, None if it was accepted
    before: Kept
    after: Kept

    def is_h(self):
        return self.line[:2] == b"H,"

    def is_accepted(self, letter):
        return self.number is None and self.line[:1] == letter

    def tally(self):
        return Tally(accepted=1) if self.number is None else Tally(refused=1)


def then_keeps(name, words, kept):
    """Something else is kept after a line that is taken."""

    def step(self, state, line, buffer):
        after, answer = Model.step(self, state, line, buffer)
        number = None if answer.wrote else answer.number
        is_taken = number not in self.not_taken
        return after._replace(kept=kept(Taken(line, number, state.kept, after.kept))) if is_taken else after, answer

    wrong(name, words, step=step)


def counted_for(name, words, scanners):
    """A line is counted for other scanners, once for each time that they are given."""

    def kept(taken):
        kept = taken.after._replace(tallies=taken.before.tallies)
        for n in scanners(taken):
            kept = kept.with_tally(n, taken.tally().and_)
        return kept

    then_keeps(name, words, kept)


def right_scanner(taken):
    return taken.after.scanner


def counted_if(name, words, test, scanner):
    """A line is counted for another scanner if a test of it says so."""
    counted_for(name, words, lambda taken: [scanner(taken) if test(taken) else right_scanner(taken)])


def scanner_0(taken):
    return 0


counted_if(
    "h-counted-for-the-scanner-before",
    "an accepted H counts for the scanner before it",
    Taken.is_h,
    lambda taken: taken.before.scanner,
)
counted_if("all-counted-for-scanner-0", "every line counts for scanner 0", lambda taken: True, scanner_0)
counted_if("accepted-counted-for-scanner-0", "accepted lines count for scanner 0", lambda taken: taken.number is None, scanner_0)
counted_if("refused-counted-for-scanner-0", "refused lines count for scanner 0", lambda taken: taken.number is not None, scanner_0)
counted_if("all-counted-for-scanner-15", "every line counts for the last scanner", lambda taken: True, lambda taken: 15)
counted_if(
    "all-counted-in-3-bits",
    "the scanner has three bits where a line is counted",
    lambda taken: True,
    lambda taken: right_scanner(taken) % 8,
)
counted_if(
    "scanner-15-counted-for-14",
    "the last scanner has no tally of its own",
    lambda taken: True,
    lambda taken: min(14, right_scanner(taken)),
)
counted_if("scanner-15-counted-for-0", "scanner 15 has scanner 0's tally", lambda taken: True, lambda taken: right_scanner(taken) % 15)
counted_if(
    "counted-for-the-next",
    "a line counts for the scanner behind its own",
    lambda taken: True,
    lambda taken: (right_scanner(taken) + 1) % 16,
)
for number in NUMBERS:
    words = f"a line refused with {number} counts for scanner 0"
    counted_if(f"{number}-counted-for-scanner-0", words, lambda taken, number=number: taken.number == number, scanner_0)
for letter in Model.fields_of:
    words = f"an accepted {letter.decode()} counts for scanner 0"
    counted_if(f"{letter.decode()}-counted-for-scanner-0", words, lambda taken, letter=letter: taken.is_accepted(letter), scanner_0)
for number in (1, 3, 5, 6):
    words = f"an H line refused with {number} counts for the scanner that it names"
    test = lambda taken, number=number: taken.is_h() and taken.number == number
    counted_if(f"h-with-{number}-counted-for-its-own", words, test, lambda taken: scanner_named(taken.line))
counted_if(
    "refused-h-counted-for-scanner-0",
    "a refused H counts for scanner 0",
    lambda taken: taken.is_h() and taken.number is not None,
    scanner_0,
)
counted_for("counted-for-scanner-0-too", "a line counts for scanner 0 too", lambda taken: {0, right_scanner(taken)})
counted_for(
    "counted-for-the-next-too",
    "a line counts for the next scanner too",
    lambda taken: {right_scanner(taken), (right_scanner(taken) + 1) % 16},
)
counted_for("counted-for-all", "a line counts for every scanner", lambda taken: SIXTEEN)
counted_for(
    "counted-for-all-with-lines",
    "a line counts for every scanner that has sent lines",
    lambda taken: {right_scanner(taken)} | {n for n in SIXTEEN if sum(taken.before.tallies[n])},
)
counted_for(
    "h-counted-for-both",
    "an accepted H counts for the scanner before it too",
    lambda taken: {taken.before.scanner, right_scanner(taken)},
)
counted_for("h-counted-twice", "an accepted H counts twice", lambda taken: [right_scanner(taken)] * (2 if taken.is_accepted(b"H") else 1))
counted_for(
    "refused-h-counted-for-both",
    "a refused H counts for the scanner that it names too",
    lambda taken: {right_scanner(taken), scanner_named(taken.line) if taken.is_h() else right_scanner(taken)},
)
counted_for(
    "h-of-the-present-scanner-not-counted",
    "H isn't counted if it names the scanner that lines come from",
    lambda taken: [right_scanner(taken)] * (not taken.is_accepted(b"H") or taken.before.scanner != right_scanner(taken)),
)
counted_for(
    "refused-h-not-counted",
    "a refused H isn't counted",
    lambda taken: [right_scanner(taken)] * (not taken.is_h() or taken.number is None),
)
for bits in (8, 16):
    then_keeps(
        f"tallies-of-{bits}-bits",
        f"a tally has {bits} bits for each number",
        lambda taken, bits=bits: taken.after.with_tally(right_scanner(taken), lambda tally: Tally(*(n % 2**bits for n in tally))),
    )

# Which scanner lines come from, and what else an H line does.


def scanner_after(name, words, scanner):
    """Lines come from another scanner after one that is taken."""
    then_keeps(name, words, lambda taken: taken.after._replace(scanner=scanner(taken)))


def comes_from(name, words, scanner):
    """The same after an accepted H, counted for that scanner: by the one before and the one named."""
    wrong(name, words, accept_H=lambda self, kept, asked: kept._replace(scanner=scanner(kept.scanner, self.value(asked, "scanner"))))


for number in (1, 3, 5, 6):
    scanner_after(
        f"h-with-{number}-taken-for-its-own",
        f"an H line refused with {number} changes the scanner",
        lambda taken, number=number: scanner_named(taken.line) if taken.is_h() and taken.number == number else right_scanner(taken),
    )
for letter in Model.fields_of:
    if letter != b"H":
        scanner_after(
            f"scanner-0-after-{letter.decode()}",
            f"lines come from scanner 0 again after an accepted {letter.decode()}",
            lambda taken, letter=letter: 0 if taken.is_accepted(letter) else right_scanner(taken),
        )
for number in NUMBERS:
    scanner_after(
        f"scanner-0-after-{number}",
        f"lines come from scanner 0 again after one refused with {number}",
        lambda taken, number=number: 0 if taken.number == number else right_scanner(taken),
    )
scanner_after(
    "scanner-0-after-a-refusal",
    "lines come from scanner 0 again after a refused one",
    lambda taken: 0 if taken.number else right_scanner(taken),
)
scanner_after("h-for-itself", "an accepted H holds for itself alone", lambda taken: taken.before.scanner)
comes_from("h-not-heard", "H is accepted and changes no scanner", lambda before, named: before)
comes_from("scanners-from-1", "H counts scanners from 1", lambda before, named: max(0, named - 1))
comes_from("scanner-only-rises", "H to a lower scanner changes nothing", max)
comes_from(
    "scanner-only-falls",
    "H to a higher scanner changes nothing, but from 0",
    lambda before, named: min(before, named) if before else named,
)
comes_from("scanner-added", "H counts on from the scanner before", lambda before, named: (before + named) % 16)
comes_from("scanner-by-its-last-digit", "of n only the last digit is heard", lambda before, named: named % 10)
comes_from("scanner-by-its-first-digit", "of n only the first digit is heard", lambda before, named: named // 10 or named)
comes_from("scanner-in-3-bits", "of n only three bits are heard", lambda before, named: named % 8)


def clears(name, words, test):
    """An accepted H begins the tallies of some scanners anew, by the scanner before it and its own."""

    def kept(taken):
        kept = taken.after
        for n in SIXTEEN:
            if taken.is_accepted(b"H") and test(n, taken.before.scanner, kept.scanner):
                kept = kept.with_tally(n, lambda _: taken.tally() if n == kept.scanner else Tally())
        return kept

    then_keeps(name, words, kept)


clears("h-clears-its-tally", "H begins the tally of its scanner anew", lambda n, before, own: n == own)
clears("h-clears-the-others", "H begins all tallies but that of its scanner anew", lambda n, before, own: n != own)
clears("h-clears-all", "H begins all tallies anew", lambda n, before, own: True)
clears(
    "h-clears-the-tally-before",
    "H begins the tally of the scanner before it anew, if that is another",
    lambda n, before, own: n == before != own,
)


@wrong_class
class h_takes_the_tally_along(Model):
    """lines before an H count for its scanner from then on"""

    def accept_H(self, kept, asked):
        after = super().accept_H(kept, asked)
        if after.scanner == kept.scanner:
            return after
        along = kept.tallies[kept.scanner]
        return after.with_tally(kept.scanner, lambda _: Tally()).with_tally(after.scanner, along.and_)


class HearsH(Model):
    """What an H line does goes by those before it in the run."""

    def start(self):
        self.heard, self.others = [], 0  # the scanners named so far, and how many other lines have come since the last
        return super().start()

    def step(self, state, line, buffer):
        kept = state.kept._replace(scanner=self.scanner_now(state.kept.scanner))
        after, answer = super().step(state._replace(kept=kept), line, buffer)
        if answer.wrote and line[:2] == b"H,":
            self.heard, self.others = self.heard + [int(line[2:])], 0
        else:
            self.others += 1
        return after, answer


@wrong_class
class first_h_holds(HearsH):
    """only the first H line of a run is heard"""

    def scanner_now(self, right):
        return self.heard[0] if self.heard else right


@wrong_class
class h_holds_for_a_line(HearsH):
    """an H line holds for itself and the next line"""

    def scanner_now(self, right):
        return 0 if self.heard and self.others == 1 else right


@wrong_class
class second_h_in_succession_not_heard(HearsH):
    """of H lines in succession the first holds"""

    def scanner_now(self, right):
        return right

    def accept_H(self, kept, asked):
        return kept if self.heard and self.others == 0 else super().accept_H(kept, asked)


@wrong_class
class scanner_of_the_run_before(Model):
    """a run begins with the scanner that the one before ended with"""

    last = 0

    def start(self):
        right = super().start()
        return right._replace(kept=right.kept._replace(scanner=self.last))

    def step(self, state, line, buffer):
        after, answer = super().step(state, line, buffer)
        self.last = after.kept.scanner
        return after, answer


@wrong_class
class tallies_of_the_run_before(Model):
    """a run goes on with the tallies of the one before"""

    tallies = None

    def start(self):
        right = super().start()
        return right._replace(kept=right.kept._replace(tallies=self.tallies or right.kept.tallies))

    def step(self, state, line, buffer):
        after, answer = super().step(state, line, buffer)
        self.tallies = after.kept.tallies
        return after, answer


for n in (1, 15):

    def start(self, n=n):
        right = Model.start(self)
        return right._replace(kept=right.kept._replace(scanner=n))

    wrong(f"scanner-{n}-at-first", f"before any H line it is scanner {n}", start=start)


@wrong_class
class a_book_for_each_scanner(Model):
    """each scanner has a book of its own"""

    def start(self):
        self.books = {}
        return super().start()

    def accept(self, asked):
        after, text = super().accept(asked)
        if asked.fields[0] != b"H" or after.kept.scanner == asked.state.kept.scanner:
            return after, text
        self.books[asked.state.kept.scanner] = asked.state.book
        return after._replace(book=self.books.get(after.kept.scanner, Book())), text


class UntakenH(Model):
    """An H line that is declined with a number changes the scanner all the same."""

    def declined(self, state, number):
        return self.meant if number == self.number else super().declined(state, number)

    def step(self, state, line, buffer):
        self.meant = state
        if line[:2] == b"H,":
            self.meant = state._replace(kept=state.kept._replace(scanner=scanner_named(line)))
        return super().step(state, line, buffer)


for number in Model.not_taken:
    words = f"an H line declined with {number} changes the scanner"
    wrong_class(type(f"h-with-{number}-changes-the-scanner", (UntakenH,), {"__doc__": words, "number": number}))

# What an H line answers.


def answers_h(name, words, text):
    """An accepted H has a text, by what was kept before it and what is kept afterwards, itself not counted."""

    def accept(self, asked):
        after, right = Model.accept(self, asked)
        return after, text(self, asked.state.kept, after.kept) if asked.fields[0] == b"H" else right

    wrong(name, words, accept=accept)


answers_h("h-answered-with-itself", "H answers H and the scanner", lambda self, before, after: b"H,%d\n" % after.scanner)
answers_h(
    "h-answered-with-the-scanner-before",
    "H answers H and the scanner before",
    lambda self, before, after: b"H,%d\n" % before.scanner,
)
answers_h("h-answered-with-an-empty-line", "H answers an empty line", lambda self, before, after: b"\n")
answers_h(
    "h-answered-with-the-tally-before",
    "H answers with the N line of the scanner before",
    lambda self, before, after: n_line(before.scanner, *before.tallies[before.scanner]),
)
answers_h(
    "h-answered-with-its-tally",
    "H answers with the N line of its scanner",
    lambda self, before, after: n_line(after.scanner, *before.tallies[after.scanner]),
)
answers_h("h-answered-with-all-tallies", "H answers as the end does", lambda self, before, after: self.tally_text(before))

# The N lines.


def tells_at_the_end(name, words, text):
    """The end has another text, by what is kept and the right text."""
    wrong(name, words, tally_text=lambda self, kept: text(kept, Model.tally_text(self, kept)))


def lists_scanners(name, words, scanners):
    """Other scanners have an N line, or in another order, by what is kept and those that have one rightly."""

    def text(kept, right):
        with_lines = [n for n in SIXTEEN if sum(kept.tallies[n])]
        return b"".join(n_line(n, *kept.tallies[n]) for n in scanners(kept, with_lines))

    tells_at_the_end(name, words, text)


def those(test):
    """The scanners of which a test says so, by what is kept and the scanner."""
    return lambda kept, right: [n for n in right if test(kept, n)]


lists_scanners("all-scanners-listed", "each of the sixteen scanners has an N line", lambda kept, right: SIXTEEN)
lists_scanners("scanner-0-always-listed", "scanner 0 has an N line though it has no lines", lambda kept, right: sorted({0, *right}))
lists_scanners(
    "present-scanner-always-listed",
    "the present scanner has an N line without lines too",
    lambda kept, right: sorted({kept.scanner, *right}),
)
lists_scanners(
    "scanners-up-to-the-highest-listed",
    "scanners without lines below others have N lines",
    lambda kept, right: range(max(right, default=-1) + 1),
)
lists_scanners("highest-scanner-first", "the highest scanner comes first", lambda kept, right: right[::-1])
lists_scanners("scanners-by-their-digits", "10 comes before 2", lambda kept, right: sorted(right, key=lambda n: b"%d" % n))
lists_scanners(
    "most-lines-first",
    "the scanner with most lines comes first",
    lambda kept, right: sorted(right, key=lambda n: -sum(kept.tallies[n])),
)
lists_scanners(
    "most-refused-first",
    "the scanner with most refused lines comes first",
    lambda kept, right: sorted(right, key=lambda n: -kept.tallies[n].refused),
)
lists_scanners(
    "present-scanner-first",
    "the present scanner comes first",
    lambda kept, right: sorted(right, key=lambda n: n != kept.scanner),
)
lists_scanners("present-scanner-last", "the present scanner comes last", lambda kept, right: sorted(right, key=lambda n: n == kept.scanner))
lists_scanners(
    "from-the-present-scanner-round",
    "the N lines begin with the present scanner, and go round",
    lambda kept, right: sorted(right, key=lambda n: (n - kept.scanner) % 16),
)
lists_scanners("present-scanner-alone", "only the present scanner has an N line", those(lambda kept, n: n == kept.scanner))
lists_scanners("other-scanners-alone", "the present scanner has no N line", those(lambda kept, n: n != kept.scanner))
lists_scanners("scanners-up-to-the-present", "scanners past the present one have no N line", those(lambda kept, n: n <= kept.scanner))
lists_scanners(
    "scanners-with-accepted-lines",
    "a scanner without accepted lines has no N line",
    those(lambda kept, n: kept.tallies[n].accepted),
)
lists_scanners(
    "scanners-with-refused-lines",
    "a scanner without refused lines has no N line",
    those(lambda kept, n: kept.tallies[n].refused),
)
lists_scanners(
    "scanners-with-both",
    "a scanner without accepted or without refused lines has no N line",
    those(lambda kept, n: all(kept.tallies[n])),
)
lists_scanners("scanners-with-two-lines", "a scanner with one line has no N line", those(lambda kept, n: sum(kept.tallies[n]) > 1))
lists_scanners("scanners-of-one-digit", "scanners from 10 on have no N line", those(lambda kept, n: n < 10))
lists_scanners(
    "scanners-up-to-a-gap",
    "scanners past one without lines have no N line",
    those(lambda kept, n: all(map(sum, kept.tallies[:n]))),
)
lists_scanners("lowest-scanner-alone", "only the lowest scanner with lines has an N line", lambda kept, right: right[:1])
lists_scanners("highest-scanner-alone", "only the highest scanner with lines has an N line", lambda kept, right: right[-1:])
for scanner in SIXTEEN:
    words = f"scanner {scanner} has no N line"
    lists_scanners(f"scanner-{scanner}-not-listed", words, those(lambda kept, n, scanner=scanner: n != scanner))


class InTheOrderOfLines(Model):
    """The N lines go by the lines that were counted in the run."""

    def start(self):
        self.senders = []
        return super().start()

    def counted(self, state, line):
        self.senders = self.ordered(self.senders, state.kept.scanner)
        return super().counted(state, line)

    def tally_text(self, kept):
        unseen = [n for n in SIXTEEN if n not in self.senders]
        return b"".join(n_line(n, *kept.tallies[n]) for n in self.senders + unseen if sum(kept.tallies[n]))


@wrong_class
class first_to_send_first(InTheOrderOfLines):
    """the N lines come in the order in which the scanners sent their first line"""

    def ordered(self, senders, scanner):
        return senders if scanner in senders else senders + [scanner]


@wrong_class
class last_to_send_first(InTheOrderOfLines):
    """the N line of the scanner that sent the last line comes first"""

    def ordered(self, senders, scanner):
        return [scanner] + [n for n in senders if n != scanner]


@wrong_class
class last_to_send_last(InTheOrderOfLines):
    """the N line of the scanner that sent the last line comes last"""

    def ordered(self, senders, scanner):
        return [n for n in senders if n != scanner] + [scanner]


def tells_tallies(name, words, fields):
    """N tells something else of each scanner with lines."""

    def tally_text(self, kept):
        told = [(n, tally) for n, tally in enumerate(kept.tallies) if self.has_lines(tally)]
        return b"".join(n_line(*fields(n, *tally)) for n, tally in told)

    wrong(name, words, tally_text=tally_text)


tells_tallies("tally-swapped", "N tells the refused lines first", lambda n, accepted, refused: (n, refused, accepted))
tells_tallies("tally-of-all-lines", "N tells all lines for the accepted", lambda n, accepted, refused: (n, accepted + refused, refused))
tells_tallies(
    "tally-of-all-for-the-refused",
    "N tells all lines for the refused",
    lambda n, accepted, refused: (n, accepted, accepted + refused),
)
tells_tallies("tally-with-all-lines", "N tells all lines too", lambda n, accepted, refused: (n, accepted, refused, accepted + refused))
tells_tallies("scanner-from-1-told", "N counts scanners from 1", lambda n, accepted, refused: (n + 1, accepted, refused))
tells_tallies("scanner-told-last", "N tells the scanner last", lambda n, accepted, refused: (accepted, refused, n))
tells_tallies("scanner-not-told", "N doesn't tell the scanner", lambda n, accepted, refused: (accepted, refused))
tells_tallies(
    "scanner-told-by-its-last-digit",
    "N tells the last digit of the scanner",
    lambda n, accepted, refused: (n % 10, accepted, refused),
)
tells_tallies(
    "scanner-told-by-its-first-digit",
    "N tells the first digit of the scanner",
    lambda n, accepted, refused: (n // 10 or n, accepted, refused),
)
for limit, what in (2**8, "8 bits"), (2**16, "16 bits"), (10**3, "three digits"), (10**5, "five digits"):
    name, words = what.replace(" ", "-"), f"N tells {what} of a number of lines"
    tells_tallies(f"tally-told-in-{name}", words, lambda n, accepted, refused, limit=limit: (n, accepted % limit, refused % limit))
tells_at_the_end(
    "one-tally",
    "one N line tells the lines of all scanners, without a scanner, as before",
    lambda kept, right: right and n_line(*together(kept)),
)
tells_at_the_end(
    "one-tally-of-scanner-0",
    "one N line tells the lines of all scanners as scanner 0's",
    lambda kept, right: right and n_line(0, *together(kept)),
)
tells_at_the_end(
    "one-tally-of-the-present",
    "one N line tells all lines as the present scanner's",
    lambda kept, right: right and n_line(kept.scanner, *together(kept)),
)
tells_at_the_end(
    "all-tallies-too",
    "an N line of all scanners ends the N lines",
    lambda kept, right: right and right + n_line(*together(kept)),
)
tells_at_the_end(
    "all-tallies-first",
    "an N line of all scanners comes first",
    lambda kept, right: right and n_line(*together(kept)) + right,
)
tells_at_the_end(
    "all-tallies-too-of-several",
    "an N line of all ends the N lines of more than one scanner",
    lambda kept, right: right + n_line(*together(kept)) * (right.count(b"\n") > 1),
)
tells_at_the_end(
    "scanner-0-without-its-number",
    "where no other scanner has lines, the N line is as before",
    lambda kept, right: n_line(*kept.tallies[0]) if right and lines_but_of(kept, 0) == 0 else right,
)
tells_at_the_end(
    "n-line-without-lines",
    "where no line was taken, there is an N line of scanner 0",
    lambda kept, right: right or n_line(0, 0, 0),
)
tells_at_the_end(
    "n-line-of-before-without-lines",
    "where no line was taken, the N line is as before",
    lambda kept, right: right or n_line(0, 0),
)
tells_at_the_end(
    "n-line-of-the-present-without-lines",
    "where no line was taken, there is an N line of the present scanner",
    lambda kept, right: right or n_line(kept.scanner, 0, 0),
)
tells_at_the_end("n-alone-without-lines", "where no line was taken, there is an N alone", lambda kept, right: right or n_line())
tells_at_the_end("empty-line-without-lines", "where no line was taken, there is an empty line", lambda kept, right: right or b"\n")
tells_at_the_end(
    "scanner-of-two-digits-told",
    "N tells two digits of every scanner",
    lambda kept, right: re.sub(rb"N,(\d),", rb"N,0\1,", right),
)
tells_at_the_end("n-lines-in-one", "one N line tells all scanners", lambda kept, right: right.replace(b"\nN", b""))
tells_at_the_end("n-lines-not-parted", "only the last N line is ended", lambda kept, right: right[:-1].replace(b"\n", b"") + right[-1:])
tells_at_the_end("last-n-line-not-ended", "the last N line isn't ended", lambda kept, right: right[:-1])
tells_at_the_end(
    "scanner-told-too",
    "an H line tells the present scanner at the end",
    lambda kept, right: right and right + b"H,%d\n" % kept.scanner,
)
tells_at_the_end(
    "h-line-told-before-each",
    "an H line stands before each N line",
    lambda kept, right: re.sub(rb"N,(\d+)", rb"H,\1\nN,\1", right),
)


@wrong_class
class no_scanners(Model):
    """H is 2, and one N line tells the lines taken, as before U5"""

    fields_of = {letter: fields for letter, fields in Model.fields_of.items() if letter != b"H"}

    def tally_text(self, kept):
        return n_line(*together(kept))


@wrong_class
class h_is_2(Model):
    """H is 2, as before U5"""

    fields_of = no_scanners.fields_of


# What a book means: which classes may stand beside each other, counts and belief.


def beside(name, words, row_and_class):
    """A plot may have class c beside its parent's class by another row, or another class of it."""

    def is_beside(self, book, plot, c, above):
        row, c = row_and_class(book, plot, c, above)
        return self.has_class(row, c)

    wrong(name, words, is_beside=is_beside)


def counts_of_book(name, words, change):
    """The counts are those of another book."""
    wrong(name, words, counts=lambda self, book, position: Model.counts(self, change(book, position), position))


def believes(name, words, belief):
    wrong(name, words, believed=lambda self, counts: belief(counts, Model.believed(self, counts)))


def tells_counts(name, words, fields):
    def counts_text(self, id, counts, believed):
        belief = b"" if believed is None else b"%d" % believed
        return b",".join([b"C", id] + fields([b"%d" % n for n in counts], belief)) + b"\n"

    wrong(name, words, counts_text=counts_text)


beside(
    "row-of-the-child",
    "a row is chosen by the child's class",
    lambda book, plot, c, above: (book.tables[plot.table][c], above),
)
beside(
    "first-row-for-all",
    "the first row is used for every class",
    lambda book, plot, c, above: (book.tables[plot.table][0], c),
)
beside(
    "first-table-for-all",
    "the first table is used for every plot",
    lambda book, plot, c, above: (book.tables[0][above], c),
)
beside("tables-allow-all", "tables are passed over", lambda book, plot, c, above: (255, c))
beside(
    "table-of-the-parent",
    "a plot hangs by its parent's table, where that has one",
    lambda book, plot, c, above: (book.tables[plot.table if plot.parent == 0 else book.plots[plot.parent].table][above], c),
)
wrong("masks-from-the-top", "a mask's highest bit is class 0", has_class=lambda self, mask, c: mask // 2 ** (7 - c) % 2 == 1)
wrong(
    "label-and-below",
    "a class below its label agrees with it",
    agrees=lambda self, plot, c: plot.label is None or c <= plot.label,
)
counts_of_book("labels-don't-count", "counts pass over labels", lambda book, i: no_labels(book))
counts_of_book("sightings-don't-count", "counts pass over sightings", lambda book, i: all_sighted(book))
counts_of_book(
    "own-label-doesn't-count",
    "the counts of a plot pass over its own label",
    lambda book, i: book.changed(i, book.plots[i]._replace(label=None)),
)
counts_of_book(
    "own-sighting-doesn't-count",
    "the counts of a plot pass over its own sighting",
    lambda book, i: book.changed(i, book.plots[i]._replace(sighting=2 ** book.plots[i].k - 1)),
)
counts_of_book(
    "later-plots-don't-count",
    "counts pass over later plots",
    lambda book, i: Book(book.tables, book.plots[: i + 1]),
)
wrong(
    "counts-of-the-foundation",
    "every plot has the foundation's counts",
    counts=lambda self, book, position: (Model.counts(self, book, 0) + [0] * 8)[: book.plots[position].k],
)
wrong("held-at-2^32", "counts are held at 4,294,967,296", largest_count=2**32)
wrong("held-one-lower", "counts are held at 4,294,967,294", largest_count=2**32 - 2)
wrong("held-at-2^31-1", "counts are held at 2,147,483,647", largest_count=2**31 - 1)
wrong("numbers-in-64-bits", "numbers of solutions wrap at 2^64 before they are held", times=lambda self, n, m: n * m % 2**64)
wrong(
    "numbers-in-128-bits",
    "numbers of solutions wrap at 2^128 before they are held",
    times=lambda self, n, m: n * m % 2**128,
)
wrong(
    "sums-wrap",
    "what a child gives a class of its parent wraps at 2^32 before it is held",
    times=lambda self, n, m: self.held(n * (m % 2**32)),
)
wrong("not-held", "counts aren't held", held=lambda self, n: n)
wrong("counts-wrap", "counts wrap at 2^32", held=lambda self, n: n % 2**32)
wrong("counts-of-one", "a count says only whether there is a solution", held=lambda self, n: min(n, 1))
believes(
    "first-possible-believed",
    "the first class with a count is believed",
    lambda counts, right: next((c for c, n in enumerate(counts) if n), None),
)
believes(
    "largest-believed",
    "the class with the largest count is believed",
    lambda counts, right: counts.index(max(counts)) if counts.count(max(counts)) == 1 and any(counts) else right,
)
believes(
    "belief-by-a-sum-in-32-bits",
    "a class is believed if it has as many solutions as all, in 32 bits",
    lambda counts, right: next((c for c, n in enumerate(counts) if n and n == sum(counts) % 2**32), None),
)
believes("class-0-never-believed", "class 0 isn't believed", lambda counts, right: right or None)
believes(
    "single-class-never-believed",
    "a plot of one class has none believed",
    lambda counts, right: right if len(counts) > 1 else None,
)
believes(
    "one-solution-is-no-belief",
    "a class of one solution isn't believed",
    lambda counts, right: right if sum(counts) > 1 else None,
)
believes(
    "held-is-no-belief",
    "a held count isn't believed",
    lambda counts, right: right if max(counts) < 2**32 - 1 else None,
)
tells_counts("eight-counts", "C always has eight counts", lambda counts, belief: (counts + [b"0"] * 8)[:8] + [belief])
tells_counts(
    "no-blank-belief",
    "C has no field for nothing believed",
    lambda counts, belief: counts + ([belief] if belief else []),
)
tells_counts("belief-first", "C tells the belief before the counts", lambda counts, belief: [belief] + counts)
tells_counts("no-belief-told", "C has a blank for every belief", lambda counts, belief: counts + [b""])

# The relabel list.


def named_in(name, words, change):
    """The naming is that of another book."""
    wrong(name, words, cheapest=lambda self, book: Model.cheapest(self, change(book)))


def lists(name, words, change):
    """The list is another than the right one."""
    wrong(name, words, relabel_list=lambda self, book, naming: change(Model.relabel_list(self, book, naming), book, naming))


def refuses_r(name, words, test):
    """R is 18 where a test of the book and its least price, None if none fits, says so."""

    def is_18(self, asked):
        book, naming = asked.state.book, self.cheapest(asked.state.book)
        return test(book, None if naming is None else self.price(book, naming))

    wrong(name, words, is_18=is_18)


wrong("last-of-the-cheapest", "the order is turned round", place=lambda self, plot, c: 15 - Model.place(self, plot, c))
wrong("lower-class-first", "the lower class comes first even against the label, as in 01", place=lambda self, plot, c: c)
wrong(
    "higher-classes-behind-the-label",
    "but for the label, the higher class comes first",
    place=lambda self, plot, c: 0 if c == plot.label else 8 - c,
)
wrong("label-last", "the label comes last", place=lambda self, plot, c: 15 if c == plot.label else c)
wrong(
    "class-behind-the-label-first",
    "the class after the label's comes first, as the label's number is kept one higher",
    place=lambda self, plot, c: 0 if plot.label is not None and c == plot.label + 1 else 1 + c,
)
wrong(
    "label-first-at-the-foundation-alone",
    "only the foundation's label comes first",
    place=lambda self, plot, c: 0 if c == plot.label and plot.parent is None else 1 + c,
)
wrong(
    "label-first-but-at-the-foundation",
    "the foundation's label doesn't come first",
    place=lambda self, plot, c: 0 if c == plot.label and plot.parent is not None else 1 + c,
)


def free_of_charge(name, words, test):
    """Some labels cost nothing where the naming is chosen. They come first all the same, and are listed."""

    def cheapest(self, book):
        free = {plot.id for i, plot in enumerate(book.plots) if test(book, i)}
        charge = lambda self, plot, c: 0 if plot.id in free else Model.charge(self, plot, c)
        return type(name, (Model,), {"charge": charge})().cheapest(Book(book.tables, book.plots))

    wrong(name, words, cheapest=cheapest)


free_of_charge(
    "label-first-at-any-price", "the first fitting naming in order is taken, whatever it costs", lambda book, i: True
)
free_of_charge(
    "inner-plots-cost-nothing",
    "a labelled plot with children adds nothing, as equation (5) reads",
    lambda book, i: book.children()[i],
)
free_of_charge(
    "foundation-costs-nothing", "the foundation's label adds nothing", lambda book, i: book.plots[i].parent is None
)


class OtherwiseCompared(Model):
    """Of equally cheap namings another is taken, where they can be listed."""

    def cheapest(self, book):
        if not self.few(book):
            return super().cheapest(book)
        fitting = [naming for naming in self.namings(book) if self.fits(book, naming)]
        return min(fitting, key=lambda naming: (self.price(book, naming), self.compared(book, naming)), default=None)

    def compared(self, book, naming):
        """What the naming is compared by."""
        return list(map(self.place, book.plots, naming))


@wrong_class
class newest_plot_first(OtherwiseCompared):
    """namings are compared from the newest plot on, where they can be listed"""

    def compared(self, book, naming):
        return super().compared(book, naming)[::-1]


@wrong_class
class parents_label_first(OtherwiseCompared):
    """the label of the parent comes first, where namings can be listed"""

    def compared(self, book, naming):
        labels = [None if plot.parent is None else book.plots[plot.parent].label for plot in book.plots]
        return [0 if c == label else 1 + c for label, c in zip(labels, naming)]


@wrong_class
class foundations_label_first(OtherwiseCompared):
    """the foundation's label comes first at every plot, where namings can be listed"""

    def compared(self, book, naming):
        return [0 if c == book.plots[0].label else 1 + c for c in naming]


@wrong_class
class labels_before_classes(OtherwiseCompared):
    """which labels are kept is compared first, plot by plot, and the classes only then, where namings can be listed"""

    def compared(self, book, naming):
        changed = [self.charge(plot, c) for plot, c in zip(book.plots, naming)]
        return changed, super().compared(book, naming)


@wrong_class
class fewest_changes_near_the_foundation(OtherwiseCompared):
    """changes are better the further they are from the foundation, where namings can be listed"""

    def compared(self, book, naming):
        far = [0] * len(naming)
        for i, plot in enumerate(book.plots):
            far[i] = 0 if plot.parent is None else 1 + far[plot.parent]
        changes = sorted(far[i] for i, c in self.relabel_list(book, naming))
        return [-n for n in changes], super().compared(book, naming)


wrong(
    "unlabelled-plots-cost",
    "a plot without a label costs, if it isn't class 0",
    charge=lambda self, plot, c: int(c != (plot.label or 0)),
)
wrong(
    "further-classes-cost-more",
    "a label costs as much as the new class is away from it",
    charge=lambda self, plot, c: 0 if plot.label is None else abs(plot.label - c),
)
named_in("labels-not-heard-by-r", "R passes over labels: the first fitting naming by lower classes is taken", no_labels)
named_in("sightings-don't-bind-r", "R may name a class outside the sighting", all_sighted)
named_in("tables-don't-bind-r", "R passes over tables", lambda book: Book([(255,) * 8] * len(book.tables), book.plots))
refuses_r("18-in-the-empty-book", "the empty book has no naming", lambda book, price: price is None or not book.plots)
refuses_r("18-for-0", "R is 18 where nothing is to change", lambda book, price: not price)
refuses_r("18-for-many", "R is 18 where more than two labels are to change", lambda book, price: price is None or price > 2)


@wrong_class
class none_fits_is_0(Model):
    """where none fits, R gives 0"""

    def is_18(self, asked):
        return False

    def accept_R(self, book, asked):
        return (book, b"R,0\n") if self.cheapest(book) is None else super().accept_R(book, asked)


lists(
    "list-with-unlabelled-plots",
    "plots without a label are listed too",
    lambda right, book, naming: [(i, c) for i, c in enumerate(naming) if c != book.plots[i].label],
)
lists(
    "list-with-old-labels",
    "the list tells the labels that plots have",
    lambda right, book, naming: [(i, book.plots[i].label) for i, c in right],
)
lists("list-backwards", "the list goes from the newest plot on", lambda right, book, naming: right[::-1])
lists(
    "list-by-ids",
    "the list goes by ids",
    lambda right, book, naming: sorted(right, key=lambda change: book.plots[change[0]].id),
)
lists(
    "list-without-lower-classes",
    "a change to a lower class isn't listed",
    lambda right, book, naming: [(i, c) for i, c in right if c > book.plots[i].label],
)
lists("list-without-its-last", "the last change isn't listed", lambda right, book, naming: right[:-1])
lists("no-list", "R gives the number alone", lambda right, book, naming: [])


@wrong_class
class list_takes_labels_off(Model):
    """changes are told as blanks"""

    def relabel_text(self, book, number, changes):
        return b"R,%d\n" % number + b"".join(b"L,%s,\n" % book.plots[i].id for i, c in changes)


wrong(
    "number-one-more",
    "R's number is one too large",
    relabel_text=lambda self, book, number, changes: Model.relabel_text(self, book, number + 1, changes),
)


@wrong_class
class zeros_lost(Model):
    """R's number is written without its zeros, where it has other digits"""

    def relabel_text(self, book, number, changes):
        return super().relabel_text(book, int(str(number).replace("0", "") or 0), changes)


# Full books: what some plots say isn't heard.


def opened(book, test):
    """The book with all classes and no label for some plots."""
    return each_plot(book, lambda i, plot: plot._replace(sighting=2**plot.k - 1, label=None) if test(book, i) else plot)


def depth(book, i):
    return 0 if book.plots[i].parent is None else 1 + depth(book, book.plots[i].parent)


def among_children(book, i):
    """How many older children a plot's parent has."""
    parent = book.plots[i].parent
    return 0 if parent is None else book.children()[parent].index(i)


for what, place, limits in (
    ("plots-from", lambda book, i: i, (64, 100, 126, 127)),
    ("depths-from", depth, (64, 100, 126, 127)),
    ("children-from", among_children, (32, 64, 100, 126)),
):
    for n in limits:
        far = lambda book, i, place=place, n=n: place(book, i) >= n
        words = f"what {what.replace('-', ' ')} {n} on say isn't heard"
        counts_of_book(f"counts-without-{what}-{n}", words + " by C", lambda book, i, far=far: opened(book, far))
        named_in(f"r-without-{what}-{n}", words + " by R", lambda book, far=far: opened(book, far))


def prices_held(n):
    def least(self, book, i):
        digits = 16 ** len(book.plots)
        row = Model.least(self, book, i)
        return [None if w is None else min(w // digits, n) * digits + w % digits for w in row]

    return least


for n in (15, 63, 100, 126, 127):
    wrong(f"prices-held-at-{n}", f"the price of a branch is held at {n}", least=prices_held(n))

# The buffer, and the calls beside the lines.


def then_writes(name, words, test, at, byte=0):
    """A line, and then a byte of the buffer that isn't the answer's."""

    def step(self, state, line, buffer):
        after, answer = Model.step(self, state, line, buffer)
        if test(answer) and at(answer) < len(buffer):
            buffer[at(answer)] = byte
        return after, answer

    wrong(name, words, step=step)


def ends(name, words, end):
    wrong(name, words, end=end)


def asked_for_counts(name, words, counts_of):
    wrong(name, words, counts_of=counts_of)


then_writes(
    "text-ends-in-a-zero",
    "a byte 0 is written behind the answer",
    lambda answer: answer.wrote,
    lambda answer: answer.number,
)
then_writes("last-byte-altered", "byte 4,096 of the buffer is altered", lambda answer: answer.wrote, lambda answer: 4095)
then_writes(
    "refusal-in-the-buffer",
    "a refusal is written into the buffer",
    lambda answer: not answer.wrote,
    lambda answer: 0,
)
then_writes(
    "10-in-the-buffer",
    "10 is written into the buffer",
    lambda answer: answer == Answer(False, 10),
    lambda answer: 0,
)


@wrong_class
class length_one_less(Model):
    """the length doesn't count the last byte 10"""

    def step(self, state, line, buffer):
        after, answer = super().step(state, line, buffer)
        return after, Answer(True, max(0, answer.number - 1)) if answer.wrote else answer


@wrong_class
class end_without_10(Model):
    """the end answers also with a short buffer"""

    def end(self, state, buffer):
        answer = super().end(state, buffer)
        return Answer(True, len(self.tally_text(state.kept))) if answer == Answer(False, 10) else answer


@wrong_class
class end_without_9(Model):
    """the end tells the tallies of a broken state"""

    def end(self, state, buffer):
        answer = super().end(state, buffer)
        return Answer(True, len(self.tally_text(state.kept))) if answer == Answer(False, 9) else answer


ends(
    "end-9-before-10",
    "the end gives 9 before 10",
    lambda self, state, buffer: Model.end(self, state, buffer) if self.is_sound(state) else Answer(False, 9),
)

ends(
    "end-room-of-4095",
    "the end answers with a buffer of 4,095 bytes",
    lambda self, state, buffer: Model.end(self, state, bytearray(4096) if len(buffer) == 4095 else buffer),
)
ends(
    "end-room-of-4097",
    "a buffer of 4,096 bytes is too short for the end",
    lambda self, state, buffer: Answer(False, 10) if len(buffer) == 4096 else Model.end(self, state, buffer),
)
ends(
    "end-10-by-its-text",
    "the end is 10 only where its text is longer than the buffer",
    lambda self, state, buffer: Model.end(self, state, bytearray(4096) if len(self.tally_text(state.kept)) <= len(buffer) else buffer),
)
ends(
    "end-10-not-without-lines",
    "the end isn't 10 where no line was taken, as it has no text",
    lambda self, state, buffer: Model.end(self, state, buffer if self.lines_taken(state.kept) else bytearray(4096)),
)
ends(
    "end-9-not-without-lines",
    "the end isn't 9 where no line was taken",
    lambda self, state, buffer: Model.end(self, state if self.lines_taken(state.kept) else self.start(), buffer),
)


def ends_in(name, words, change):
    """The end returns another length, or alters another byte, where it has a text or is to have none."""

    def end(self, state, buffer):
        answer = Model.end(self, state, buffer)
        return change(answer, buffer) if answer.wrote else answer

    wrong(name, words, end=end)


def zero_behind(answer, buffer):
    buffer[answer.number] = 0
    return answer


def last_byte_zero(answer, buffer):
    buffer[-1] = 0
    return answer


ends_in("end-length-one-less", "the length doesn't count the last byte 10", lambda answer, buffer: Answer(True, max(0, answer.number - 1)))
ends_in(
    "end-length-in-lines",
    "the number returned is that of the lines",
    lambda answer, buffer: Answer(True, bytes(buffer[: answer.number]).count(b"\n")),
)
ends_in(
    "end-length-of-the-first",
    "the length is that of the first line",
    lambda answer, buffer: Answer(True, bytes(buffer[: answer.number]).find(b"\n") + 1),
)
ends_in("end-length-in-8-bits", "the length has 8 bits", lambda answer, buffer: Answer(True, answer.number % 256))
ends_in("end-of-256-bytes", "bytes of the N lines past 256 are left out", lambda answer, buffer: Answer(True, min(256, answer.number)))
ends_in("end-in-a-zero", "a byte 0 is written behind the N lines", zero_behind)
ends_in("end-alters-the-last-byte", "the last byte lent is altered by the end", last_byte_zero)


@wrong_class
class end_with_19(Model):
    """the end is 19 after a million lines"""

    def end(self, state, buffer):
        answer = super().end(state, buffer)
        over = self.lines_taken(state.kept) == self.most_lines
        return Answer(False, 19) if over and answer.wrote else answer


asked_for_counts(
    "counts-without-9",
    "counts are given where tallies break the rules",
    lambda self, state, id: Model.counts_of(self, unused(self, state), id),
)


@wrong_class
class counts_with_19(Model):
    """counts asked for after a million lines are 19"""

    def counts_of(self, state, id):
        answer = super().counts_of(state, id)
        over = self.lines_taken(state.kept) == self.most_lines
        return 19 if over and not isinstance(answer, int) else answer


asked_for_counts(
    "counts-with-4",
    "counts asked for a malformed id are 4",
    lambda self, state, id: 4 if self.is_sound(state) and not self.is_id(id) else Model.counts_of(self, state, id),
)
asked_for_counts(
    "counts-by-eight-bytes",
    "of an id that is asked for only eight bytes are looked at",
    lambda self, state, id: Model.counts_of(self, state, id[:8]),
)
asked_for_counts(
    "counts-by-the-limit",
    "of an id that is asked for only as many bytes are looked at as it may have",
    lambda self, state, id: Model.counts_of(self, state, id[:MOST]),
)
asked_for_counts(
    "counts-by-a-padded-id",
    "zeros behind an id that is asked for are passed over",
    lambda self, state, id: Model.counts_of(self, state, id.rstrip(b"\0")),
)

# The program.


def cuts(name, words, lines):
    """The input is cut into other lines."""
    wrong(name, words, lines=lambda self, data: lines(lambda other: Model.lines(self, other), data))


wrong("forty-bytes-passed", "40 bytes of a longer line are passed", passed_bytes=40)
cuts(
    "long-lines-folded",
    "the rest of a longer line is a line of its own",
    lambda right, data: right(re.sub(rb"([^\n]{41})(?=[^\n])", rb"\1\n", data)),
)
cuts(
    "last-line-lost",
    "a last line without byte 10 is passed over",
    lambda right, data: right(data[: data.rfind(b"\n") + 1]),
)
cuts(
    "blank-last-line-lost",
    "a last line of blanks without byte 10 is passed over",
    lambda right, data: right(data.rstrip(b" ")) if data.endswith(b"\n" + b" ") else right(data),
)
cuts(
    "byte-order-mark-at-the-start",
    "three bytes that some programs put first are passed over",
    lambda right, data: right(data[3:] if data[:3] == b"\xef\xbb\xbf" else data),
)
cuts("empty-last-line", "an empty last line counts", lambda right, data: right(data + b"\n"))
cuts("empty-lines-passed-over", "an empty line isn't one", lambda right, data: [line for line in right(data) if line])
cuts("byte-13-ends-a-line", "byte 13 ends a line too", lambda right, data: right(data.replace(b"\r", b"\n")))
cuts("byte-0-ends-the-input", "byte 0 ends the input", lambda right, data: right(data.split(b"\0")[0]))
wrong(
    "accepted-lines-told",
    "an accepted line without an answer prints an empty line",
    text=lambda self, answer, buffer: Model.text(self, answer, buffer) or b"\n",
)
wrong(
    "refusals-not-told",
    "a refused line prints nothing",
    text=lambda self, answer, buffer: Model.text(self, answer, buffer) if answer.wrote else b"",
)

# The text of a book: which lines it has, and in which order.


def writes_lines(name, words, **kinds):
    """The text has other lines of some kinds than the right ones."""

    def changed(kind, change):
        return lambda self, book: change(book, getattr(Model, kind)(self, book))

    wrong(name, words, **{f"{kind}_lines": changed(f"{kind}_lines", change) for kind, change in kinds.items()})


def writes_another(name, words, change):
    """The text is that of another book."""
    wrong(name, words, book_lines=lambda self, book: Model.book_lines(self, change(book)))


def writes_kinds(name, words, *kinds):
    """The kinds of lines come in another order."""
    wrong(name, words, book_lines=lambda self, book: sum((getattr(self, f"{kind}_lines")(book) for kind in kinds), []))


for kind, most in ("table", 16), ("plot", 128), ("sighting", 128), ("label", 128):
    for name, words, change in (
        (f"text-without-{kind}s", "no {} is written", lambda book, right: []),
        (f"text-without-its-first-{kind}", "the first {} isn't written", lambda book, right: right[1:]),
        (f"text-without-its-last-{kind}", "the last {} isn't written", lambda book, right: right[:-1]),
        (f"text-without-{kind}-{most}", f"no {{}} past {most - 1} is written", lambda book, right, n=most: right[: n - 1]),
        (f"{kind}s-newest-first", "the newest {} is written first", lambda book, right: right[::-1]),
        (f"{kind}s-by-their-bytes", "the lines for each {} go by their bytes", lambda book, right: sorted(right)),
        (f"{kind}s-written-twice", "the line of a {} is written twice", lambda book, right: sorted(right * 2, key=right.index)),
    ):
        writes_lines(name, words.format(kind), **{kind: change})
writes_kinds("labels-before-sightings", "L lines come before S lines", "table", "plot", "label", "sighting")
writes_kinds("plots-before-tables", "P lines come before T lines", "plot", "table", "sighting", "label")
writes_kinds("sightings-before-plots", "S lines come before P lines", "table", "sighting", "plot", "label")


def lines_of(model, book, plot, *kinds):
    """The lines of some kinds that a plot has."""
    lines = [line for kind in kinds for line in getattr(model, f"{kind}_lines")(book)]
    return [line for line in lines if line.split(b",")[1] == plot.id]


@wrong_class
class plot_by_plot(Model):
    """the S and the L line of a plot come right behind its P line"""

    def book_lines(self, book):
        of_plots = [lines_of(self, book, plot, "plot", "sighting", "label") for plot in book.plots]
        return sum(of_plots, self.table_lines(book))


@wrong_class
class sighting_and_label_plot_by_plot(Model):
    """the L line of a plot comes right behind its S line"""

    def book_lines(self, book):
        of_plots = [lines_of(self, book, plot, "sighting", "label") for plot in book.plots]
        return sum(of_plots, self.table_lines(book) + self.plot_lines(book))


@wrong_class
class table_before_its_first_plot(Model):
    """a table is written right before the first plot that needs it, and one that none needs at the end"""

    def book_lines(self, book):
        tables, lines = self.table_lines(book), []
        for plot, line in zip(book.plots, self.plot_lines(book)):
            due = 0 if plot.table is None else max(0, plot.table + 1 - sum(done.startswith(b"T") for done in lines))
            lines, tables = lines + tables[:due] + [line], tables[due:]
        return lines + tables + self.sighting_lines(book) + self.label_lines(book)


def sighted_where(name, words, test):
    """Plots have an S line by another test, of the plot and whether it is due."""
    wrong(name, words, is_all_sighted=lambda self, plot: not test(plot, not Model.is_all_sighted(self, plot)))


def labelled_where(name, words, test):
    """Some labelled plots have an L line."""
    wrong(name, words, is_labelled=lambda self, plot: plot.label is not None and test(plot))


sighted_where("full-sightings-written", "every plot has an S line", lambda plot, due: True)
sighted_where("full-is-255", "an S line is left out for all eight classes alone", lambda plot, due: plot.sighting != 255)
sighted_where("full-by-the-last-class", "a sighting with the last class is full", lambda plot, due: 2 * plot.sighting < 2**plot.k)
sighted_where("full-by-class-0", "a sighting that has class 0 is full", lambda plot, due: plot.sighting % 2 == 0)
sighted_where(
    "full-but-for-one",
    "a sighting that lacks one class alone is full",
    lambda plot, due: bin(plot.sighting).count("1") < plot.k - 1,
)
sighted_where("labelled-plots-not-sighted", "a labelled plot has no S line", lambda plot, due: due and plot.label is None)
sighted_where("foundation-not-sighted", "the foundation has no S line", lambda plot, due: due and plot.parent is not None)
for k in range(1, 9):
    words = f"a full sighting of {k} classes has an S line"
    sighted_where(f"full-written-with-{k}-classes", words, lambda plot, due, k=k: due or plot.k == k)
    if k > 1:
        words = f"a plot of {k} classes has no S line"
        sighted_where(f"not-sighted-with-{k}-classes", words, lambda plot, due, k=k: due and plot.k != k)
for c in (0, 7):
    labelled_where(f"label-{c}-not-written", f"a label of {c} isn't written", lambda plot, c=c: plot.label != c)
labelled_where(
    "labels-not-sighted-left-out",
    "a label outside the sighting isn't written",
    lambda plot: plot.sighting // 2**plot.label % 2 == 1,
)
labelled_where(
    "labels-sighted-alone-left-out",
    "a label that is all of the sighting isn't written",
    lambda plot: plot.sighting != 2**plot.label,
)
labelled_where("narrowed-plots-not-labelled", "a plot with an S line has no L line", lambda plot: plot.sighting == 2**plot.k - 1)
labelled_where("foundation-not-labelled", "the foundation has no L line", lambda plot: plot.parent is not None)
writes_lines(
    "blank-labels-written",
    "a plot without a label has an L line with a blank",
    label=lambda book, right: [b"L,%s,%s" % (plot.id, b"" if plot.label is None else b"%d" % plot.label) for plot in book.plots],
)

# What the lines of a text say.


def in_plot_lines(name, words, at, change):
    """A field of P lines, but for a blank one, is another."""

    def plot_line(self, book, plot):
        fields = Model.plot_line(self, book, plot).split(b",")
        fields[at] = change(book, plot, fields[at]) if fields[at] else b""
        return b",".join(fields)

    wrong(name, words, plot_line=plot_line)


def in_lines(name, words, kind, change):
    """The rows of T lines, or the number of another kind of line, are others."""
    first = 1 if kind == "table" else 2

    def line(right):
        fields = right.split(b",")
        return b",".join(fields[:first] + [change(field) for field in fields[first:]])

    writes_lines(name, words, **{kind: lambda book, right: list(map(line, right))})


def other_ids(name, words, change):
    """Every id is written as another, parents too."""
    writes_another(name, words, lambda book: each_plot(book, lambda i, plot: plot._replace(id=change(plot.id))))


def more(field, n):
    return b"%d" % (int(field) + n)


in_plot_lines("parent-by-its-place", "a parent is told by its place", 2, lambda book, plot, id: b"%d" % plot.parent)
in_plot_lines("parent-as-stored", "a parent is told by its place plus one", 2, lambda book, plot, id: b"%d" % (plot.parent + 1))
in_plot_lines("parent-one-late", "the plot behind the parent is told", 2, lambda book, plot, id: book.plots[plot.parent + 1].id)
in_plot_lines(
    "parent-one-early",
    "the plot before the parent is told, if there is one",
    2,
    lambda book, plot, id: book.plots[max(0, plot.parent - 1)].id,
)
in_plot_lines("parent-the-foundation", "every parent told is the foundation", 2, lambda book, plot, id: book.plots[0].id)
in_plot_lines(
    "parent-the-plot-before",
    "every parent told is the plot before",
    2,
    lambda book, plot, id: book.plots[book.position(plot.id) - 1].id,
)
in_plot_lines("parent-in-6-bits", "a parent's place has six bits", 2, lambda book, plot, id: book.plots[plot.parent % 64].id)
in_plot_lines("parent-cut-to-8-bytes", "a parent's bytes past the eighth aren't written", 2, lambda book, plot, id: id[:8])
in_plot_lines("parent-cut-to-10-bytes", "a parent's last byte isn't written", 2, lambda book, plot, id: id[: MOST - 1])
in_plot_lines("table-from-1", "tables are counted from 1", 3, lambda book, plot, table: more(table, 1))
in_plot_lines("table-by-its-last-digit", "a table is told by its last digit", 3, lambda book, plot, table: table[-1:])
in_plot_lines("table-by-its-first-digit", "a table is told by its first digit", 3, lambda book, plot, table: table[:1])
in_plot_lines("table-by-two-digits", "a table's number has two digits", 3, lambda book, plot, table: table.rjust(2, b"0"))
in_plot_lines("k-of-8", "every k told is 8", 4, lambda book, plot, k: b"8")
in_plot_lines("k-is-the-last-class", "the last class is told for k", 4, lambda book, plot, k: more(k, -1))
in_plot_lines("k-of-the-sighting", "k counts the classes sighted", 4, lambda book, plot, k: b"%d" % bin(plot.sighting).count("1"))
in_plot_lines(
    "k-up-to-the-sighting",
    "k goes up to the last class that is sighted",
    4,
    lambda book, plot, k: b"%d" % plot.sighting.bit_length(),
)
in_lines("rows-of-2-digits", "a row's third digit isn't written", "table", lambda row: row[:2])
in_lines("rows-of-3-digits", "every row has three digits", "table", lambda row: row.rjust(3, b"0"))
in_lines("rows-in-7-bits", "a row's highest bit is lost", "table", lambda row: b"%d" % (int(row) % 128))
in_lines("blank-for-rows-of-0", "a row of 0 is blank", "table", lambda row: b"" if row == b"0" else row)
in_lines("masks-of-2-digits", "a mask's third digit isn't written", "sighting", lambda mask: mask[:2])
in_lines("masks-of-3-digits", "every mask has three digits", "sighting", lambda mask: mask.rjust(3, b"0"))
in_lines("masks-in-7-bits", "a mask's highest bit is lost", "sighting", lambda mask: b"%d" % (int(mask) % 128))
in_lines("labels-from-1", "a label is told as it is stored, plus one", "label", lambda label: more(label, 1))
other_ids("ids-without-zeros", "zeros at an id's front aren't written: 012 is 12", lambda id: id.lstrip(b"0") or b"0")
other_ids("ids-with-zeros-behind", "the zeros behind an id in its slot are written", lambda id: id.ljust(16, b"\0"))
other_ids("ids-with-blanks-behind", "an id is written as wide as it may be", lambda id: id.ljust(MOST))
other_ids("ids-of-8-bytes-written", "an id's bytes past the eighth aren't written", lambda id: id[:8])
other_ids("ids-of-10-bytes-written", "an id's last byte isn't written", lambda id: id[: MOST - 1])
other_ids("ids-in-small-letters", "ids are written in small letters", bytes.lower)
wrong(
    "parent-and-table-swapped",
    "P tells the table before the parent",
    plot_line=lambda self, book, plot: re.sub(rb"(,[^,]*)(,[^,]*)(,[^,]*)$", rb"\2\1\3", Model.plot_line(self, book, plot)),
)
wrong(
    "foundation-below-itself",
    "the foundation is its own parent, by table 0",
    plot_line=lambda self, book, plot: re.sub(rb",([^,]*),,,", rb",\1,\1,0,", Model.plot_line(self, book, plot)),
)
writes_lines(
    "rows-backwards",
    "rows are written from the last to the first",
    table=lambda book, right: [b",".join([b"T"] + line.split(b",")[:0:-1]) for line in right],
)
writes_lines(
    "rows-of-0-left-out",
    "rows of 0 at a table's end aren't written",
    table=lambda book, right: [re.sub(rb"(,0)+$", b"", line) for line in right],
)


def writes_each(name, words, change):
    """The text is that of a book with other plots."""
    writes_another(name, words, lambda book: each_plot(book, lambda i, plot: change(plot)))


def one_class(mask):
    return mask & (mask - 1) == 0


writes_each(
    "sightings-turned-round",
    "S tells the classes that are ruled out",
    lambda plot: plot._replace(sighting=2**plot.k - 1 - plot.sighting or plot.sighting),
)
writes_each(
    "sightings-narrowed-to-labels",
    "a labelled plot is sighted in its label alone",
    lambda plot: plot if plot.label is None else plot._replace(sighting=2**plot.label),
)
writes_each(
    "single-classes-are-labels",
    "a plot without a label has the only class that is sighted",
    lambda plot: plot._replace(label=plot.sighting.bit_length() - 1) if plot.label is None and one_class(plot.sighting) else plot,
)


def tables_kept(book, kept):
    """The book with some of its tables, its plots hanging by the same ones as before."""
    plots = [plot if plot.table is None else plot._replace(table=kept.index(plot.table)) for plot in book.plots]
    return Book([book.tables[t] for t in kept], plots)


def tables_in_use(book):
    return sorted({plot.table for plot in book.plots} - {None})


def tables_once(book):
    """The book with equal tables once."""
    first = [book.tables.index(rows) for rows in book.tables]
    plots = [plot if plot.table is None else plot._replace(table=first[plot.table]) for plot in book.plots]
    return tables_kept(Book(book.tables, plots), sorted(set(first)))


def rows_changed(name, words, change):
    """Each row is written as another, by the book, the table and the row's number."""

    def changed(book):
        tables = [[change(book, t, r, row) for r, row in enumerate(rows)] for t, rows in enumerate(book.tables)]
        return Book(tables, book.plots)

    writes_another(name, words, changed)


def all_classes(plots):
    """The classes that some of the plots have, as a mask: all eight if there is no plot."""
    return 2 ** max((plot.k for plot in plots), default=8) - 1


writes_another(
    "tables-not-in-use-left-out",
    "tables that no plot uses aren't written, and the others are counted anew",
    lambda book: tables_kept(book, tables_in_use(book)),
)
writes_lines(
    "tables-not-in-use-lost",
    "tables that no plot uses aren't written, and the others keep their numbers",
    table=lambda book, right: [right[t] for t in tables_in_use(book)],
)
writes_lines(
    "tables-up-to-the-last-in-use",
    "tables behind the last that a plot uses aren't written",
    table=lambda book, right: right[: 1 + max(tables_in_use(book), default=-1)],
)
writes_another("equal-tables-once", "equal tables are written once, and all are counted anew", tables_once)
rows_changed(
    "rows-cut-to-classes-in-use",
    "a row's bits for classes that no plot has aren't written",
    lambda book, t, r, row: row & all_classes(book.plots),
)
rows_changed(
    "rows-cut-to-children",
    "a row's bits for classes that no plot by that table has aren't written",
    lambda book, t, r, row: row & all_classes(plot for plot in book.plots if plot.table == t),
)
rows_changed(
    "rows-of-classes-in-use",
    "rows of classes that no plot has are written as 0",
    lambda book, t, r, row: row if all_classes(book.plots) // 2**r % 2 else 0,
)


@wrong_class
class garbage_in_the_text(Model):
    """a label that lies behind the plots is written"""

    class slots(Slots):
        def book(self):
            book = super().book()
            book.known["lies"] = self.labels[self.plots_standing : self.plots_standing + 1]
            return book

    def label_lines(self, book):
        return super().label_lines(book) + [b"L,,%d" % (label - 1) for label in book.known.get("lies", b"") if label]


class Remembers(Model):
    """What the text says goes by the lines that were accepted since the run began."""

    accepted_lines = ()

    def start(self):
        self.accepted_lines = []
        return super().start()

    def step(self, state, line, buffer):
        after, answer = super().step(state, line, buffer)
        if answer.wrote:
            self.accepted_lines.append(line)
        return after, answer

    def was_named(self, plot, letter):
        return any(line.startswith(b"%s,%s," % (letter, plot.id)) for line in self.accepted_lines)


@wrong_class
class text_is_the_lines_accepted(Remembers):
    """the text is the T, P, S and L lines that were accepted, as they came"""

    def book_lines(self, book):
        return [line for line in self.accepted_lines if line[:1] not in (b"R", b"C", b"H")]


@wrong_class
class sighted_once_written(Remembers):
    """a plot for which an S line came has one, though its sighting is full again"""

    def is_all_sighted(self, plot):
        return super().is_all_sighted(plot) and not self.was_named(plot, b"S")


@wrong_class
class label_taken_off_written(Remembers):
    """a plot whose label was taken off has an L line with a blank"""

    def label_lines(self, book):
        off = [b"L,%s," % plot.id for plot in book.plots if plot.label is None and self.was_named(plot, b"L")]
        return super().label_lines(book) + off


@wrong_class
class text_echoed(Model):
    """the text is worked out once a run, and the same is given from then on"""

    first = None

    def start(self):
        self.first = None
        return super().start()

    def book_text(self, book):
        self.first = super().book_text(book) if self.first is None else self.first
        return self.first


def writes_bytes(name, words, change):
    """The text has other bytes."""
    wrong(name, words, book_text=lambda self, book: change(Model.book_text(self, book)))


writes_bytes("last-byte-lost", "the last line isn't ended by byte 10", lambda text: text[:-1])
writes_bytes("lines-ended-by-13-too", "lines are ended by bytes 13 and 10", lambda text: text.replace(b"\n", b"\r\n"))
writes_bytes("empty-line-behind", "an empty line ends the text", lambda text: text + b"\n")
writes_bytes("empty-line-for-no-line", "the text of the empty book is an empty line", lambda text: text or b"\n")
writes_bytes("empty-line-behind-tables", "an empty line parts tables and plots", lambda text: text.replace(b"\nP", b"\n\nP", 1))
writes_bytes("asked-for-the-list-too", "an R line ends the text", lambda text: text + b"R\n")
writes_bytes("dead-text", "every text is empty", lambda text: b"")

# The call that writes it.


class OfAnyBook(Model):
    """Writes the text of a book that breaks the rules too: a parent that doesn't stand is told as none."""

    reads_back = False

    def plot_line(self, book, plot):
        stands = plot.parent is not None and plot.parent < len(book.plots)
        return super().plot_line(book, plot if stands else plot._replace(parent=None))


def text_call(name, words, **values):
    """The call goes by an engine with other values, and all others by the right one."""
    other = type(name, (OfAnyBook,), values)

    def write_book(self, state, buffer):
        return other().write_book(state._replace(book=Book(state.book.tables, state.book.plots)), buffer)

    wrong(name, words, write_book=write_book)


def sound_as(change):
    """Whether a state that is made of it keeps the rules, and has no more plots than may stand."""
    return lambda self, state: self.plots_at_most(state.book) and Model.is_sound(self, change(state))


# Not for the number of plots: no byte says what a 129th is, and all its other rules are broken too.
for rule in Model.rules_of_the_book:
    if rule not in ("tables_are_masks", "plots_at_most"):
        words = "the text of a state that breaks this rule alone is written"
        text_call(f"text-where-{rule.replace('_', '-')}-is-broken", words, **{rule: lambda self, book: True})
for rule, test in RULES_OF_PLOTS.items():
    for name, (plots, place) in PLACES.items():
        if name != "first" or rule not in OF_LATER_PLOTS:
            words = f"the call doesn't look at this rule for {plots}"
            text_call(f"text-where-{rule.replace('_', '-')}-is-broken-{name}", words, **{rule: but_at(place, test)})
text_call("text-where-tallies-are-broken", "the call doesn't look at the tallies", lines_at_most=lambda self, kept: True)
text_call("text-without-9", "the text of a broken state is written", is_sound=lambda self, state: True)
text_call(
    "text-looks-at-no-plot",
    "the text of a state is written where a plot breaks a rule",
    is_sound=sound_as(lambda state: state._replace(book=Book(state.book.tables))),
)
text_call(
    "text-not-past-the-eighth-byte",
    "the call doesn't look past the eighth byte of ids",
    is_sound=sound_as(lambda state: state._replace(book=first_halves(state.book))),
)
text_call(
    "text-looks-at-64-plots",
    "the call looks at the rules for the first 64 plots",
    is_sound=sound_as(lambda state: state._replace(book=Book(state.book.tables, state.book.plots[:64]))),
)


def answers_text(name, words, answered):
    """What is answered, where 9 isn't due, goes by the state, the text's length and the room: a number, or None for the text. Of one that
    is longer than the buffer as much is written as there is room for."""

    def write_book(self, state, buffer):
        whole = bytearray(self.room_for_text)
        right = Model.write_book(self, state, whole)
        if not right.wrote:
            return right
        number = answered(state, right.number, len(buffer))
        if number is not None:
            return Answer(False, number)
        n = min(right.number, len(buffer))
        buffer[:n] = whole[:n]
        return right

    wrong(name, words, write_book=write_book)


def number_if(number, test):
    """That number where a test of the text's length and the room says so, and 20 where the room is short."""
    return lambda state, length, room: number if test(length, room) else 20 if room < length else None


def only_if(test):
    """20 by another test alone."""
    return lambda state, length, room: 20 if test(length, room) else None


for name, words, answered in (
    ("20-one-late", "a buffer one byte shorter than the text is long enough", only_if(lambda n, room: room < n - 1)),
    ("20-never", "a short buffer gets as much of the text as it holds", only_if(lambda n, room: False)),
    ("20-in-8-bits", "the text's length has 8 bits where it is compared", only_if(lambda n, room: room < n % 256)),
    ("20-in-12-bits", "the text's length has 12 bits where it is compared", only_if(lambda n, room: room < n % 4096)),
    ("20-in-13-bits", "the text's length has 13 bits where it is compared", only_if(lambda n, room: room < n % 8192)),
    ("20-one-early", "a buffer as long as the text is too short", number_if(20, lambda n, room: room == n > 0)),
    ("20-for-no-byte", "a buffer of no byte is too short for the empty text", number_if(20, lambda n, room: room == 0)),
    ("20-below-the-longest", "a buffer of less than 8,851 bytes is too short", number_if(20, lambda n, room: room < Model.longest_text)),
    ("20-past-7318", "a text of more than 7,318 bytes is 20, as before", number_if(20, lambda n, room: room < n or n > 7318)),
    ("20-past-4096", "a text of more than 4,096 bytes is 20", number_if(20, lambda n, room: n > 4096)),
    ("10-for-20", "a buffer shorter than the text is 10", number_if(10, lambda n, room: room < n)),
    ("10-for-the-text", "a buffer of less than 4,096 bytes is 10", number_if(10, lambda n, room: room < 4096)),
    ("10-for-the-text-behind-20", "the same where 20 isn't due", number_if(10, lambda n, room: n <= room < 4096)),
):
    answers_text(name, words, answered)
answers_text(
    "19-for-the-text",
    "the text is 19 after a million lines",
    lambda state, length, room: 19 if sum(together(state.kept)) >= 1_000_000 else 20 if room < length else None,
)
answers_text(
    "19-for-the-text-behind-20",
    "that, where 20 isn't due",
    lambda state, length, room: 20 if room < length else 19 if sum(together(state.kept)) >= 1_000_000 else None,
)


@wrong_class
class text_20_before_9(Model):
    """20 is given where 9 is due and the buffer is shorter than the text too"""

    def write_book(self, state, buffer):
        right = super().write_book(state, buffer)
        text = OfAnyBook().book_text(Book(state.book.tables, state.book.plots))
        return Answer(False, 20) if right == Answer(False, 9) and len(buffer) < len(text) else right


@wrong_class
class text_20_for_no_byte_before_9(Model):
    """20 is given where 9 is due and the buffer has no byte"""

    def write_book(self, state, buffer):
        right = super().write_book(state, buffer)
        return Answer(False, 20) if right == Answer(False, 9) and len(buffer) == 0 else right


class WithKept(Model):
    """The text tells something of what is kept beside the book too."""

    def write_book(self, state, buffer):
        if not self.is_sound(state):
            return Answer(False, 9)
        return self.text_in(self.with_kept(self.book_text(state.book), state.kept), buffer)


def tells_kept(name, words, text):
    wrong_class(type(name, (WithKept,), {"__doc__": words, "with_kept": lambda self, right, kept: text(self, right, kept)}))


def h_line(kept):
    return b"H,%d\n" % kept.scanner


tells_kept("scanner-before-the-text", "an H line begins the text", lambda self, right, kept: h_line(kept) + right)
tells_kept("scanner-behind-the-text", "an H line ends the text", lambda self, right, kept: right + h_line(kept))
tells_kept(
    "scanner-before-the-text-but-0",
    "an H line begins the text, but for scanner 0",
    lambda self, right, kept: h_line(kept) * (kept.scanner > 0) + right,
)
tells_kept(
    "scanner-behind-the-text-but-0",
    "an H line ends the text, but for scanner 0",
    lambda self, right, kept: right + h_line(kept) * (kept.scanner > 0),
)
tells_kept("tallies-behind-the-text", "the N lines end the text", lambda self, right, kept: right + self.tally_text(kept))


@wrong_class
class text_with_the_h_lines(Remembers):
    """the accepted H lines begin the text"""

    def book_lines(self, book):
        return [line for line in self.accepted_lines if line[:1] == b"H"] + super().book_lines(book)


class TalliesTexts(Model):
    """The next line is counted behind texts that were asked for."""

    def start(self):
        self.uncounted = [0, 0]
        return super().start()

    def write_book(self, state, buffer):
        answer = super().write_book(state, buffer)
        self.uncounted[0 if answer.wrote else 1] += self.is_counted(answer)
        return answer

    def step(self, state, line, buffer):
        uncounted, self.uncounted = Tally(*self.uncounted), [0, 0]
        return super().step(self.counted(state, uncounted), line, buffer)


@wrong_class
class text_counted(TalliesTexts):
    """a text that is written counts as a line accepted"""

    def is_counted(self, answer):
        return answer.wrote


@wrong_class
class text_refused_counted(TalliesTexts):
    """20 counts as a line refused"""

    def is_counted(self, answer):
        return answer == Answer(False, 20)


def then_clears(name, words, test, places):
    """Some bytes of the buffer that the call is to leave are 0 afterwards."""

    def write_book(self, state, buffer):
        answer = Model.write_book(self, state, buffer)
        if test(answer):
            for place in places(answer.number, len(buffer)):
                buffer[place] = 0
        return answer

    wrong(name, words, write_book=write_book)


def is_text(answer):
    return answer.wrote


def is_refused(number):
    return lambda answer: answer == Answer(False, number)


then_clears("zero-behind-the-text", "a byte 0 ends the text", is_text, lambda n, room: range(n, min(n + 1, room)))
then_clears("buffer-cleared-behind-the-text", "all bytes behind the text are 0", is_text, lambda n, room: range(n, room))
then_clears("last-byte-lent-altered", "the last byte lent is altered", is_text, lambda n, room: range(max(n, room - 1), room))
then_clears("20-in-the-buffer", "the first byte is altered with 20", is_refused(20), lambda n, room: range(min(1, room)))
then_clears("buffer-cleared-with-20", "the buffer is cleared with 20", is_refused(20), lambda n, room: range(room))
then_clears("9-of-the-text-in-the-buffer", "the first byte is altered with 9", is_refused(9), lambda n, room: range(min(1, room)))


class WritesWith20(Model):
    """Something of the text is written though it is too long, and 20 is returned."""

    def write_book(self, state, buffer):
        answer = super().write_book(state, buffer)
        if answer == Answer(False, 20):
            written = self.begun(self.book_text(state.book)[: len(buffer)])
            buffer[: len(written)] = written
        return answer


@wrong_class
class bytes_written_with_20(WritesWith20):
    """all bytes of the text that there is room for are written, and 20 is returned"""

    def begun(self, text):
        return text


@wrong_class
class lines_written_with_20(WritesWith20):
    """all lines of the text that there is room for are written, and 20 is returned"""

    def begun(self, text):
        return text[: text.rfind(b"\n") + 1]


def then_returns(name, words, length):
    """The call returns another length."""

    def write_book(self, state, buffer):
        answer = Model.write_book(self, state, buffer)
        return Answer(True, length(self.book_text(state.book))) if answer.wrote else answer

    wrong(name, words, write_book=write_book)


then_returns("text-length-one-less", "the length doesn't count the last byte 10", lambda text: max(0, len(text) - 1))
then_returns("text-length-without-line-ends", "the length doesn't count bytes 10", lambda text: len(text) - text.count(b"\n"))
then_returns("text-length-in-lines", "the number returned is that of the lines", lambda text: text.count(b"\n"))

# The program that prints the text.


def prints(name, words, book_output):
    """booktext prints something else for an input than the right text."""
    wrong(name, words, book_output=lambda self, data: book_output(self, data, Model.book_output(self, data)))


def told(self, data, *letters):
    """What plotbook prints of some kinds."""
    return b"".join(text for text in self.printed(data) if text[:1] in letters)


def lines_up_to(self, data, end):
    """The first lines of an input."""
    return b"".join(line + b"\n" for line in self.lines(data)[:end])


def up_to_a_refusal(self, data):
    """The lines of an input before the first that is refused."""
    state, buffer = self.start(), bytearray(self.room)
    for n, line in enumerate(self.lines(data)):
        state, answer = self.step(state, line, buffer)
        if not answer.wrote:
            return lines_up_to(self, data, n)
    return data


prints("refusals-beside-the-text", "E lines are printed too", lambda self, data, text: told(self, data, b"E") + text)
prints("answers-beside-the-text", "C's and R's answers are printed too", lambda self, data, text: told(self, data, b"C", b"R") + text)
prints("tally-behind-the-text", "N is printed too", lambda self, data, text: text + told(self, data, b"N"))
prints(
    "text-before-the-last-line",
    "the text is that of the book before the last line",
    lambda self, data, text: Model.book_output(self, lines_up_to(self, data, -1)),
)
prints(
    "text-before-and-after-the-last-line",
    "the text is printed before the last line too",
    lambda self, data, text: Model.book_output(self, lines_up_to(self, data, -1)) + text,
)
prints(
    "text-without-a-line-not-ended",
    "a last line without byte 10 is passed over",
    lambda self, data, text: Model.book_output(self, data[: data.rfind(b"\n") + 1]),
)
prints(
    "no-text-for-a-line-not-ended",
    "nothing is printed if the last line has no byte 10",
    lambda self, data, text: text if data.endswith(b"\n") else b"",
)
prints(
    "no-text-after-a-refusal",
    "nothing is printed if a line is refused",
    lambda self, data, text: b"" if together(self.after(data).kept)[1] else text,
)
prints(
    "text-up-to-a-refusal",
    "the lines from the first that is refused on are passed over",
    lambda self, data, text: Model.book_output(self, up_to_a_refusal(self, data)),
)
wrong("booktext-of-4096-bytes", "booktext lends the buffer of a line", room_for_text=4096)
wrong("booktext-of-7318-bytes", "booktext lends a buffer for the longest text of before", room_for_text=7318)
wrong(
    "booktext-one-byte-short",
    "booktext lends a buffer that is one byte too short for the longest text",
    room_for_text=Model.longest_text - 1,
)

# The load of U3: its generator.


def draws(name, words, **methods):
    """A generator that steps or draws otherwise."""
    wrong(name, words, generator=type(name, (Generator,), methods))


def steps(name, words, after):
    """The state after another step."""

    def step(self):
        self.v = after(self.v)

    draws(name, words, step=step)


def draws_of(name, words, drawn):
    """Another draw below n from the stepped state."""

    def draw(self, n):
        self.step()
        return drawn(self.v, n)

    draws(name, words, draw=draw)


def starts(name, words, first):
    """Another state before the first step."""

    def __init__(self, start):
        self.v = first(start)

    draws(name, words, __init__=__init__)


@wrong_class
class drawn_before_the_step(Model):
    """the state before the step is drawn from"""

    class generator(Generator):
        def draw(self, n):
            drawn = self.v // 65536 % n
            self.step()
            return drawn


@wrong_class
class below_one_without_a_step(Model):
    """a draw below 1, which is 0 whatever the state, doesn't step"""

    class generator(Generator):
        def draw(self, n):
            return super().draw(n) if n > 1 else 0


steps("added-before-multiplied", "the sum is multiplied", lambda v: 1664525 * (v + 1013904223) % 2**32)
steps("multiplier-one-less", "the state is multiplied by 1664524", lambda v: (1664524 * v + 1013904223) % 2**32)
steps("increment-one-less", "1013904222 is added", lambda v: (1664525 * v + 1013904222) % 2**32)
steps("nothing-added", "nothing is added", lambda v: 1664525 * v % 2**32)
steps("wraps-at-2-31", "the state wraps at 2^31", lambda v: (1664525 * v + 1013904223) % 2**31)
steps("wraps-at-2-32-less-1", "the state wraps at 2^32 - 1", lambda v: (1664525 * v + 1013904223) % (2**32 - 1))
steps("wraps-at-2-64", "the state wraps at 2^64", lambda v: (1664525 * v + 1013904223) % 2**64)
steps("held-at-2-32", "the state is held at 2^32 - 1", lambda v: min(1664525 * v + 1013904223, 2**32 - 1))
draws_of("remainder-before-division", "the remainder is taken before the division", lambda v, n: v % n // 65536)
draws_of("undivided", "the state isn't divided", lambda v, n: v % n)
draws_of("lower-half-drawn", "the lower half of the state is drawn from", lambda v, n: v % 65536 % n)
draws_of("divided-by-65535", "the state is divided by 65535", lambda v, n: v // 65535 % n)
draws_of("divided-by-32768", "the state is divided by 32768", lambda v, n: v // 32768 % n)
draws_of("rounded-to-the-nearest", "the quotient is rounded to the nearest", lambda v, n: (v + 32768) // 65536 % n)
draws_of("rounded-up", "the quotient is rounded up", lambda v, n: -(-v // 65536) % n)
draws_of("drawn-up-to-n", "a draw below n is up to n", lambda v, n: v // 65536 % (n + 1))
draws_of("scaled", "the upper half is scaled down to n", lambda v, n: v // 65536 * n // 65536)
starts("start-of-31-bits", "the highest bit of the start is lost", lambda start: start % 2**31)
starts("start-of-16-bits", "the upper half of the start is lost", lambda start: start % 2**16)
starts("start-one-less", "the start is one less", lambda start: start - 1)
starts("one-step-more", "there is a step before the first", lambda start: (1664525 * start + 1013904223) % 2**32)

# Its book.

wrong("rows-below-255", "a row is drawn below 255", drawn_rows=lambda self, g: [g.draw(255) for _ in range(8)])
wrong("rows-not-empty", "a row is 1 and a draw below 255", drawn_rows=lambda self, g: [1 + g.draw(255) for _ in range(8)])
wrong("rows-last-first", "the last row is drawn first", drawn_rows=lambda self, g: [g.draw(256) for _ in range(8)][::-1])
wrong("nine-rows-drawn", "a ninth row is drawn and left out", drawn_rows=lambda self, g: [g.draw(256) for _ in range(9)][:8])
wrong("seven-rows-drawn", "the last row is 0", drawn_rows=lambda self, g: [g.draw(256) for _ in range(7)] + [0])
wrong("ids-from-1", "the plots are G1 to Gp", drawn_id=lambda self, i: b"G%d" % (i + 1))
wrong("ids-of-two-digits", "the position has two digits at least", drawn_id=lambda self, i: b"G%02d" % i)
wrong("ids-of-three-digits", "the position has three digits", drawn_id=lambda self, i: b"G%03d" % i)
wrong("ids-without-g", "an id is the position", drawn_id=lambda self, i: b"%d" % i)
wrong("ids-in-base-16", "the position is in base 16", drawn_id=lambda self, i: b"G%X" % i)
wrong("ids-of-the-last-two-digits", "a position of three digits loses its first", drawn_id=lambda self, i: b"G%d" % (i % 100))
wrong("first-draws-a-parent", "G0 draws a parent too, and has none", drawn_parent=lambda self, g, i: g.draw(i) if i else (g.draw(1), None)[1])
wrong("second-draws-no-parent", "G1 draws no parent: it is G0", drawn_parent=lambda self, g, i: g.draw(i) if i > 1 else 0 if i else None)
wrong("parent-from-the-newest", "the parent is counted back from the plot", drawn_parent=lambda self, g, i: i - 1 - g.draw(i) if i else None)
wrong("drawn-below-the-plot-before", "the parent is the plot before", drawn_parent=lambda self, g, i: (g.draw(i), i - 1)[1] if i else None)
wrong("parent-not-the-last", "the parent is below the last position", drawn_parent=lambda self, g, i: g.draw(max(1, i - 1)) if i else None)
wrong("sighting-below-255", "the sighting is a draw below 255", drawn_sighting=lambda self, g: g.draw(255))
wrong("sighting-below-256", "the sighting is a draw below 256", drawn_sighting=lambda self, g: g.draw(256))
wrong("sighting-up-to-256", "the sighting is 1 and a draw below 256", drawn_sighting=lambda self, g: 1 + g.draw(256))
wrong("sighting-never-full", "the sighting is 1 and a draw below 254", drawn_sighting=lambda self, g: 1 + g.draw(254))
wrong("sighting-not-drawn", "every class is sighted", drawn_sighting=lambda self, g: 255)


def draws_plots(name, words, plot):
    """Another way to draw a plot."""
    wrong(name, words, drawn_plot=plot)


def plot_of(self, i, parent, label, sighting, k=8):
    return Plot(self.drawn_id(i), parent, None if parent is None else 0, k, sighting, label)


def sighting_before_label(self, g, i):
    parent = self.drawn_parent(g, i)
    sighting = self.drawn_sighting(g)
    return plot_of(self, i, parent, g.draw(8), sighting)


def parent_last(self, g, i):
    label, sighting = g.draw(8), self.drawn_sighting(g)
    return plot_of(self, i, self.drawn_parent(g, i), label, sighting)


def parent_after_label(self, g, i):
    label, parent = g.draw(8), self.drawn_parent(g, i)
    return plot_of(self, i, parent, label, self.drawn_sighting(g))


draws_plots("sighting-drawn-before-the-label", "the sighting is drawn before the label", sighting_before_label)
draws_plots("parent-drawn-last", "the parent is drawn last", parent_last)
draws_plots("parent-drawn-after-the-label", "the parent is drawn after the label", parent_after_label)


@wrong_class
class drawn_in_the_order_of_the_text(Model):
    """all parents are drawn, then all sightings, then all labels"""

    def load(self, start, plots):
        g = self.generator(start)
        rows = self.drawn_rows(g)
        parents = [self.drawn_parent(g, i) for i in range(plots)]
        sightings = [self.drawn_sighting(g) for _ in range(plots)]
        return Book([rows], [plot_of(self, i, parents[i], g.draw(8), sightings[i]) for i in range(plots)])


@wrong_class
class rows_drawn_last(Model):
    """the rows are drawn after the plots"""

    def load(self, start, plots):
        g = self.generator(start)
        made = [self.drawn_plot(g, i) for i in range(plots)]
        return Book([self.drawn_rows(g)], made)


def with_each_plot(name, words, change):
    """The right plots, each with something changed."""
    wrong(name, words, drawn_plot=lambda self, g, i: change(Model.drawn_plot(self, g, i)))


with_each_plot("drawn-without-labels", "no plot has a label", lambda plot: plot._replace(label=None))
with_each_plot("labels-one-more", "a label is one class more", lambda plot: plot._replace(label=(plot.label + 1) % 8))
with_each_plot("seven-classes-drawn", "a plot has seven classes", lambda plot: plot._replace(k=7))
with_each_plot(
    "drawn-labels-sighted",
    "a label that isn't sighted is left out",
    lambda plot: plot._replace(label=plot.label if plot.sighting // 2**plot.label % 2 else None),
)
with_each_plot("second-table-drawn", "the table is table 1", lambda plot: plot._replace(table=None if plot.table is None else 1))
wrong("one-plot-more-drawn", "there is a plot more", load=lambda self, start, plots: Model.load(self, start, plots + 1))
wrong("one-plot-less-drawn", "there is a plot less", load=lambda self, start, plots: Model.load(self, start, plots - 1))

# Its call.


def asked_of_load(name, words, write_load):
    wrong(name, words, write_load=write_load)


def plots_as(name, words, read):
    """Another number of plots than the one asked for."""
    asked_of_load(name, words, lambda self, start, plots, buffer: Model.write_load(self, start, read(plots), buffer))


plots_as("plots-of-8-bits", "the number of plots is read in 8 bits", lambda plots: plots % 2**8)
plots_as("plots-of-16-bits", "the number of plots is read in 16 bits", lambda plots: plots % 2**16)
plots_as("plots-of-32-bits", "the number of plots is read in 32 bits", lambda plots: plots % 2**32)
plots_as("plots-of-63-bits", "the number of plots is read in 63 bits", lambda plots: plots % 2**63)
plots_as("plots-held-at-128", "more plots than 128 are 128", lambda plots: min(plots, 128))
plots_as("plots-1-at-least", "no plots are one", lambda plots: max(plots, 1))
wrong("129-plots-drawn", "129 plots can be asked for", most_drawn=129)
wrong("127-plots-drawn", "128 plots can't be asked for", most_drawn=127)


def returned_for_6(number):
    def write_load(self, start, plots, buffer):
        answer = Model.write_load(self, start, plots, buffer)
        return Answer(False, number) if answer == Answer(False, 6) else answer

    return write_load


asked_of_load("5-for-plots", "another number of plots is 5", returned_for_6(5))
asked_of_load("12-for-plots", "another number of plots is 12", returned_for_6(12))


@wrong_class
class load_20_before_6(Model):
    """a buffer that is shorter than the text of one plot is 20, whatever the number of plots"""

    def write_load(self, start, plots, buffer):
        if len(buffer) < len(self.book_text(self.load(start, 1))):
            return Answer(False, 20)
        return super().write_load(start, plots, buffer)


@wrong_class
class no_plots_drawn(Model):
    """no plots can be asked for: the text is the table's"""

    def write_load(self, start, plots, buffer):
        if plots == 0:
            return self.text_in(self.book_text(self.load(start, 0)), buffer)
        return super().write_load(start, plots, buffer)


@wrong_class
class load_10_for_a_short_buffer(Model):
    """a buffer of fewer than 4,096 bytes is 10"""

    def write_load(self, start, plots, buffer):
        return Answer(False, 10) if len(buffer) < 4096 else super().write_load(start, plots, buffer)


@wrong_class
class load_written_with_6(Model):
    """the first byte is altered with 6"""

    def write_load(self, start, plots, buffer):
        answer = super().write_load(start, plots, buffer)
        if answer == Answer(False, 6) and len(buffer):
            buffer[0] = 0
        return answer


@wrong_class
class load_written_with_20(Model):
    """all bytes of the load that there is room for are written, and 20 is returned"""

    def write_load(self, start, plots, buffer):
        answer = super().write_load(start, plots, buffer)
        if answer == Answer(False, 20):
            buffer[:] = self.book_text(self.load(start, plots))[: len(buffer)]
        return answer


@wrong_class
class load_cleared_behind(Model):
    """all bytes behind the load are 0"""

    def write_load(self, start, plots, buffer):
        answer = super().write_load(start, plots, buffer)
        if answer.wrote:
            buffer[answer.number :] = bytes(len(buffer) - answer.number)
        return answer
