"""Reads the texts of Macek that have forms, strictly and as a stream: listings, level texts, sifted texts, excluded listings.

docs/FORMATS.md has the formats. What is checked is the text: each line has its place and its shape, codes are codes of their
field, each form begins with the unit columns, and as many forms stand there as the level lines say. That the forms are forms,
and all of them, is what the programs are proved to do. One byte 13 at the end of a line is left out.

`read_levels` gives the levels one after another as they are read, `read_listing` a whole listing at once.
"""

from __future__ import annotations

import io
import re
from collections import Counter
from collections.abc import Callable, Iterable, Iterator
from dataclasses import dataclass
from typing import Any, NoReturn

from macek.fields import ORDERS, Column, Matrix, bases, column_of, field, word

NUMBER = "(0|[1-9][0-9]*)"
# The orders that a head may have, by its version.
ORDERS_OF_VERSION = {1: [str(order) for order in ORDERS if order <= 9], 2: [str(order) for order in ORDERS]}
NAMES = ("F7", "F7*", "F7-", "K4", "K5")
FILTERS = ("filter connected", "filter 3conn", "filter cosimple", "filter distinct")
# The first line of a text says of which kind it is.
KINDS = {"macek listing 1": "listing", "macek level 1": "level", "macek sifted 1": "sifted"}
LEVEL = re.compile(f"level {NUMBER} classes {NUMBER} listed {NUMBER} tried {NUMBER}")
SIFTED_LEVEL = re.compile(f"level {NUMBER}(?: classes {NUMBER} listed {NUMBER} tried {NUMBER}| over {NUMBER} excluded {NUMBER})?")
GROWN = re.compile(f"grown {NUMBER} classes {NUMBER} tried {NUMBER}")


class BadListing(Exception):
    """The text is none that this program writes; the message says where it goes wrong."""


class CutOff(BadListing):
    """The text is the beginning of one and ends too early; the levels before are whole."""


@dataclass(frozen=True)
class Representation:
    """A matrix over each of one to three fields, all with the same bases: for each factor its columns as tuples of codes."""

    orders: tuple[int, ...]
    factors: tuple[Matrix, ...]

    @property
    def size(self) -> int:
        """The number of elements, one for each column."""
        return len(self.factors[0])

    @property
    def rank(self) -> int:
        """The number of rows."""
        return len(self.factors[0][0])

    def text(self) -> str:
        """The line that spells it in a listing, without the line end."""
        return " | ".join(" ".join(map(word, columns)) for columns in self.factors)

    def bases(self) -> frozenset[tuple[int, ...]]:
        """The bases of its matroid, as sorted tuples of column numbers from 0."""
        return bases(field(self.orders[0]), self.factors[0])

    def sage(self, factor: int = 0) -> Any:
        """SageMath's matroid of its matrix over one factor, numbered from 0; ImportError outside SageMath's Python."""
        from macek.sage import matroid_of

        return matroid_of(self.factors[factor], self.orders[factor])

    @property
    def matroids(self) -> tuple[Any, ...]:
        """SageMath's matroids of its matrices, one for each factor."""
        return tuple(self.sage(factor) for factor in range(len(self.orders)))


@dataclass(frozen=True)
class Form(Representation):
    """One form of a text, with its number among the forms of its size there (from 1)."""

    number: int


@dataclass(frozen=True)
class Grown:
    """A count line of a level text: how many forms of a later size were grown, and from how many tries."""

    size: int
    classes: int
    tried: int


@dataclass(frozen=True)
class Level:
    """The forms of one size that a text has in one place, with the counts of its level line, None for each that it hasn't.

    classes is the number of forms of the size, listed that of those which pass the filters, tried that of the tries. An
    excluded listing has over and excluded instead: how many are over the class, and how many are excluded minors of it.
    """

    size: int
    forms: tuple[Form, ...]
    classes: int | None = None
    listed: int | None = None
    tried: int | None = None
    over: int | None = None
    excluded: int | None = None
    grown: tuple[Grown, ...] = ()


@dataclass(frozen=True)
class Head:
    """The head of a text.

    kind is "listing", "level" or "sifted" (an excluded listing is a sifted text). lines are those after the first, from
    the version to `print forms` or `print counts`: together the request. sifts are the words of the tests of a sifted text,
    and level is the size of the forms of a level text.
    """

    kind: str
    lines: tuple[str, ...]
    version: int
    orders: tuple[int, ...]
    rank: int
    size: int
    sifts: tuple[str, ...] = ()
    level: int | None = None

    @property
    def counts(self) -> bool:
        """Whether the text has counts and no forms."""
        return self.lines[-1] == "print counts"

    @property
    def request(self) -> str:
        """The text of the request that the head stands for."""
        return "".join(line + "\n" for line in self.lines)


@dataclass(frozen=True)
class Listing:
    """A listing: the lines of its head after the first, the orders of its fields, its rank, its greatest size, its levels."""

    head: tuple[str, ...]
    orders: tuple[int, ...]
    rank: int
    size: int
    levels: tuple[Level, ...]

    @property
    def forms(self) -> tuple[Form, ...]:
        """The forms of all levels, in order."""
        return tuple(form for level in self.levels for form in level.forms)


class Levels(Iterator[Level]):
    """The levels of a text, one after another as they are read; `head` is read at once.

    The lines are bytes with their line ends, as a binary file gives them. A level is given as soon as its last line is read,
    where the level line says how many forms there are. BadListing comes at the first line that is wrong, and CutOff where
    the text ends too early, each after the whole levels before it.
    """

    def __init__(self, lines: Iterable[bytes]) -> None:
        self._lines = Lines(lines)
        self.head = read_head(self._lines)
        self._columns = [_Columns(order, self.head.rank) for order in self.head.orders]
        self._numbers: Counter[int] = Counter()
        readers = {"listing": self._listing, "level": self._blocks, "sifted": self._sifted}
        self._levels = readers[self.head.kind]()

    def __next__(self) -> Level:
        return next(self._levels)

    def _listing(self) -> Iterator[Level]:
        """The levels of a listing, to its line 'end'."""
        for size in range(self.head.rank, self.head.size + 1):
            found = self._lines.next_like(LEVEL, f"the level line of size {size}")
            level, classes, listed, tried = (int(number) for number in found.groups())
            if level != size or listed > classes:
                self._lines.fail(f"this is not a level line of size {size} with no more listed than classes")
            yield Level(size, self._forms(size, listed), classes, listed, tried)
        self._lines.next_like("end", "the line 'end'")
        self._ends()

    def _blocks(self) -> Iterator[Level]:
        """A level for each block of a level text: its forms, then its count lines."""
        assert self.head.level is not None
        opening = ["macek level 1", *self.head.lines, f"level {self.head.level}"]
        while True:
            forms, grown = self._forms_until(self.head.level, opening[0].__eq__)
            yield Level(self.head.level, forms, grown=grown)
            if self._lines.peek() is None:
                return
            for wanted in opening:
                self._lines.next_like(re.escape(wanted), f"the line '{wanted}' of the head again")

    def _sifted(self) -> Iterator[Level]:
        """The levels of a sifted text. Where its level lines have counts, a line 'end' is its last."""
        while (line := self._lines.next()) != "end":
            found = SIFTED_LEVEL.fullmatch(line)
            if found is None or not self.head.rank <= int(found.group(1)) <= 16:
                self._lines.fail("this is not a level line of a size from the rank to 16")
            has_counts = found.lastindex != 1
            yield self._sifted_level(found)
            if not has_counts and self._lines.peek() is None:
                return
        self._ends()

    def _sifted_level(self, found: re.Match[str]) -> Level:
        """The level after its level line, with as many forms as stand there."""
        classes, listed, tried, over, excluded = (None if text is None else int(text) for text in found.groups()[1:])
        size = int(found.group(1))
        if self.head.counts or (excluded is not None and len(self.head.sifts) == 1):
            return Level(size, self._forms(size, excluded or 0), classes, listed, tried, over, excluded)
        forms, grown = self._forms_until(size, lambda line: line == "end" or line.startswith("level "))
        most = listed if excluded is None else excluded
        if most is not None and self._lines.is_at_end():
            self._lines.next()
        if most is not None and len(forms) > most:
            self._lines.fail(f"the level of size {size} has more than {most} forms")
        return Level(size, forms, classes, listed, tried, over, excluded, grown)

    def _forms_until(self, size: int, is_next: Callable[[str], bool]) -> tuple[tuple[Form, ...], tuple[Grown, ...]]:
        """The next lines as forms of a size and then count lines, up to a line of what comes next or the end of the text."""
        forms: list[Form] = []
        grown: list[Grown] = []
        while (line := self._lines.next_if(lambda line: not is_next(line))) is not None:
            found = GROWN.fullmatch(line)
            if found:
                grown.append(Grown(*(int(number) for number in found.groups())))
            elif grown:
                self._lines.fail("this is not a count line, and no form stands behind one")
            else:
                forms.append(self._form(line, size))
        return tuple(forms), tuple(grown)

    def _forms(self, size: int, number: int) -> tuple[Form, ...]:
        """The next lines as so many forms of a size; none of them stands in a text of counts."""
        if self.head.counts:
            return ()
        return tuple(self._form(self._lines.next(), size) for _ in range(number))

    def _form(self, line: str, size: int) -> Form:
        """The line that was taken last as a form."""
        self._numbers[size] += 1
        number = self._numbers[size]
        texts = line.split(" | ")
        if len(texts) != len(self._columns):
            self._lines.fail(f"this is not form {number} of size {size}: not {len(self._columns)} matrices, one for each field")
        factors = tuple(self._matrix(text, columns, size) for text, columns in zip(texts, self._columns))
        return Form(self.head.orders, factors, number)

    def _matrix(self, text: str, columns: _Columns, size: int) -> Matrix:
        """The columns of one matrix, which begin with the unit columns."""
        words = text.split(" ")
        try:
            matrix = tuple([columns[each] for each in words])
        except ValueError:
            matrix = ()
        if len(matrix) != size:
            self._lines.fail(f"this is not a matrix of {size} columns with {self.head.rank} codes of GF({columns.order}) each")
        if matrix[: self.head.rank] != columns.units:
            self._lines.fail("a form begins with the unit columns, and this line doesn't")
        return matrix

    def _ends(self) -> None:
        """Refuses a line behind the line 'end'."""
        if not self._lines.is_at_end():
            raise BadListing(f"line {self._lines.taken + 1}: a line after the line 'end'")


class _Columns(dict[str, Column]):
    """The columns over one field by their words, each made once; ValueError for a word that is none."""

    def __init__(self, order: int, rank: int) -> None:
        super().__init__()
        self.order = order
        self.rank = rank
        self.units = tuple(tuple(int(row == place) for row in range(rank)) for place in range(rank))

    def __missing__(self, text: str) -> Column:
        if len(text) != self.rank:
            raise ValueError(f"'{text}' has not {self.rank} codes")
        self[text] = column_of(text, self.order)
        return self[text]


class Lines:
    """The lines of a text, taken one after the other."""

    def __init__(self, source: Iterable[bytes]) -> None:
        self._source = iter(source)
        self._ahead: bytes | None = None
        self.taken = 0

    def fail(self, reason: str) -> NoReturn:
        """Refuses the line that was taken last."""
        raise BadListing(f"line {self.taken}: {reason}")

    def is_at_end(self) -> bool:
        """Whether no byte is left."""
        if self._ahead is None:
            self._ahead = next(self._source, b"")
        return not self._ahead

    def peek(self) -> str | None:
        """The next line, which stays the next one, or None at the end of the text."""
        return None if self.is_at_end() or self._ahead is None else self._decoded(self._ahead)

    def next(self) -> str:
        """Takes the next line; CutOff where there is none."""
        line = self.peek()
        if line is None:
            raise CutOff(f"after line {self.taken}: nothing more, so the text is cut off")
        self._ahead = None
        self.taken += 1
        return line

    def next_like(self, pattern: str | re.Pattern[str], wanted: str) -> re.Match[str]:
        """The match of the next line with a pattern, or a refusal that says what was wanted."""
        found = re.fullmatch(pattern, self.next())
        if found is None:
            self.fail(f"this is not {wanted}")
        return found

    def next_if(self, is_wanted: Callable[[str], bool]) -> str | None:
        """Takes the next line where it is as wanted."""
        line = self.peek()
        return self.next() if line is not None and is_wanted(line) else None

    def _decoded(self, line: bytes) -> str:
        """The text of the line after those that were taken."""
        place = f"line {self.taken + 1}"
        if not line.endswith(b"\n"):
            raise CutOff(f"{place}: it has no line end, so the text is cut off")
        try:
            return line[: -2 if line.endswith(b"\r\n") else -1].decode("ascii")
        except UnicodeDecodeError:
            raise BadListing(f"{place}: some bytes are not ASCII") from None


def read_levels(source: Iterable[bytes]) -> Levels:
    """The levels of a text of any kind, from its lines: a binary file, or what a program writes to a pipe."""
    return Levels(source)


def read_listing(text: bytes) -> Listing:
    """The listing with forms that the bytes of a text are, all of it, or BadListing."""
    levels = Levels(io.BytesIO(text))
    head = levels.head
    if head.kind != "listing":
        raise BadListing("line 1: this is not the line 'macek listing 1' with which a listing begins")
    if head.counts:
        raise BadListing(f"line {len(head.lines) + 1}: this listing has {COUNTS_ALONE}")
    return Listing(head.lines, head.orders, head.rank, head.size, tuple(levels))


COUNTS_ALONE = "counts alone; a request with 'print forms' lists the forms"


def read_head(lines: Lines) -> Head:
    """The head of a text, from its first lines."""
    start = lines.next()
    if start not in KINDS:
        lines.fail("this is not the line 'macek listing 1' with which a listing begins, nor one of another kind of text")
    kind = KINDS[start]
    taken: list[str] = []

    def take(pattern: str, wanted: str) -> str:
        found = lines.next_like(pattern, wanted)
        taken.append(found.group())
        return found.group(1)

    version = int(take("version ([12])", "a line 'version 1' or 'version 2'"))
    orders = ORDERS_OF_VERSION[version]
    fields = take("field (.*)", "a line 'field'").split(" x ")
    if not is_field(fields, orders):
        lines.fail("these are not one to three orders of fields")
    rank = int(take("rank ([1-6])", "a line 'rank' with a rank from 1 to 6"))
    size = int(take(f"size {NUMBER}", "a line 'size'"))
    if not rank <= size <= 16:
        lines.fail("the size is not from the rank to 16")
    taken += read_options(lines, orders)
    take("print (forms|counts)", "a line of the head in its place")
    sifts = read_sifts(lines) if kind == "sifted" else []
    level = None
    if kind == "level":
        if taken[-1] == "print counts" or any(line.startswith("filter ") for line in taken):
            lines.fail("a level text prints forms and has no filter")
        level = int(lines.next_like(f"level {NUMBER}", "a line 'level' with the size of the forms").group(1))
        if not rank <= level <= size:
            lines.fail("the size of the forms is not from the rank to the size")
    return Head(kind, tuple(taken), version, tuple(map(int, fields)), rank, size, tuple(sifts), level)


def read_options(lines: Lines, orders: list[str]) -> list[str]:
    """The lines of the head that a request may lack."""
    wanted: list[Callable[[str], bool]] = ["equivalence semilinear".__eq__]
    wanted += [lambda line: names_minor(line, "forbid ", orders)] * 8
    wanted += [each.__eq__ for each in FILTERS]
    wanted += [lambda line: names_minor(line, "filter has ", orders)]
    return [line for line in map(lines.next_if, wanted) if line is not None]


def read_sifts(lines: Lines) -> list[str]:
    """The words of the tests of a sifted text, one or more."""
    sifts = []
    while (line := lines.next_if(lambda line: line.startswith("sift "))) is not None:
        sifts.append(line[len("sift ") :])
        if not is_test(sifts[-1]):
            lines.fail("this is not a line 'sift' with a test")
    if not sifts:
        lines.next_like("sift .*", "a line 'sift', which a sifted text has after its head")
    return sifts


def is_test(words: str) -> bool:
    """Whether words are a test of a sifted text."""
    orders = ORDERS_OF_VERSION[2]
    kind, _, rest = words.partition(" ")
    if kind in ("over", "not", "excluded"):
        return is_field(rest.split(" x "), orders)
    return words in ("connected", "3conn", "cosimple") or any(names_minor(words, start, orders) for start in ("has ", "no "))


def is_field(words: list[str], orders: list[str]) -> bool:
    """Whether words are one to three of these orders."""
    return len(words) <= 3 and set(words) <= set(orders)


def names_minor(line: str, start: str, orders: list[str]) -> bool:
    """Whether a line has a start and goes on with the name of a matroid of up to 10 elements, or with a matrix."""
    name = line[len(start) :]
    uniform = re.fullmatch(f"U{NUMBER},{NUMBER}", name)
    if not line.startswith(start):
        return False
    if uniform:
        rank, size = (int(number) for number in uniform.groups())
        return rank <= size and 1 <= size <= 10
    return name in NAMES or is_matrix(name.split(" "), orders)


def is_matrix(words: list[str], orders: list[str]) -> bool:
    """Whether words are `matrix`, an order, and one to ten columns of codes below it, with one to six rows."""
    if words[0] != "matrix" or not 3 <= len(words) <= 12 or words[1] not in orders:
        return False
    try:
        heights = {len(column_of(each, int(words[1]))) for each in words[2:]}
    except ValueError:
        return False
    return len(heights) == 1 and heights <= set(range(1, 7))
