"""Small matroids by their bases, each a bit mask of elements: what the other modules ask of one, and no more.

Bit e of a mask stands for element e, numbered from 0. What a matroid has in common with its isomorphic copies is
`Matroid.invariant`; macek.isomorphism compares two.
"""

from __future__ import annotations

from collections.abc import Iterable, Iterator, Sequence
from dataclasses import dataclass
from functools import cache, cached_property
from itertools import combinations

from macek.fields import Field, Matrix, field


@dataclass(frozen=True)
class Matroid:
    """A matroid on the elements 0 to size - 1, by its rank and its bases, which nothing checks to be those of a matroid."""

    rank: int
    size: int
    bases: frozenset[int]

    @property
    def ground(self) -> int:
        """The mask of all elements."""
        return (1 << self.size) - 1

    def dual(self) -> Matroid:
        """The matroid whose bases are the complements of the bases."""
        return Matroid(self.size - self.rank, self.size, frozenset(self.ground & ~basis for basis in self.bases))

    def delete(self, element: int) -> Matroid:
        """The matroid without an element; the later elements move down by one. ValueError where there is none such."""
        self._check(element)
        kept = [basis for basis in self.bases if not basis >> element & 1]
        if not kept:
            return self.contract(element)
        return Matroid(self.rank, self.size - 1, frozenset(_without(basis, element) for basis in kept))

    def contract(self, element: int) -> Matroid:
        """The matroid that is left of contracting an element; the later elements move down by one. ValueError as above."""
        self._check(element)
        kept = [basis for basis in self.bases if basis >> element & 1]
        if not kept:
            return self.delete(element)
        return Matroid(self.rank - 1, self.size - 1, frozenset(_without(basis, element) for basis in kept))

    def minors_by_one(self) -> Iterator[Matroid]:
        """For each element in turn, the matroid without it and the one that is left of contracting it."""
        for element in range(self.size):
            yield self.delete(element)
            yield self.contract(element)

    def circuit_hyperplanes(self) -> list[int]:
        """The masks of the circuits that are hyperplanes, in rising order."""
        return [mask for mask in masks(self.size, self.rank) if mask not in self.bases and self._is_circuit_hyperplane(mask)]

    def relax(self, mask: int) -> Matroid:
        """The matroid with a circuit-hyperplane as one more basis; ValueError where the mask is none."""
        if mask.bit_length() > self.size or bin(mask).count("1") != self.rank or mask in self.bases:
            raise ValueError(f"{mask:#b} is no circuit-hyperplane")
        if not self._is_circuit_hyperplane(mask):
            raise ValueError(f"{mask:#b} is no circuit-hyperplane")
        return Matroid(self.rank, self.size, self.bases | {mask})

    def lines(self) -> dict[int, int]:
        """How many lines of three points and more a matroid of rank 3 has, by their number of elements.

        The matroid has to be simple. ValueError for another rank.
        """
        if self.rank != 3:
            raise ValueError(f"lines are counted in rank 3, not in rank {self.rank}")
        found = {
            sum(1 << other for other in range(self.size) if self._are_collinear(*pair, other))
            for pair in combinations(range(self.size), 2)
        }
        lengths = sorted(bin(line).count("1") for line in found)
        return {length: lengths.count(length) for length in lengths if length > 2}

    @cached_property
    def shares(self) -> tuple[tuple[int, ...], ...]:
        """How many bases two elements share, at [one][other]; an element with itself has the number of its bases."""
        holders = _holders(self.rank, self.size)
        return tuple(tuple(_weight(self._indices & one & other) for other in holders) for one in holders)

    @cached_property
    def kinds(self) -> tuple[tuple[int, ...], ...]:
        """For each element the counts of bases that it has alone, with one other element and with two, each sorted.

        An isomorphism takes an element to one of the same kind.
        """
        holders = _holders(self.rank, self.size)
        triples: list[list[int]] = [[] for _ in range(self.size)]
        for one, other in combinations(range(self.size), 2):
            both = self._indices & holders[one] & holders[other]
            for third in range(other + 1, self.size):
                count = _weight(both & holders[third])
                for element in (one, other, third):
                    triples[element].append(count)
        return tuple(
            (self.shares[element][element], *sorted(self.shares[element]), *sorted(triples[element]))
            for element in range(self.size)
        )

    @cached_property
    def invariant(self) -> tuple[object, ...]:
        """What isomorphic matroids have in common, and most others don't."""
        return self.rank, self.size, len(self.bases), tuple(sorted(self.kinds))

    @cached_property
    def _indices(self) -> int:
        """A mask over all sets of as many elements as the rank: which of them are bases."""
        return sum(1 << index for index, mask in enumerate(masks(self.size, self.rank)) if mask in self.bases)

    def _are_collinear(self, one: int, other: int, third: int) -> bool:
        return third in (one, other) or 1 << one | 1 << other | 1 << third not in self.bases

    def _is_circuit_hyperplane(self, mask: int) -> bool:
        """Whether a set of rank elements that is no basis becomes one by any exchange of one element for one outside it."""
        inside = [1 << element for element in range(self.size) if mask >> element & 1]
        outside = [1 << element for element in range(self.size) if not mask >> element & 1]
        return all(mask ^ leaving | coming in self.bases for leaving in inside for coming in outside)

    def _check(self, element: int) -> None:
        if not 0 <= element < self.size:
            raise ValueError(f"{element} is no element of a matroid of {self.size}")


def of_matrix(order: int, columns: Matrix) -> Matroid:
    """The matroid of a matrix over GF(order), by its columns; ValueError where its rows are dependent or it has no entry."""
    if not columns or not columns[0]:
        raise ValueError("a matrix has columns, and they have entries")
    over = field(order)
    found = frozenset(_bases_from(over, [(1 << number, column) for number, column in enumerate(columns)], 0))
    if not found:
        raise ValueError("the rows of the matrix are dependent")
    return Matroid(len(columns[0]), len(columns), found)


def of_lines(size: int, lines: Iterable[str]) -> Matroid:
    """The matroid of rank 3 on some points, of which those of each line are collinear and no other three.

    A line is spelled by its points, numbered as letters from a on. ValueError where two lines share two points.
    """
    points = [sum(1 << ord(letter) - ord("a") for letter in line) for line in lines]
    if any(_weight(one & other) > 1 for one, other in combinations(points, 2)):
        raise ValueError("two lines share two points")
    return Matroid(3, size, frozenset(mask for mask in masks(size, 3) if not any(mask & line == mask for line in points)))


def of_graph(edges: Sequence[tuple[int, int]]) -> Matroid:
    """The cycle matroid of a connected graph, by its edges; its vertices are numbered from 0. ValueError for another graph."""
    vertices = sorted({vertex for edge in edges for vertex in edge})
    columns = tuple(tuple(int(vertex in edge) for vertex in vertices[1:]) for edge in edges)
    return of_matrix(2, columns)


def uniform(rank: int, size: int) -> Matroid:
    """The matroid on some elements whose bases are all sets of as many elements as the rank."""
    return Matroid(rank, size, frozenset(masks(size, rank)))


@cache
def masks(size: int, weight: int) -> tuple[int, ...]:
    """The masks of so many elements out of size, in rising order."""
    return tuple(sorted(sum(1 << element for element in chosen) for chosen in combinations(range(size), weight)))


@cache
def _holders(rank: int, size: int) -> tuple[int, ...]:
    """For each element which of the sets of as many elements as the rank it is in, as a mask over these sets."""
    chosen = masks(size, rank)
    return tuple(sum(1 << index for index, mask in enumerate(chosen) if mask >> element & 1) for element in range(size))


def _weight(mask: int) -> int:
    return bin(mask).count("1")


def _without(mask: int, element: int) -> int:
    """A mask without the bit of an element, the later bits moved down by one."""
    below = (1 << element) - 1
    return mask & below | mask >> 1 & ~below


def _bases_from(over: Field, columns: list[tuple[int, tuple[int, ...]]], chosen: int) -> Iterator[int]:
    """The bases that have the chosen elements, and else only elements of these columns.

    The columns, each with the bit of its element, are reduced by those of the chosen elements: the rows of their pivots are
    left out. So one walk over the independent sets finds all bases.
    """
    rows = len(columns[0][1]) if columns else 0
    if rows <= 2:
        yield from _bases_of_few_rows(over, columns, chosen)
        return
    for place, (bit, pivot) in enumerate(columns[: 1 - rows]):
        row = next((row for row, entry in enumerate(pivot) if entry), None)
        if row is not None:
            yield from _bases_from(over, _reduced(over, pivot, row, columns[place + 1 :]), chosen | bit)


def _bases_of_few_rows(over: Field, columns: list[tuple[int, tuple[int, ...]]], chosen: int) -> Iterator[int]:
    """The same for columns of one or two entries: two of them are a basis where they stand for different points."""
    if columns and len(columns[0][1]) == 1:
        yield from (chosen | bit for bit, column in columns if column[0])
        return
    slopes = _slopes(over)
    points = [(chosen | bit, slopes[column[0]][column[1]]) for bit, column in columns if any(column)]
    for (mask, slope), (other_mask, other_slope) in combinations(points, 2):
        if slope != other_slope:
            yield mask | other_mask


@cache
def _slopes(over: Field) -> tuple[tuple[int, ...], ...]:
    """A number at [one][other] that columns (one, other) but (0, 0) share where they are multiples of each other."""
    quotients = [over.products[over.inverse(one)] for one in range(1, over.order)]
    return ((over.order,) * over.order, *quotients)


def _reduced(
    over: Field, pivot: tuple[int, ...], row: int, columns: list[tuple[int, tuple[int, ...]]]
) -> list[tuple[int, tuple[int, ...]]]:
    """The columns less the multiple of the pivot that has the same entry in a row, without this row."""
    rest = pivot[:row] + pivot[row + 1 :]
    scale = over.negative(over.inverse(pivot[row]))
    multiples = []
    for entry in range(over.order):
        products = over.products[over.products[entry][scale]]
        multiples.append([over.sums[products[other]] for other in rest])
    return [
        (bit, tuple([sums[other] for sums, other in zip(multiples[column[row]], column[:row] + column[row + 1 :])]))
        for bit, column in columns
    ]
