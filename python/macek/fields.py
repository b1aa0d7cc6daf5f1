"""The fields of a listing, from their moduli and not from tables that were typed in.

The codes of GF(q), q = p^k, are the numbers below q. The digits of a code in base p, lowest first, are the coefficients of a
polynomial of degree below k over the integers modulo p. Products are reduced by the modulus of the field; docs/FORMATS.md has
the rule in words. For k = 1 the codes are residues.
"""

from __future__ import annotations

from collections.abc import Callable, Iterable, Sequence
from dataclasses import dataclass
from functools import cache, cached_property
from itertools import combinations
from typing import SupportsIndex

# A letter for each code of the largest field.
LETTERS = "0123456789abc"

# The coefficients of the moduli, lowest first: x^2 + x + 1, x^3 + x + 1 and x^2 + 1.
MODULI = {4: (2, (1, 1, 1)), 8: (2, (1, 1, 0, 1)), 9: (3, (1, 0, 1))}
PRIMES = (2, 3, 5, 7, 11, 13)
# Each order that a field may have.
ORDERS = (2, 3, 4, 5, 7, 8, 9, 11, 13)

# A column is a tuple of codes from the top row down; a matrix is a tuple of columns.
Column = tuple[int, ...]
Matrix = tuple[Column, ...]


@dataclass(frozen=True)
class Field:
    """GF(order), with its characteristic and the coefficients of its modulus (of degree 1 where the order is a prime)."""

    order: int
    characteristic: int
    modulus: tuple[int, ...]

    @property
    def degree(self) -> int:
        """The degree over the field of prime order."""
        return len(self.modulus) - 1

    @cached_property
    def sums(self) -> tuple[tuple[int, ...], ...]:
        """The sum of two codes at [one][other]."""
        return self._table(self._sum)

    @cached_property
    def products(self) -> tuple[tuple[int, ...], ...]:
        """The product of two codes at [one][other]."""
        return self._table(self._product)

    def coefficients(self, code: int) -> list[int]:
        """The coefficients of the polynomial of a code, lowest first."""
        return [code // self.characteristic**power % self.characteristic for power in range(self.degree)]

    def code(self, coefficients: Iterable[int]) -> int:
        """The code of a polynomial of degree below that of the modulus."""
        return sum(value % self.characteristic * self.characteristic**power for power, value in enumerate(coefficients))

    def add(self, left: int, right: int) -> int:
        """The sum of two elements."""
        return self.sums[left][right]

    def negative(self, element: int) -> int:
        """The element whose sum with an element is 0."""
        return self.sums[element].index(0)

    def multiply(self, left: int, right: int) -> int:
        """The product of two elements."""
        return self.products[left][right]

    def inverse(self, element: int) -> int:
        """The element whose product with a nonzero element is 1; ValueError for 0."""
        return self.products[element].index(1)

    def _table(self, operation: Callable[[int, int], int]) -> tuple[tuple[int, ...], ...]:
        return tuple(tuple(operation(one, other) for other in range(self.order)) for one in range(self.order))

    def _sum(self, left: int, right: int) -> int:
        pairs = zip(self.coefficients(left), self.coefficients(right))
        return self.code(one + other for one, other in pairs)

    def _product(self, left: int, right: int) -> int:
        product = [0] * (2 * self.degree - 1)
        for power, value in enumerate(self.coefficients(left)):
            for shift, other in enumerate(self.coefficients(right)):
                product[power + shift] += value * other
        return self.code(self._reduced(product))

    def _reduced(self, polynomial: Sequence[int]) -> list[int]:
        """The remainder of a polynomial modulo the modulus, whose top coefficient is 1."""
        rest = list(polynomial)
        while len(rest) > self.degree:
            top = rest.pop()
            for power in range(self.degree):
                rest[len(rest) - self.degree + power] -= top * self.modulus[power]
        return rest


@cache
def field(order: int) -> Field:
    """The field of an order that a listing may have; ValueError for any other number."""
    if order in PRIMES:
        return Field(order, order, (0, 1))
    if order in MODULI:
        return Field(order, *MODULI[order])
    raise ValueError(f"{order} is none of the orders {', '.join(map(str, ORDERS))}")


def word(column: Iterable[SupportsIndex]) -> str:
    """A column as it is spelled: a letter for each code, from the top row down."""
    return "".join(LETTERS[code] for code in column)


def column_of(text: str, order: int) -> Column:
    """The column that a word of codes below an order spells; ValueError for another word."""
    codes = tuple(LETTERS.find(letter) for letter in text)
    if not codes or min(codes) < 0 or max(codes) >= order:
        raise ValueError(f"'{text}' is no column of codes of GF({order})")
    return codes


def is_independent(over: Field, columns: Iterable[Sequence[int]]) -> bool:
    """Whether columns of codes are independent over a field, by elimination."""
    rest = [list(column) for column in columns]
    while rest:
        pivot = rest.pop()
        row = next((row for row, entry in enumerate(pivot) if entry != 0), None)
        if row is None:
            return False
        scale = over.inverse(pivot[row])
        for column in rest:
            factor = over.negative(over.multiply(column[row], scale))
            for place, entry in enumerate(pivot):
                column[place] = over.add(column[place], over.multiply(factor, entry))
    return True


@cache
def bases(over: Field, columns: Matrix) -> frozenset[tuple[int, ...]]:
    """The bases of the columns, tuples of codes, of a matrix of full row rank, as a set of sorted tuples of column numbers."""
    numbers = combinations(range(len(columns)), len(columns[0]))
    return frozenset(chosen for chosen in numbers if is_independent(over, [columns[number] for number in chosen]))
