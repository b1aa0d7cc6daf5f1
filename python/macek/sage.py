"""Forms in SageMath, and matrices of SageMath in the words of Macek.

All but `lines_of` needs SageMath's Python when it is called, and raises ImportError in another.
"""

from __future__ import annotations

import inspect
from collections.abc import Iterable, Iterator, Mapping, Sequence
from functools import cache
from typing import Any

from macek.fields import Column, Matrix, field
from macek.listings import Form, Head, Representation
from macek.scripts import opening_lines


# The next two are written into the text of to_sage too, so they stand on nothing of this package.
def elements_of(order: int, characteristic: int, modulus: Sequence[int]) -> list[Any]:
    """The elements of a field in SageMath by their codes; the coefficients of the modulus are given lowest first."""
    from sage.all import GF, PolynomialRing

    if order == characteristic:
        return [GF(order)(code) for code in range(order)]
    polynomial = PolynomialRing(GF(characteristic), "x")(list(modulus))
    root = GF(order, name=f"x{order}", modulus=polynomial).gen()
    if polynomial(root) != 0:
        raise ValueError(f"this SageMath took another modulus than {polynomial}")
    places = [(characteristic**power, root**power) for power in range(len(modulus) - 1)]
    return [sum(code // unit % characteristic * value for unit, value in places) for code in range(order)]


class Listed(Mapping):  # type: ignore[type-arg]
    """The matroids of a listing by the size and the number of their form: a list with one for each field.

    `matrices` gives the matrices that they come from. Each is made when it is first asked for.
    """

    def __init__(self, fields: Sequence[Sequence[Any]], forms: dict[tuple[int, int], str]) -> None:
        self.elements = [elements_of(*each) for each in fields]
        self.forms = forms
        self._made: dict[tuple[int, int], list[Any]] = {}

    def matrices(self, size: int, number: int) -> list[Any]:
        """The matrices of a form, one for each field."""
        from sage.all import Matrix

        found = []
        for elements, text in zip(self.elements, self.forms[size, number].split(" | ")):
            columns = [[elements["0123456789abc".index(letter)] for letter in word] for word in text.split(" ")]
            found.append(Matrix(elements[0].parent(), list(zip(*columns))))
        return found

    def __getitem__(self, place: tuple[int, int]) -> list[Any]:
        from sage.all import Matroid

        if place not in self._made:
            self._made[place] = [Matroid(matrix=each) for each in self.matrices(*place)]
        return self._made[place]

    def __iter__(self) -> Iterator[tuple[int, int]]:
        return iter(self.forms)

    def __len__(self) -> int:
        return len(self.forms)

    def __repr__(self) -> str:
        return f"the matroids of {len(self)} forms by size and number"


def field_words(order: int) -> tuple[int, int, tuple[int, ...]]:
    """What `elements_of` takes for the field of an order."""
    over = field(order)
    return order, over.characteristic, over.modulus


@cache
def elements(order: int) -> tuple[Any, ...]:
    """The elements of GF(order) in SageMath, with the modulus of Macek, by their codes."""
    return tuple(elements_of(*field_words(order)))


def matrix_of(columns: Matrix, order: int) -> Any:
    """SageMath's matrix over GF(order) with these columns of codes."""
    from sage.all import Matrix as make

    values = elements(order)
    return make(values[0].parent(), [[values[code] for code in row] for row in zip(*columns)])


def matroid_of(columns: Matrix, order: int) -> Any:
    """SageMath's matroid of the matrix over GF(order) with these columns of codes."""
    from sage.all import Matroid

    return Matroid(matrix=matrix_of(columns, order))


@cache
def codes_of(over: Any) -> dict[Any, int]:
    """The code of each element of a finite field of SageMath, whatever its modulus.

    The codes follow a root of Macek's modulus: the generator where it is one, so that a field made here gives its codes back,
    else the first in SageMath's order. ValueError where it is no field, or one of an order that no listing has.
    """
    if not (over.is_field() and over.is_finite()):
        raise ValueError(f"{over} is no finite field")
    ours = field(int(over.cardinality()))
    if ours.degree == 1:
        return {over(code): code for code in range(ours.order)}
    root = next(each for each in (over.gen(), *over) if not value_at(ours.modulus, each))
    return {value_at(ours.coefficients(code), root) + over.zero(): code for code in range(ours.order)}


def value_at(coefficients: Iterable[int], element: Any) -> Any:
    """The value of a polynomial, its coefficients given lowest first, at an element of a field."""
    return sum(value * element**power for power, value in enumerate(coefficients))


def representation_of(*matrices: Any) -> Representation:
    """Matrices of SageMath over one to three finite fields as a representation: all with one shape, and the same bases.

    A matroid of SageMath that has a matrix is taken for that matrix. That the bases are the same isn't looked at; ValueError
    says what else is wrong.
    """
    found = [each.representation() if hasattr(each, "representation") else each for each in matrices]
    shapes = {each.dimensions() if hasattr(each, "dimensions") else () for each in found}
    if not 1 <= len(found) <= 3 or len(shapes) != 1 or not all(min(shape, default=0) > 0 for shape in shapes):
        raise ValueError("these are not one to three matrices of one shape, with rows and columns")
    factors = tuple(columns_of(each) for each in found)
    return Representation(tuple(int(each.base_ring().cardinality()) for each in found), factors)


def columns_of(matrix: Any) -> tuple[Column, ...]:
    """The columns of a matrix of SageMath as codes."""
    codes = codes_of(matrix.base_ring())
    return tuple(tuple(codes[entry] for entry in column) for column in matrix.columns())


def macek_line(*matrices: Any) -> str:
    """One matrix of SageMath, or several over the factors of a product, spelled as a line of a listing spells a form."""
    return representation_of(*matrices).text()


def lines_of(name: str, head: Head, forms: Iterable[Form]) -> Iterator[str]:
    """The lines of the Python text that gives SageMath the matroids of these forms, as `listed[name]`."""
    yield from (f"# {line}" for line in opening_lines(head, "to_sage", "SageMath"))
    yield f"# listed[{name!r}][size, number] is a list of matroids, one for each field, and"
    yield f"# listed[{name!r}].matrices(size, number) a list of their matrices; forms are numbered from 1 in each size."
    yield "from __future__ import annotations"
    yield "from collections.abc import Iterator, Mapping, Sequence"
    yield "from typing import Any"
    yield ""
    yield from inspect.getsource(elements_of).splitlines()
    yield ""
    yield from inspect.getsource(Listed).splitlines()
    yield ""
    yield "listed = globals().get('listed', {})"
    yield f"listed[{name!r}] = Listed({[field_words(order) for order in head.orders]}, {{"
    yield from (f"({form.size}, {form.number}): {form.text()!r}," for form in forms)
    yield "})"
