"""Names of well-known matroids, found by their bases up to relabelling.

The names and the matrices are those of the appendix of J. Oxley, Matroid Theory, second edition, Oxford University Press 2011.
A dual has a star: F7*, (F7-)*, M*(K5). W^r is the whirl of rank r, M(Wr) the cycle matroid of the wheel with r spokes, \\e means
that any one element is deleted, ' and '' mean one and two circuit-hyperplanes that are relaxed, and Q3(GF(3)*) is the ternary
Dowling geometry of rank 3. Of two names of one matroid the table has one: M(K4) for M(W3), U2,4 for W^2, F7 for PG(2,2).
"""

from __future__ import annotations

from collections.abc import Iterator
from functools import cache
from itertools import combinations, product
from math import comb

from macek.fields import Matrix, column_of
from macek.isomorphism import Table
from macek.listings import Representation
from macek.matroids import Matroid, of_graph, of_lines, of_matrix

# The greatest rank and the greatest size that a form has.
MOST_RANK = 6
MOST_SIZE = 16

# By matrices [I | D]: the order of the field, then the columns of D.
MATRICES = {
    "F7": (2, "011 101 110 111"),
    "F7-": (3, "011 101 110 111"),
    "P7": (3, "112 011 101 110"),
    "O7": (3, "101 110 121 120"),
    "S8": (2, "0111 1011 1101 1111"),
    "AG(3,2)": (2, "0111 1011 1101 1110"),
    "J": (3, "0111 1100 1010 1001"),
    "T8": (3, "0111 1011 1101 1110"),
    "R8": (3, "2111 1211 1121 1112"),
    "P8": (3, "0112 1011 1101 2110"),
    "Q3(GF(3)*)": (3, "012 011 102 101 120 110"),
    "R10": (2, "11001 11100 01110 00111 10011"),
    "R12": (2, "111000 110100 100010 010001 001011 000111"),
}

# By pictures: the number of points, and the lines of three points and more. No other three points are collinear.
LINES = {
    "P6": (6, "abc"),
    "Q6": (6, "abc cde"),
    "R6": (6, "abc def"),
    "Pappus": (9, "abc def bfg ceg afh cdh aei bdi ghi"),
    "Betsy Ross": (11, "acfg bdgh cehi befj adij dfk egk ahk bik cjk"),
}


def name_of(form: Representation) -> str | None:
    """The name of the matroid of a representation where the table has one, else None."""
    return name_of_matroid(of_matrix(form.orders[0], form.factors[0]))


def name_of_matroid(matroid: Matroid) -> str | None:
    """The name of a matroid where it is uniform or the table has it, else None; the table has ranks up to 6, sizes up to 16."""
    if matroid.bases and len(matroid.bases) == comb(matroid.size, matroid.rank):
        return f"U{matroid.rank},{matroid.size}"
    return _table().find(matroid)


@cache
def named() -> dict[str, Matroid]:
    """The matroids of the table by their names: ranks 2 to 6 and up to 16 elements, none of them uniform."""
    found: dict[str, Matroid] = {}
    for name, matroid in _with_duals(_undualised()):
        if matroid.rank <= MOST_RANK and matroid.size <= MOST_SIZE:
            found[name] = matroid
    return found


@cache
def _table() -> Table[str]:
    return Table((matroid, name) for name, matroid in named().items())


def _undualised() -> Iterator[tuple[str, Matroid]]:
    """The matroids from which the others of the table come as duals."""
    for name, (order, words) in MATRICES.items():
        yield name, of_matrix(order, _with_units(tuple(column_of(word, order) for word in words.split())))
    for name, (size, lines) in LINES.items():
        yield name, of_lines(size, lines.split())
    yield from _relaxed()
    yield from _geometries()
    yield "M(K4)", of_graph(list(combinations(range(4), 2)))
    yield "M(K5)", of_graph(list(combinations(range(5), 2)))
    yield "M(K3,3)", of_graph(list(product(range(3), range(3, 6))))
    for spokes in range(3, MOST_RANK + 1):
        wheel, rim = _wheel(spokes)
        if spokes > 3:
            yield f"M(W{spokes})", wheel
        yield f"W^{spokes}", wheel.relax(rim)


def _relaxed() -> Iterator[tuple[str, Matroid]]:
    """AG(3,2)', with a plane of AG(3,2) relaxed, and P8'', with the two circuit-hyperplanes of P8 that are disjoint."""
    affine = of_matrix(2, _affine(3, 2))
    yield "AG(3,2)'", affine.relax(affine.circuit_hyperplanes()[0])
    order, words = MATRICES["P8"]
    plain = of_matrix(order, _with_units(tuple(column_of(word, order) for word in words.split())))
    planes = plain.circuit_hyperplanes()
    [(one, other)] = [pair for pair in combinations(planes, 2) if not pair[0] & pair[1]]
    yield "P8''", plain.relax(one).relax(other)


def _geometries() -> Iterator[tuple[str, Matroid]]:
    """Projective and affine geometries, and what is left of the ternary ones: AG(2,3)\\e and R9.

    R9, the ternary Reid geometry, is the third simple ternary matroid of rank 3 with nine points besides AG(2,3) and
    Q3(GF(3)*): the projective plane without three points of a line and one point that isn't on it.
    """
    plane = of_matrix(3, _projective(2, 3))
    affine = of_matrix(3, _affine(2, 3))
    yield "PG(2,3)", plane
    yield "PG(3,2)", of_matrix(2, _projective(3, 2))
    yield "AG(2,3)", affine
    yield "AG(2,3)\\e", affine.delete(0)
    yield "AG(2,4)", of_matrix(4, _affine(2, 4))
    yield "AG(4,2)", of_matrix(2, _affine(4, 2))
    left_out = {(0, 0, 1), (0, 1, 0), (0, 1, 1), (1, 0, 0)}
    yield "R9", of_matrix(3, tuple(column for column in _projective(2, 3) if column not in left_out))


def _with_duals(matroids: Iterator[tuple[str, Matroid]]) -> Iterator[tuple[str, Matroid]]:
    """Matroids with their names, each followed by its dual where that is another one."""
    for name, matroid in matroids:
        yield name, matroid
        dual = matroid.dual()
        if dual.rank <= MOST_RANK and Table([(matroid, name)]).find(dual) is None:
            yield _dual_name(name), dual


def _dual_name(name: str) -> str:
    """The name of the dual: M*(K5), (F7-)*, F7*."""
    if name.startswith("M("):
        return "M*" + name[1:]
    return f"{name}*" if name.isalnum() else f"({name})*"


def _with_units(columns: Matrix) -> Matrix:
    """The unit columns and then these."""
    rows = len(columns[0])
    return tuple(tuple(int(row == column) for row in range(rows)) for column in range(rows)) + columns


def _projective(dimension: int, order: int) -> Matrix:
    """The points of PG(dimension, order): the columns whose first entry that isn't 0 is 1, in order."""
    columns = product(range(order), repeat=dimension + 1)
    return tuple(column for column in columns if next((entry for entry in column if entry), 0) == 1)


def _affine(dimension: int, order: int) -> Matrix:
    """The points of AG(dimension, order): the columns whose first entry is 1."""
    return tuple((1, *rest) for rest in product(range(order), repeat=dimension))


def _wheel(spokes: int) -> tuple[Matroid, int]:
    """The cycle matroid of a wheel, the hub its vertex 0, and the mask of its rim."""
    vertices = range(1, spokes + 1)
    edges = [(0, vertex) for vertex in vertices] + [(vertex, vertex % spokes + 1) for vertex in vertices]
    return of_graph(edges), (1 << spokes) - 1 << spokes
