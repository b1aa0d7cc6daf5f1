"""Run by test_sage.py in SageMath's Python: in_sage.py TEXT.py ..

Loads each text of to_sage as a user does, and writes one JSON object: for each listing and form its line as it comes back from
the matroids of the text, from the matrices, from the package's own matroids, by the function that tools/from_sage.py loads, and
from matrices over other fields that SageMath makes by itself; and the bases of each matroid. A matrix is saved beside the first
text.
"""

import json
import sys
from pathlib import Path

from sage.all import GF, QQ, ZZ, Matrix, Matroid, PolynomialRing, Zmod, matroids, save
from sage.repl.load import load

import support
from macek.fields import field
from macek.sage import elements, macek_line


LOADED = {}
load(str(support.TOP / "tools" / "from_sage.py"), LOADED)


def moved(matrix):
    """A matrix over the field that SageMath makes if it isn't told a modulus, moved there by the last root of ours."""
    order = int(matrix.base_ring().cardinality())
    other = GF(order, "z")
    if field(order).degree == 1:
        return matrix.change_ring(other)
    root = PolynomialRing(other, "x")(list(field(order).modulus)).roots(multiplicities=False)[-1]
    images = {
        element: sum((value * root**power for power, value in enumerate(field(order).coefficients(code))), other.zero())
        for code, element in enumerate(elements(order))
    }
    return Matrix(other, [[images[entry] for entry in row] for row in matrix.rows()])


def told(form, listed):
    """What one form gives."""
    matroids, matrices = listed[form.size, form.number], listed.matrices(form.size, form.number)
    return {
        "matroids": macek_line(*matroids),
        "matrices": macek_line(*matrices),
        "own": macek_line(*form.matroids),
        "loaded": LOADED["macek_line"](*matrices),
        "moved": macek_line(*map(moved, matrices)),
        "bases": [sorted(sorted(map(int, basis)) for basis in matroid.bases()) for matroid in matroids],
        "is kept": listed[form.size, form.number] is matroids,
    }


def refusal(*matrices):
    """Why matrices have no line."""
    try:
        return macek_line(*matrices)
    except ValueError as fault:
        return f"refused: {fault}"


def refusals():
    """Why seven lists of matrices have no line for their shapes, and five for what their entries are from."""
    one, two = Matrix(GF(2), [[1, 0]]), Matrix(GF(2), [[1], [0]])
    wrong = [[], [one] * 4, [one, two], [Matrix(GF(2), 0, 3)], [5], [matroids.Uniform(2, 4)], [Matroid("abc", ["ab"])]]
    wrong += [[Matrix(ring, [[1, 0]])] for ring in (ZZ, QQ, Zmod(4), GF(16, "z"), GF(17))]
    return [refusal(*each) for each in wrong]


def main():
    names = {}
    for file in sys.argv[1:]:
        load(file, names)
    root = GF(9, "a").gen()
    save(Matrix([[1, 0, root**0], [0, 1, root]]), str(Path(sys.argv[1]).with_name("matrix.sobj")))
    listings = support.examples_with_forms()
    found = {}
    for name, listed in names["listed"].items():
        found[name] = {form.text(): told(form, listed) for form in listings[name].forms}
    moduli = {order: str(GF(order, "z").modulus()) for order in (4, 8, 9)}
    json.dump({"listings": found, "moduli": moduli, "refused": refusals()}, sys.stdout)


main()
