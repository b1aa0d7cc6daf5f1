"""What one text of forms has and another lacks, up to isomorphism of the matroids."""

from __future__ import annotations

from collections.abc import Iterable, Iterator, Mapping, Sequence

from macek.fields import word
from macek.isomorphism import Table
from macek.listings import Form, Representation
from macek.matroids import Matroid, of_matrix

# The orders of fields that a request of version 1 doesn't know.
LATER_ORDERS = (11, 13)


def matroid_of(given: Representation) -> Matroid:
    """The matroid of a representation, by the factor of least order."""
    factor = min(range(len(given.orders)), key=given.orders.__getitem__)
    return of_matrix(given.orders[factor], given.factors[factor])


def missing(wide: Iterable[Form], narrow: Iterable[Form]) -> list[Form]:
    """The forms of the one whose matroid no form of the other has, without those isomorphic to one that is written already."""
    known = Table((matroid_of(form), form) for form in narrow)
    found: list[Form] = []
    for form in wide:
        matroid = matroid_of(form)
        if known.find(matroid) is None:
            known.add(matroid, form)
            found.append(form)
    return found


def first_missing(wide: Mapping[int, Sequence[Form]], narrow: Mapping[int, Sequence[Form]]) -> list[Form]:
    """The missing forms of the first size that has any, or none.

    Each text is given by its forms of each size of which it has all. A size that one of them lacks is left out.
    """
    for size in sorted(wide.keys() & narrow.keys()):
        found = missing(wide[size], narrow[size])
        if found:
            return found
    return []


def request_lines(form: Form) -> Iterator[str]:
    """A comment and the line that forbids the matroid of a form; a matroid too big to be forbidden is a comment too.

    Of a product the first matrix over a field of version 1 is taken. Where there is none, the comment says that the line needs
    the line `version 2`.
    """
    factors = list(zip(form.orders, form.factors))
    order, columns = next((pair for pair in factors if pair[0] not in LATER_ORDERS), factors[0])
    note = ", needs `version 2` as the first line" if order in LATER_ORDERS else ""
    yield f"# size {form.size}, form {form.number}{note}"
    sign = "" if form.size <= 10 else "# too big: "
    yield f"{sign}forbid matrix {order} {' '.join(map(word, columns))}"
