"""Writes the texts of requests. docs/FORMATS.md has the format; what a request may ask for is refused or not by the programs."""

from __future__ import annotations

from collections.abc import Iterable, Sequence
from operator import index
from typing import SupportsIndex, Union

from macek.fields import ORDERS, column_of, word
from macek.listings import FILTERS, ORDERS_OF_VERSION, Representation, names_minor

# The columns of a matrix over the field of an order: words as in a listing, or codes.
Columns = Sequence[Union[str, Sequence[SupportsIndex]]]
# One to three fields: an order, orders, or words such as "4 x 5". Integers of SageMath will do.
Fields = Union[SupportsIndex, str, Iterable[SupportsIndex]]
# What may be forbidden: a name or the words `matrix Q C1 .. Cn`, an order with columns, or a representation, of which the first
# matrix counts.
Minor = Union[str, tuple[SupportsIndex, Columns], Representation]


def request(
    *,
    rank: SupportsIndex,
    field: Fields,
    size: SupportsIndex,
    forbid: Iterable[Minor] = (),
    filters: Iterable[str] = (),
    has: Minor | None = None,
    equivalence: str = "linear",
    version: int | None = None,
    counts: bool = False,
) -> str:
    """The text of a request, as the head of its listing repeats it.

    field is an order, orders, or words such as "4 x 5". filters are some of "connected", "3conn", "cosimple" and "distinct".
    A minor, in forbid or in has, is a name such as "F7-", the words "matrix 3 100 010 001", an order with columns, or a form.
    equivalence is "linear" or "semilinear". Version 2 is taken where GF(11) or GF(13) asks for it. ValueError says what has no
    place in a request; limits, as those of rank and size, are left to the programs.
    """
    minors = [minor_words(each) for each in forbid]
    wanted = [] if has is None else [minor_words(has)]
    orders = orders_of(field)
    if version is None:
        version = 2 if needs_version_2(orders, minors + wanted) else 1
    if version not in ORDERS_OF_VERSION or (version == 1 and needs_version_2(orders, minors + wanted)):
        raise ValueError(f"version {version} has no place for this request")
    if equivalence not in ("linear", "semilinear"):
        raise ValueError(f"the equivalence is linear or semilinear, not {equivalence}")
    lines = [f"version {version}", f"field {field_words(orders)}", f"rank {index(rank)}", f"size {index(size)}"]
    lines += ["equivalence semilinear"] if equivalence == "semilinear" else []
    lines += [f"forbid {each}" for each in minors]
    lines += filter_lines(filters)
    lines += [f"filter has {each}" for each in wanted]
    lines += ["print counts" if counts else "print forms"]
    return "".join(line + "\n" for line in lines)


def orders_of(field: Fields) -> tuple[int, ...]:
    """The orders of one to three fields; ValueError for others."""
    if isinstance(field, str):
        orders = tuple(int(each) if each.isdecimal() else 0 for each in field.split(" x "))
    elif isinstance(field, SupportsIndex):
        orders = (index(field),)
    else:
        orders = tuple(index(each) for each in field)
    if not 1 <= len(orders) <= 3 or not set(orders) <= set(ORDERS):
        raise ValueError(f"{field} is not one to three orders of fields with ' x ' between two")
    return orders


def field_words(orders: Iterable[int]) -> str:
    """The words of one to three orders, as a line `field` has them."""
    return " x ".join(map(str, orders))


def columns_words(order: int, columns: Columns) -> list[str]:
    """Columns as words; ValueError where one has no codes of GF(order)."""
    words = [each if isinstance(each, str) else word(each) for each in columns]
    for each in words:
        column_of(each, order)
    return words


def minor_words(minor: Minor) -> str:
    """The words of a minor: its name, or its matrix; ValueError where it has none or has more than 10 elements."""
    if isinstance(minor, Representation):
        minor = (minor.orders[0], minor.factors[0])
    if not isinstance(minor, str):
        order, columns = minor
        minor = f"matrix {index(order)} {' '.join(columns_words(index(order), columns))}"
    if not names_minor(minor, "", ORDERS_OF_VERSION[2]):
        raise ValueError(f"'{minor}' is no name and no matrix of a matroid of up to 10 elements")
    return minor


def needs_version_2(orders: Iterable[int], minors: Iterable[str]) -> bool:
    """Whether a request with these fields and minors can be asked in version 2 alone."""
    first = ORDERS_OF_VERSION[1]
    return not {str(order) for order in orders} <= set(first) or not all(names_minor(each, "", first) for each in minors)


def filter_lines(filters: Iterable[str]) -> list[str]:
    """The lines of filters in the order of a head; ValueError for a filter that isn't one, or stands alone in has."""
    if isinstance(filters, str):
        raise ValueError(f"filters are a list of words, not the word '{filters}'")
    asked = {f"filter {each}" for each in filters}
    if not asked <= set(FILTERS):
        known = ", ".join(each[len("filter ") :] for each in FILTERS)
        raise ValueError(f"the filters are {known}; a minor that forms have is asked for by has")
    return [each for each in FILTERS if each in asked]
