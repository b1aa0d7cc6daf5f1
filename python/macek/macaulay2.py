"""Forms as code for Macaulay2."""

from __future__ import annotations

import json
from collections.abc import Iterable, Iterator

from macek.fields import field
from macek.listings import Form, Head
from macek.scripts import opening_lines

# What a text defines besides the table of its forms: the same in each text.
FUNCTIONS = '''
needsPackage "Matroids"
if not instance(listed, MutableHashTable) then listed = new MutableHashTable
-- the elements of a field by their codes; the coefficients of the modulus are given lowest first
elementsOf = (order, characteristic, modulus) -> (
    if order == characteristic then return apply(order, code -> code_(ZZ/order));
    x := symbol x;
    R := ZZ/characteristic[x];
    root := (toField(R/(sum(#modulus, power -> modulus#power*R_0^power))))_0;
    apply(order, code -> sum(#modulus-1, power -> (code//characteristic^power%characteristic)*root^power)))
-- the matrices of a form, one for each field
listedMatrices = (name, size, number) -> (
    apply(listed#name#"elements", separate(" \\\\| ", listed#name#"forms"#(size, number)), (byCode, text) -> (
        code := letter -> first first regex(letter, "0123456789abc");
        columns := apply(separate(" ", text), word -> apply(characters word, letter -> byCode#(code letter)));
        matrix(ring byCode#0, transpose columns))))
-- the matroids of these matrices
listedMatroids = (name, size, number) -> apply(listedMatrices(name, size, number), each -> matroid each)
-- the size and the number of each form
listedForms = name -> sort keys listed#name#"forms"
'''


def field_words(order: int) -> str:
    """The elements of a field as a call of elementsOf."""
    over = field(order)
    return f"elementsOf({order}, {over.characteristic}, {{{', '.join(map(str, over.modulus))}}})"


def lines_of(name: str, head: Head, forms: Iterable[Form]) -> Iterator[str]:
    """The lines of the text that gives Macaulay2 the matroids of these forms, under a name."""
    key = json.dumps(name)
    yield from (f"-- {line}" for line in opening_lines(head, "to_macaulay2", "Macaulay2"))
    yield f"-- listedMatroids({key}, size, number) is a list of matroids, one for each field, and"
    yield f"-- listedMatrices({key}, size, number) a list of their matrices; forms are numbered from 1 in each size."
    yield from FUNCTIONS.strip().splitlines()
    elements = ", ".join(map(field_words, head.orders))
    yield f'listed#{key} = new HashTable from {{"elements" => {{{elements}}}, "forms" => new HashTable from {{'
    yield ",\n".join(f'({form.size}, {form.number}) => "{form.text()}"' for form in forms)
    yield "}}"
