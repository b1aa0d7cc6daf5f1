"""The arithmetic of the fields, against the axioms and the tables of docs/FORMATS.md, and the bases of matrices."""

import unittest
from itertools import combinations, product

from support import TOP

from macek.fields import MODULI, ORDERS, bases, column_of, field, word


class Fields(unittest.TestCase):
    def test_each_is_a_field(self):
        for order in ORDERS:
            over = field(order)
            elements = range(order)
            for one in elements:
                self.assertEqual(over.add(one, over.negative(one)), 0)
                self.assertEqual(sorted(over.add(one, other) for other in elements), list(elements))
                if one:
                    self.assertEqual(over.multiply(one, over.inverse(one)), 1)
                    self.assertEqual(sorted(over.multiply(one, other) for other in elements), list(elements))
            for one, other, third in product(elements, repeat=3):
                sums = over.add(over.multiply(one, other), over.multiply(one, third))
                self.assertEqual(over.multiply(one, over.add(other, third)), sums)
                self.assertEqual(over.multiply(one, over.multiply(other, third)), over.multiply(over.multiply(one, other), third))

    def test_the_modulus_is_zero_at_its_root(self):
        for order, (characteristic, modulus) in MODULI.items():
            over, value = field(order), 0
            for coefficient in reversed(modulus):
                value = over.add(over.multiply(value, characteristic), coefficient)
            self.assertEqual(value, 0)

    def test_tables_of_the_formats_are_the_products(self):
        text = (TOP / "docs" / "FORMATS.md").read_text()
        for order in MODULI:
            table = text.split(f"\nGF({order}):\n\n")[1].split("\n\n")[0].splitlines()
            rows = [[int(cell.strip("* ")) for cell in line.strip("|").split("|")] for line in table[2:]]
            self.assertEqual([row[0] for row in rows], list(range(2, order)))
            for one, *products in rows:
                self.assertEqual(products, [field(order).multiply(one, other) for other in range(2, order)])

    def test_other_orders_and_zero_are_refused(self):
        for order in (0, 1, 6, 10, 16):
            with self.assertRaises(ValueError):
                field(order)
        with self.assertRaises(ValueError):
            field(9).inverse(0)


class Columns(unittest.TestCase):
    def test_words_and_columns(self):
        self.assertEqual(column_of("10b", 13), (1, 0, 11))
        self.assertEqual(word((1, 0, 12)), "10c")
        for text, order in (("", 2), ("12", 2), ("1a", 9), ("1 0", 3), ("1C", 13), ("²", 3)):
            with self.assertRaises(ValueError):
                column_of(text, order)


class Bases(unittest.TestCase):
    def test_the_fano_plane_lacks_its_seven_lines(self):
        columns = tuple(column_of(each, 2) for each in "100 010 001 011 101 110 111".split())
        lines = {(0, 1, 5), (0, 2, 4), (1, 2, 3), (0, 3, 6), (1, 4, 6), (2, 5, 6), (3, 4, 5)}
        self.assertEqual(bases(field(2), columns), set(combinations(range(7), 3)) - lines)
        self.assertEqual(bases(field(3), columns), set(combinations(range(7), 3)) - lines | {(3, 4, 5)})

    def test_a_line_over_each_field_is_uniform(self):
        for order in ORDERS:
            columns = ((0, 1), *((1, code) for code in range(order)))
            self.assertEqual(bases(field(order), columns), set(combinations(range(order + 1), 2)))


if __name__ == "__main__":
    unittest.main()
