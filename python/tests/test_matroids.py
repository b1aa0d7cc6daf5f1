"""Matroids by bit masks: against a plain test of independence, against counts that are known, and by laws."""

import unittest
from itertools import combinations
from math import comb

from support import examples_with_forms

from macek.fields import bases, field
from macek.matroids import Matroid, masks, of_graph, of_lines, of_matrix, uniform

FANO = of_lines(7, ["abd", "ace", "bcf", "afg", "beg", "cdg", "def"])


class OfMatrix(unittest.TestCase):
    def test_the_walk_finds_the_bases_that_elimination_finds(self):
        for name, listing in examples_with_forms().items():
            for form in listing.forms[:40]:
                for order, columns in zip(form.orders, form.factors):
                    with self.subTest(listing=name, size=form.size, number=form.number, order=order):
                        wanted = {sum(1 << element for element in basis) for basis in bases(field(order), columns)}
                        self.assertEqual(of_matrix(order, columns), Matroid(form.rank, form.size, frozenset(wanted)))

    def test_columns_may_be_zero_and_parallel(self):
        found = of_matrix(3, ((1, 0), (0, 0), (2, 0), (0, 1), (1, 1)))
        self.assertEqual(found.bases, {0b01001, 0b01100, 0b10001, 0b10100, 0b11000})

    def test_matrices_without_a_basis_are_refused(self):
        for columns in ((), ((),), ((1, 1), (1, 1)), ((1, 0, 0), (0, 1, 0))):
            with self.subTest(columns=columns), self.assertRaises(ValueError):
                of_matrix(2, columns)

    def test_an_unknown_field_is_refused(self):
        with self.assertRaises(ValueError):
            of_matrix(6, ((1,),))


class OfLinesAndGraphs(unittest.TestCase):
    def test_seven_lines_of_seven_points_are_the_fano_plane(self):
        self.assertEqual(FANO.lines(), {3: 7})
        self.assertEqual(len(FANO.bases), comb(7, 3) - 7)

    def test_two_lines_share_at_most_one_point(self):
        with self.assertRaises(ValueError):
            of_lines(5, ["abc", "abd"])

    def test_a_complete_graph_has_the_number_of_trees_that_cayley_counted(self):
        for vertices in range(2, 6):
            edges = list(combinations(range(vertices), 2))
            self.assertEqual(len(of_graph(edges).bases), vertices ** (vertices - 2))

    def test_a_graph_in_two_parts_is_refused(self):
        with self.assertRaises(ValueError):
            of_graph([(0, 1), (2, 3)])


class Operations(unittest.TestCase):
    def test_uniform_matroids(self):
        for rank, size in combinations(range(6), 2):
            found = uniform(rank, size)
            self.assertEqual(found.dual(), uniform(size - rank, size))
            self.assertEqual(found.delete(0), uniform(rank, size - 1))
            if rank:
                self.assertEqual(found.contract(size - 1), uniform(rank - 1, size - 1))
        self.assertEqual(uniform(3, 3).delete(1), uniform(2, 2))
        self.assertEqual(uniform(0, 3).contract(1), uniform(0, 2))

    def test_a_deletion_is_the_dual_of_a_contraction(self):
        for listing in examples_with_forms().values():
            for form in listing.forms[:12]:
                matroid = of_matrix(form.orders[0], form.factors[0])
                self.assertEqual(matroid.dual().dual(), matroid)
                for element in range(matroid.size):
                    self.assertEqual(matroid.delete(element).dual(), matroid.dual().contract(element))

    def test_bases_are_those_without_an_element_and_those_with_it(self):
        for element in range(7):
            self.assertEqual(len(FANO.delete(element).bases) + len(FANO.contract(element).bases), len(FANO.bases))
        self.assertEqual(len(list(FANO.minors_by_one())), 14)

    def test_what_is_no_element_is_refused(self):
        for element in (-1, 7):
            for operation in (FANO.delete, FANO.contract):
                with self.assertRaises(ValueError):
                    operation(element)

    def test_the_lines_of_the_fano_plane_can_be_relaxed_and_nothing_else(self):
        lines = FANO.circuit_hyperplanes()
        self.assertEqual(len(lines), 7)
        for mask in masks(7, 3):
            if mask in lines:
                self.assertEqual(FANO.relax(mask).lines(), {3: 6})
            else:
                with self.assertRaises(ValueError):
                    FANO.relax(mask)
        for mask in (0b11, 1 << 7 | 0b11):
            with self.assertRaises(ValueError):
                FANO.relax(mask)

    def test_a_longer_line_is_no_circuit_hyperplane(self):
        self.assertEqual(of_lines(6, ["abcd"]).circuit_hyperplanes(), [])

    def test_lines_are_counted_in_rank_three(self):
        self.assertEqual(of_lines(6, ["abcd", "def"]).lines(), {3: 1, 4: 1})
        with self.assertRaises(ValueError):
            uniform(2, 4).lines()


if __name__ == "__main__":
    unittest.main()
