"""Isomorphism: relabelled matroids are found, and others are told apart, by a search through all relabellings too."""

import random
import unittest
from itertools import combinations, permutations

from support import examples_with_forms

from macek.isomorphism import Table, are_isomorphic, relabelling
from macek.matroids import Matroid, of_lines, of_matrix, uniform


def relabelled(matroid, images):
    """The matroid with each element in the place of its image."""
    found = (sum(1 << images[element] for element in range(matroid.size) if basis >> element & 1) for basis in matroid.bases)
    return Matroid(matroid.rank, matroid.size, frozenset(found))


class Isomorphism(unittest.TestCase):
    def test_a_relabelled_matroid_is_found_with_its_relabelling(self):
        chance = random.Random(1)
        for name, listing in examples_with_forms().items():
            for form in listing.forms[::7]:
                matroid = of_matrix(form.orders[0], form.factors[0])
                other = relabelled(matroid, chance.sample(range(matroid.size), matroid.size))
                images = relabelling(matroid, other)
                with self.subTest(listing=name, size=form.size, number=form.number):
                    self.assertIsNotNone(images)
                    self.assertEqual(relabelled(matroid, images), other)

    def test_it_agrees_with_a_search_through_all_relabellings(self):
        forms = [form for form in examples_with_forms()["conjugate"].forms if form.size in (5, 6)]
        matroids = [of_matrix(4, form.factors[0]) for form in forms]
        for one, other in combinations(matroids, 2):
            plain = one.size == other.size and any(
                relabelled(one, images) == other for images in permutations(range(one.size))
            )
            self.assertEqual(are_isomorphic(one, other), plain)

    def test_two_forms_of_one_matroid(self):
        forms = [form for form in examples_with_forms()["conjugate"].forms if form.size == 10]
        matroids = [of_matrix(4, form.factors[0]) for form in forms]
        self.assertEqual(len(matroids), 19)
        self.assertEqual(sum(are_isomorphic(one, other) for one, other in combinations(matroids, 2)), 1)

    def test_equally_many_bases_do_not_make_an_isomorphism(self):
        """Three lines on nine points, no two of which meet, and three of which two meet."""
        apart = of_lines(9, ["abc", "def", "ghi"])
        path = of_lines(9, ["abc", "cde", "fgh"])
        self.assertEqual(len(apart.bases), len(path.bases))
        self.assertFalse(are_isomorphic(apart, path))

    def test_the_search_tells_apart_what_the_invariant_does_not(self):
        """Here the invariant is made equal by hand."""
        one, other = of_lines(6, ["abc", "def"]), of_lines(6, ["abc", "cde"])
        for matroid in (one, other):
            matroid.__dict__.update(invariant=0, kinds=(0,) * 6, shares=((0,) * 6,) * 6)
        self.assertFalse(are_isomorphic(one, other))
        self.assertTrue(are_isomorphic(one, one))

    def test_rank_nought_and_other_sizes(self):
        self.assertEqual(relabelling(uniform(0, 0), uniform(0, 0)), [])
        self.assertEqual(relabelling(uniform(0, 2), uniform(0, 2)), [0, 1])
        self.assertFalse(are_isomorphic(uniform(2, 4), uniform(2, 5)))


class Tables(unittest.TestCase):
    def test_the_first_of_isomorphic_matroids_is_found(self):
        table = Table([(of_lines(6, ["abc"]), "first"), (of_lines(6, ["def"]), "second")])
        table.add(of_lines(6, ["abc", "def"]), "third")
        self.assertEqual(table.find(of_lines(6, ["ace"])), "first")
        self.assertEqual(table.find(of_lines(6, ["ace", "bdf"])), "third")
        self.assertIsNone(table.find(of_lines(6, ["abc", "cde"])))


if __name__ == "__main__":
    unittest.main()
