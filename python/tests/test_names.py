"""The table of names: what is known of each matroid from elsewhere than the matrix that the table has.

Counts come from formulas or from counting lines, minors and duality from Oxley's appendix, and where SageMath is installed each
name is compared with its own catalog.
"""

import json
import re
import subprocess
import tempfile
import unittest
from collections import Counter
from itertools import combinations
from math import comb
from pathlib import Path

from support import TOP, examples_with_forms, skip_without, skip_without_command

import macek
from macek.isomorphism import Table, are_isomorphic
from macek.matroids import Matroid, of_graph, uniform
from macek.names import name_of, name_of_matroid, named

# The number of points, and that of the lines of three points and more by their length: from the pictures.
LINES = {
    "F7": (7, {3: 7}),
    "F7-": (7, {3: 6}),
    "P6": (6, {3: 1}),
    "P7": (7, {3: 5}),
    "Q6": (6, {3: 2}),
    "R6": (6, {3: 2}),
    "O7": (7, {3: 3, 4: 1}),
    "W^3": (6, {3: 3}),
    "M(K4)": (6, {3: 4}),
    "AG(2,3)": (9, {3: 12}),
    "AG(2,3)\\e": (8, {3: 8}),
    "AG(2,4)": (16, {4: 20}),
    "PG(2,3)": (13, {4: 13}),
    "Q3(GF(3)*)": (9, {3: 4, 4: 3}),
    "R9": (9, {3: 7, 4: 2}),
    "Pappus": (9, {3: 9}),
    "Betsy Ross": (11, {3: 5, 4: 5}),
}

# The number of bases: of bases of a space over their orders, of trees, or of sets of four less those of the planes.
BASES = {
    "AG(3,2)": comb(8, 4) - 14,
    "AG(3,2)'": comb(8, 4) - 13,
    "R8": comb(8, 4) - 12,
    "T8": comb(8, 4) - 11,
    "P8": comb(8, 4) - 10,
    "P8''": comb(8, 4) - 8,
    "PG(3,2)": 15 * 14 * 12 * 8 // 24,
    "AG(4,2)": 16 * 15 * 14 * 12 * 8 // 120,
    "M(K5)": 5**3,
    "M(K3,3)": 3**2 * 3**2,
    "R10": 162,
    "S8": 48,
    "J": 50,
    "R12": 441,
}

SELF_DUAL = {"P6", "Q6", "R6", "AG(3,2)", "AG(3,2)'", "R8", "S8", "T8", "J", "P8", "P8''", "R10", "R12", "M(K4)"}
SELF_DUAL |= {f"M(W{rank})" for rank in range(4, 7)} | {f"W^{rank}" for rank in range(3, 7)}

# The names of all contractions by one element; None stands for a matroid without a name.
CONTRACTIONS = {
    "AG(3,2)": {"F7"},
    "AG(3,2)'": {"F7", "F7-"},
    "R8": {"F7-"},
    "P8": {"P7"},
    "T8": {"F7-", "P7"},
    "R10": {"M*(K3,3)"},
    "AG(4,2)": {"PG(3,2)"},
    "(AG(2,3))*": {"(AG(2,3)\\e)*"},
    "M(K3,3)": {"M(W4)"},
}
DELETIONS = {"AG(2,3)": {"AG(2,3)\\e"}, "AG(2,3)\\e": {"P7"}, "R10": {"M(K3,3)"}, "F7": {"M(K4)"}, "F7-": {"M(K4)", "W^3"}}

# What SageMath's catalog calls them.
IN_SAGE = {
    "F7": "Fano()",
    "F7-": "NonFano()",
    "P6": "P6()",
    "P7": "P7()",
    "P8": "P8()",
    "P8''": "P8pp()",
    "Q6": "Q6()",
    "R6": "R6()",
    "O7": "O7()",
    "T8": "T8()",
    "J": "J()",
    "R8": "R8()",
    "S8": "S8()",
    "R10": "R10()",
    "R12": "R12()",
    "AG(2,3)": "AG(2, 3)",
    "AG(2,3)\\e": "AG23minus()",
    "AG(2,4)": "AG(2, 4)",
    "AG(3,2)": "AG(3, 2)",
    "AG(3,2)'": "AG32prime()",
    "AG(4,2)": "AG(4, 2)",
    "PG(2,3)": "PG(2, 3)",
    "PG(3,2)": "PG(3, 2)",
    "Q3(GF(3)*)": "TernaryDowling3()",
    "Pappus": "Pappus()",
    "Betsy Ross": "BetsyRoss()",
    "M(K4)": "CompleteGraphic(4)",
    "M(K5)": "CompleteGraphic(5)",
    "M*(K3,3)": "K33dual()",
    "W^3": "Whirl(3)",
    **{f"M(W{rank})": f"Wheel({rank})" for rank in range(4, 7)},
    **{f"W^{rank}": f"Whirl({rank})" for rank in range(4, 7)},
}
# What the catalog lacks: R9, which the test of the nine-point ternary matroids tells.
NOT_IN_SAGE = {"R9"}

SAGE_CODE = """
import json, sys
import sage.all
from sage.matroids import catalog
from sage.matroids.advanced import BasisMatroid
for name, (call, size, bases) in json.load(sys.stdin).items():
    ours = BasisMatroid(groundset=range(size), bases=bases)
    theirs = eval("catalog." + call)
    print(json.dumps([name, bool(BasisMatroid(theirs).is_isomorphic(ours))]))
"""


def is_dual_name(name):
    """Whether a name of the table is that of a dual."""
    return name.startswith("M*") or name.endswith("*")


def lists_of_bases(matroid):
    """The bases as lists of elements."""
    return [[element for element in range(matroid.size) if basis >> element & 1] for basis in matroid.bases]


class Known(unittest.TestCase):
    def test_each_name_has_a_check(self):
        wheels = {f"M(W{rank})" for rank in range(4, 7)} | {f"W^{rank}" for rank in range(4, 7)}
        self.assertEqual({name for name in named() if not is_dual_name(name)}, LINES.keys() | BASES.keys() | wheels)

    def test_lines_of_rank_three(self):
        for name, (size, lines) in LINES.items():
            with self.subTest(name=name):
                self.assertEqual((named()[name].size, named()[name].lines()), (size, lines))

    def test_the_two_lines_of_six_points(self):
        """Q6 and R6 have two lines each: those of Q6 meet in a point, and those of R6 don't."""
        for name, common in (("Q6", 1), ("R6", 0)):
            one, other = named()[name].circuit_hyperplanes()
            self.assertEqual(bin(one & other).count("1"), common)

    def test_the_points_of_pappus_that_no_line_joins_are_three_triples(self):
        """That tells it from the two other configurations of nine points and nine lines of three."""
        matroid = named()["Pappus"]
        lines = [{element for element in range(9) if mask >> element & 1} for mask in matroid.circuit_hyperplanes()]
        apart = {
            frozenset(other for other in range(9) if other == point or not any({point, other} <= line for line in lines))
            for point in range(9)
        }
        self.assertEqual(sorted(len(triple) for triple in apart), [3, 3, 3])

    def test_numbers_of_bases(self):
        for name, count in BASES.items():
            with self.subTest(name=name):
                self.assertEqual(len(named()[name].bases), count)

    def test_wheels_have_as_many_trees_as_lucas_numbers_say(self):
        numbers = [2, 1]
        while len(numbers) < 13:
            numbers.append(numbers[-1] + numbers[-2])
        for rank in range(3, 7):
            wheel = "M(K4)" if rank == 3 else f"M(W{rank})"
            self.assertEqual(len(named()[wheel].bases), numbers[2 * rank] - 2)
            self.assertEqual(len(named()[f"W^{rank}"].bases), numbers[2 * rank] - 1)

    def test_a_whirl_relaxes_to_no_wheel_and_comes_from_one(self):
        for rank in range(3, 7):
            wheel = named()["M(K4)" if rank == 3 else f"M(W{rank})"]
            names = {name_of_matroid(wheel.relax(mask)) for mask in wheel.circuit_hyperplanes()}
            self.assertIn(f"W^{rank}", names)

    def test_duality(self):
        for name, matroid in named().items():
            with self.subTest(name=name):
                if not is_dual_name(name):
                    self.assertEqual(are_isomorphic(matroid, matroid.dual()), name in SELF_DUAL)

    def test_the_name_of_a_dual_is_that_of_the_dual(self):
        pairs = {"F7": "F7*", "F7-": "(F7-)*", "P7": "P7*", "O7": "O7*", "M(K5)": "M*(K5)", "M(K3,3)": "M*(K3,3)"}
        pairs["Pappus"] = "Pappus*"
        pairs.update({"AG(2,3)\\e": "(AG(2,3)\\e)*", "AG(2,3)": "(AG(2,3))*", "R9": "R9*", "Q3(GF(3)*)": "(Q3(GF(3)*))*"})
        for name, dual in pairs.items():
            self.assertEqual(name_of_matroid(named()[name].dual()), dual)
            self.assertEqual(name_of_matroid(named()[dual].dual()), name)
        self.assertEqual(set(pairs.values()), {name for name in named() if is_dual_name(name)})

    def test_minors_by_one_element(self):
        for table, operation in ((CONTRACTIONS, Matroid.contract), (DELETIONS, Matroid.delete)):
            for name, minors in table.items():
                matroid = named()[name]
                found = {name_of_matroid(operation(matroid, element)) for element in range(matroid.size)}
                with self.subTest(name=name):
                    self.assertEqual(found, minors)

    def test_s8_has_one_element_whose_contraction_is_the_fano_plane_and_one_whose_deletion_is_its_dual(self):
        contractions = Counter(name_of_matroid(named()["S8"].contract(element)) for element in range(8))
        deletions = Counter(name_of_matroid(named()["S8"].delete(element)) for element in range(8))
        self.assertEqual((contractions["F7"], deletions["F7*"]), (1, 1))

    def test_the_ternary_matroids_of_rank_three_with_nine_points(self):
        """There are three of them (Oxley, appendix, R9)."""
        names = [name_of(form) for form in examples_with_forms()["ternary"].forms if form.size == 9]
        self.assertEqual(sorted(names), ["AG(2,3)", "Q3(GF(3)*)", "R9"])

    def test_the_binary_ones_are_in_a_binary_listing_and_the_ternary_ones_in_a_ternary(self):
        examples = examples_with_forms()
        for example, wanted in {
            "fano": {"F7", "M(K4)"},
            "binary_four": {"F7*", "AG(3,2)", "S8", "M(W4)", "M*(K3,3)"},
            "ternary": {"F7-", "P7", "O7", "R6", "W^3", "AG(2,3)\\e", "PG(2,3)", "M(K4)"},
            "ternary_four": {"(F7-)*", "P7*", "O7*"},
        }.items():
            names = {name_of(form) for form in examples[example].forms}
            with self.subTest(example=example):
                self.assertLessEqual(wanted, names)

    def test_uniform_matroids(self):
        for rank, size in combinations(range(8), 2):
            self.assertEqual(name_of_matroid(uniform(rank, size)), f"U{rank},{size}")

    def test_no_two_names_are_of_one_matroid(self):
        table = Table()
        for name, matroid in named().items():
            self.assertIsNone(table.find(matroid), name)
            table.add(matroid, name)

    def test_what_has_no_name(self):
        self.assertIsNone(name_of_matroid(of_graph([(0, 1), (1, 2), (2, 0), (0, 3)])))
        self.assertIsNone(name_of_matroid(Matroid(1, 2, frozenset({1}))))


@skip_without("macek_alone")
class ByTheProgram(unittest.TestCase):
    def test_the_golden_mean_matroid_with_the_most_points_is_betsy_ross(self):
        """Rank 3 over GF(4) x GF(5) has one matroid with 11 points, and none with 12."""
        levels = list(macek.run(macek.request(rank=3, field="4 x 5", size=12)))
        self.assertEqual([name_of(form) for form in levels[-2].forms], ["Betsy Ross"])
        self.assertEqual(levels[-1].forms, ())

    def test_the_dyadic_matroid_with_the_most_points_is_the_dowling_geometry(self):
        levels = list(macek.run(macek.request(rank=3, field="3 x 5", size=10, filters=["distinct"])))
        self.assertEqual([name_of(form) for form in levels[-2].forms], ["Q3(GF(3)*)"])
        self.assertEqual(levels[-1].forms, ())

    def test_the_ternary_and_complex_ones_of_nine_points(self):
        levels = list(macek.run(macek.request(rank=3, field="3 x 7", size=10, filters=["distinct"])))
        self.assertEqual({name_of(form) for form in levels[-2].forms}, {"AG(2,3)", "Q3(GF(3)*)"})
        self.assertEqual(levels[-1].forms, ())

    def test_the_regular_matroids_of_rank_four_end_with_the_complete_graph(self):
        levels = list(macek.run(macek.request(rank=4, field="2 x 3", size=11)))
        self.assertEqual([name_of(form) for form in levels[-2].forms], ["M(K5)"])
        self.assertEqual(levels[-1].forms, ())

    def test_r10_is_regular(self):
        levels = list(macek.run(macek.request(rank=5, field="2 x 3", size=10)))
        self.assertIn("R10", [name_of(form) for form in levels[-1].forms])


@skip_without_command("sage")
class InSage(unittest.TestCase):
    def test_each_name_is_that_of_the_catalog(self):
        plain = {name for name in named() if not is_dual_name(name)}
        self.assertEqual(plain - {"M(K3,3)"} - NOT_IN_SAGE, IN_SAGE.keys() - {"M*(K3,3)"})
        given = {name: (call, named()[name].size, lists_of_bases(named()[name])) for name, call in IN_SAGE.items()}
        with tempfile.TemporaryDirectory() as folder:
            file = Path(folder) / "compare.py"
            file.write_text(SAGE_CODE)
            command = ["sage", "-python", str(file)]
            done = subprocess.run(command, input=json.dumps(given), capture_output=True, text=True, check=True)
        found = dict(json.loads(line) for line in done.stdout.splitlines())
        self.assertEqual(found, dict.fromkeys(IN_SAGE, True))


class Guide(unittest.TestCase):
    def setUp(self):
        self.guide = (TOP / "docs" / "GUIDE.md").read_text()

    def test_the_named_forms_of_the_guide(self):
        found = re.findall(r"    tools/named (\S+)\n\nwrites .*\n\n((?:    .*\n)+)", self.guide)
        self.assertEqual(len(found), self.guide.count("    tools/named "))
        for file, lines in found:
            done = subprocess.run([TOP / "tools" / "named", TOP / file], capture_output=True, text=True, check=True)
            self.assertIn(re.sub("^    ", "", lines, flags=re.MULTILINE), done.stdout)

    def test_the_rows_end_where_the_table_of_greatest_sizes_says(self):
        _, table = self.guide.split("| Class | At most | In rank 3 | Source |\n")
        rows = re.findall(r"^\| (\S+) \| .* \| (\d+) \| .* \|$", table.split("\n\n")[0], flags=re.MULTILINE)
        self.assertEqual(len(rows), 5)
        for name, greatest in rows:
            text = (TOP / "examples" / f"class_{name.replace('-', '_')}.listing").read_text()
            sizes = re.findall(r"^level (\d+) classes [1-9]", text, flags=re.MULTILINE)
            self.assertEqual(sizes[-1], greatest, name)
            self.assertIn("classes 0 listed 0", text.splitlines()[-2], name)

    def test_the_greatest_sixth_root_of_unity_matroid_is_the_affine_plane(self):
        forms = examples_with_forms()["sixth_root"].forms
        self.assertEqual([name_of(form) for form in forms if form.size == 9], ["AG(2,3)"])
        self.assertEqual(forms[-1].size, 9)

    def test_the_sixth_root_of_unity_matroids_of_rank_four_end_at_thirteen(self):
        text = (TOP / "examples" / "rank_four_class.listing").read_text()
        self.assertRegex(text, r"\nlevel 13 classes 1 listed 1 tried \d+\nlevel 14 classes 0 ")

    def test_the_greatest_regular_matroid_is_that_of_the_complete_graph(self):
        self.assertEqual(name_of(examples_with_forms()["regular"].forms[-1]), "M(K4)")


class Script(unittest.TestCase):
    def run_script(self, *words, text=None):
        return subprocess.run([TOP / "tools" / "named", *words], input=text, capture_output=True)

    def test_names_stand_behind_the_lines(self):
        listing = examples_with_forms()["regular"]
        text = (TOP / "examples" / "regular.listing").read_bytes()
        done = self.run_script(TOP / "examples" / "regular.listing")
        lines = done.stdout.decode().splitlines()
        self.assertEqual([line.split("  ")[0] for line in lines if "0" in line], [form.text() for form in listing.forms])
        self.assertEqual(lines[-2:], ["size 6", "100 010 001 011 101 111 | 100 010 001 011 101 111  M(K4)"])
        self.assertEqual(self.run_script(text=text.replace(b"\n", b"\r\n")).stdout, done.stdout)

    def test_a_text_that_is_cut_off(self):
        text = (TOP / "examples" / "regular.listing").read_bytes()
        done = self.run_script(text=text[: text.index(b"level 6 ") + 50])
        self.assertEqual(done.returncode, 0)
        self.assertTrue(done.stdout.decode().splitlines()[-1].startswith("100 010 001 011 101 |"))
        self.assertIn(b"the whole levels before are taken", done.stderr)

    def test_help_wrong_words_and_bad_inputs(self):
        self.assertEqual(self.run_script("--help").returncode, 0)
        for words, status, reason in (
            (("one", "two"), 2, b"usage: named"),
            (("no such file",), 1, b"named: "),
            ((TOP / "examples" / "counts.listing",), 1, b"counts alone"),
            ((TOP / "examples" / "fano.request",), 1, b"line 1"),
        ):
            done = self.run_script(*words)
            self.assertEqual((done.returncode, done.stdout), (status, b""))
            self.assertIn(reason, done.stderr)


if __name__ == "__main__":
    unittest.main()
