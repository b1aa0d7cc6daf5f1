"""What one listing has and another lacks, and the script that writes it."""

import subprocess
import tempfile
import unittest
from pathlib import Path

from support import TOP, examples_with_forms, skip_without

import macek
from macek.fields import column_of
from macek.isomorphism import are_isomorphic
from macek.listings import Form
from macek.matroids import of_matrix
from macek.missing import first_missing, matroid_of, missing, request_lines
from macek.names import name_of

SCRIPT = TOP / "tools" / "first_missing"
EXAMPLES = TOP / "examples"


def form(order, words, number=1):
    """A form over one field, by the words of its columns."""
    return Form((order,), (tuple(column_of(word, order) for word in words.split()),), number)


class Missing(unittest.TestCase):
    def test_nothing_is_missing_from_itself_or_from_its_reverse(self):
        for name, listing in examples_with_forms().items():
            with self.subTest(listing=name):
                self.assertEqual(missing(listing.forms, listing.forms[::-1]), [])

    def test_from_nothing_each_matroid_is_missing_once(self):
        """The filter distinct of the program keeps the first form of each matroid; so does this."""
        examples = examples_with_forms()
        found = missing([each for each in examples["inequivalent"].forms if each.size == 4], [])
        self.assertEqual([each.text() for each in found], ["10 01 11 12"])
        found = missing([each for each in examples["conjugate"].forms if each.size == 10], [])
        self.assertEqual(len(found), 18)

    def test_what_is_left_out_is_isomorphic_to_a_form_above(self):
        forms = [each for each in examples_with_forms()["conjugate"].forms if each.size == 10]
        found = missing(forms, [])
        [left_out] = [each for each in forms if each not in found]
        above = [each for each in found if each.number < left_out.number]
        self.assertEqual(sum(are_isomorphic(matroid_of(left_out), matroid_of(each)) for each in above), 1)

    def test_factors_give_one_matroid(self):
        for listing in examples_with_forms().values():
            for each in listing.forms[:30]:
                for order, columns in zip(each.orders, each.factors):
                    self.assertEqual(matroid_of(each), of_matrix(order, columns))

    def test_only_the_first_size_with_a_missing_one_is_told(self):
        wide = {2: [form(3, "10 01")], 3: [form(3, "10 01 11")], 4: [form(3, "10 01 11 12")]}
        self.assertEqual(first_missing(wide, {2: [form(2, "10 01")], 3: [], 4: []}), wide[3])
        self.assertEqual(first_missing(wide, {2: [form(2, "10 01")], 4: []}), wide[4])
        self.assertEqual(first_missing(wide, {2: wide[2]}), [])


class RequestLines(unittest.TestCase):
    def test_a_line_of_a_field_of_version_1(self):
        self.assertEqual(list(request_lines(form(3, "10 01 12", 4))), ["# size 3, form 4", "forbid matrix 3 10 01 12"])

    def test_a_line_that_needs_version_2_says_so(self):
        for order, last in ((11, "1a"), (13, "1c")):
            note, line = request_lines(form(order, f"10 01 {last}"))
            self.assertEqual(note, "# size 3, form 1, needs `version 2` as the first line")
            self.assertEqual(line, f"forbid matrix {order} 10 01 {last}")

    def test_of_a_product_a_field_of_version_1_is_taken(self):
        columns = ((1, 0), (0, 1), (1, 1))
        note, line = request_lines(Form((13, 5), (columns, columns), 1))
        self.assertEqual((note, line), ("# size 3, form 1", "forbid matrix 5 10 01 11"))

    def test_a_matroid_of_eleven_elements_is_a_comment(self):
        given = form(13, "10 01 " + " ".join(f"1{letter}" for letter in "123456789"))
        self.assertEqual(given.size, 11)
        self.assertTrue(all(line.startswith("# ") for line in request_lines(given)))


@skip_without("macek_alone")
class ThreeConnected(unittest.TestCase):
    def test_the_filter_3conn_in_both_requests_leaves_the_excluded_minor(self):
        known = ["F7-", "matrix 3 1000 0100 0010 0001 0111 1011 1101"]
        wide = list(macek.run(macek.request(rank=4, field="3", size=8, forbid=known, filters=["3conn"])))
        narrow = list(macek.run(macek.request(rank=4, field="3 x 4", size=8, filters=["3conn", "distinct"])))
        self.assertEqual((wide[-1].classes, wide[-1].listed), (34, 11))
        found = first_missing(*({level.size: level.forms for level in levels} for levels in (wide, narrow)))
        self.assertEqual([name_of(each) for each in found], ["P8"])


@skip_without("macek_alone")
class PublishedCounts(unittest.TestCase):
    def test_two_fields_have_all_simple_matroids_of_rank_three_up_to_seven_elements(self):
        """The counts of the guide's table, and that each list lacks just what the other has besides."""
        _, table = (TOP / "docs" / "GUIDE.md").read_text().split("\n| Elements |")
        rows = [[cell.strip() for cell in row.strip("|").split("|")] for row in table.split("\n\n")[0].splitlines()[2:]]
        forms = {}
        for name, *counts in rows[1:]:
            order = name.strip("`").split()[1]
            levels = list(macek.run(macek.request(rank=3, field=order, size=7, filters=["distinct"])))
            self.assertEqual([str(level.listed) for level in levels], counts, name)
            forms[order] = {level.size: level.forms for level in levels}
        self.assertEqual([name_of(each) for each in first_missing(forms["8"], forms["11"])], ["F7"])
        self.assertEqual([name_of(each) for each in first_missing(forms["11"], forms["8"])], ["F7-"])
        for size, published in zip(range(3, 8), rows[0][1:]):
            self.assertEqual(len(missing((*forms["8"][size], *forms["11"][size]), ())), int(published))


class Script(unittest.TestCase):
    def run_script(self, *words):
        return subprocess.run([SCRIPT, *words], capture_output=True, text=True)

    def test_help_and_wrong_words(self):
        self.assertEqual(self.run_script("--help").returncode, 0)
        for words in ((), ("one",), ("one", "two", "three"), ("--none", "one", "two")):
            done = self.run_script(*words)
            self.assertEqual(done.returncode, 2)
            self.assertIn("usage: first_missing", done.stderr)

    def test_bad_inputs(self):
        whole = EXAMPLES / "ternary.listing"
        bad = {"no such file": "No such file", EXAMPLES / "counts.listing": "counts alone", EXAMPLES / "ternary.request": "line 1"}
        bad[EXAMPLES / "ternary_four.listing"] = "the listings have the ranks 3 and 4"
        for file, reason in bad.items():
            done = self.run_script(whole, file)
            self.assertEqual((done.returncode, done.stdout), (1, ""))
            self.assertRegex(done.stderr, f"^first_missing: .*{reason}")

    def test_windows_line_ends_and_a_text_that_is_cut_off(self):
        wide = (EXAMPLES / "ternary.listing").read_bytes()
        narrow = EXAMPLES / "sixth_root.listing"
        plain = self.run_script(EXAMPLES / "ternary.listing", narrow)
        self.assertTrue(plain.stdout.startswith("# size 7, form 3\n"))
        with tempfile.TemporaryDirectory() as folder:
            file = Path(folder) / "changed.listing"
            file.write_bytes(wide.replace(b"\n", b"\r\n"))
            self.assertEqual(self.run_script(file, narrow).stdout, plain.stdout)
            for size, wanted in ((9, plain.stdout), (7, "")):
                file.write_bytes(wide[: wide.index(b"level %d " % size) + 100])
                done = self.run_script(file, narrow)
                self.assertEqual((done.returncode, done.stdout), (0, wanted))
                self.assertIn("the whole levels before are taken", done.stderr)


if __name__ == "__main__":
    unittest.main()
