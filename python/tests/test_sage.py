"""The text for SageMath, and the way there and back where SageMath is installed."""

import ast
import io
import json
import os
import subprocess
import sys
import tempfile
import unittest
from pathlib import Path

from support import TOP, examples_with_forms, skip_without, skip_without_command

import macek
from macek.fields import MODULI, field
from macek.listings import read_levels
from macek.sage import field_words, lines_of

PACKAGE = str(Path(macek.__file__).resolve().parent.parent)


def text_of(name: str) -> str:
    """The text of to_sage for an example."""
    levels = read_levels(io.BytesIO((TOP / "examples" / f"{name}.listing").read_bytes()))
    forms = [form for level in levels for form in level.forms]
    return "\n".join(lines_of(name, levels.head, forms)) + "\n"


def images(text: str, orders: tuple) -> set:
    """What a line becomes by an automorphism of each field, for all of them."""
    found = {()}
    for order, columns in zip(orders, text.split(" | ")):
        over = field(order)
        powers, moved = list(range(order)), set()
        for _ in range(over.degree):
            letters = str.maketrans({f"{code:x}": f"{image:x}" for code, image in enumerate(powers)})
            moved.add(columns.translate(letters))
            powers = [power_of(over, image) for image in powers]
        found = {(*before, each) for before in found for each in moved}
    return {" | ".join(each) for each in found}


def power_of(over, element: int) -> int:
    """The image of an element by the automorphism that takes each to its power by the characteristic."""
    result = 1
    for _ in range(over.characteristic):
        result = over.multiply(result, element)
    return result


class Text(unittest.TestCase):
    def test_the_table_has_the_forms_and_the_fields(self):
        for name, listing in examples_with_forms().items():
            tree = ast.parse(text_of(name))
            call = tree.body[-1].value
            self.assertEqual(ast.unparse(tree.body[-1].targets[0]), f"listed[{name!r}]")
            fields, table = (ast.literal_eval(each) for each in call.args)
            self.assertEqual(fields, [field_words(order) for order in listing.orders])
            self.assertEqual(table, {(form.size, form.number): form.text() for form in listing.forms})

    def test_names_of_sage_are_left_alone(self):
        """At the top the text binds only its own names and those that it imports from the standard library."""
        bound = set()
        for node in ast.parse(text_of("fano")).body:
            bound |= {alias.name for alias in getattr(node, "names", [])} | {getattr(node, "name", "listed")}
        self.assertEqual(bound, {"annotations", "Iterator", "Mapping", "Sequence", "Any", "elements_of", "Listed", "listed"})

    def test_a_second_text_keeps_the_first(self):
        names: dict = {}
        for name in ("fano", "regular"):
            table, start = text_of(name).split("listed = "), "class Listed:\n    __init__ = lambda self, fields, forms: None\n"
            exec(start + "listed = " + table[1], names)
        self.assertEqual(set(names["listed"]), {"fano", "regular"})

    def test_the_words_of_fields(self):
        self.assertEqual([field_words(order)[0] for order in MODULI], [4, 8, 9])
        self.assertEqual(field_words(9), (9, 3, (1, 0, 1)))
        self.assertEqual(field_words(7), (7, 7, (0, 1)))


@skip_without_command("sage")
class InSage(unittest.TestCase):
    """One run of SageMath on all examples."""

    @classmethod
    def setUpClass(cls):
        with tempfile.TemporaryDirectory() as folder:
            files = []
            for name in examples_with_forms():
                files.append(str(Path(folder) / f"{name}.py"))
                Path(files[-1]).write_text(text_of(name))
            command = ["sage", "-python", str(TOP / "python" / "tests" / "in_sage.py"), *files]
            done = subprocess.run(command, capture_output=True, text=True, env={**os.environ, "PYTHONPATH": PACKAGE})
            if done.returncode:
                raise AssertionError(done.stderr)
            cls.told = json.loads(done.stdout)
            saved = str(Path(folder) / "matrix.sobj")
            command = ["sage", "-python", str(TOP / "tools" / "from_sage.py")]
            runs = ([*command, *[saved] * number] for number in (2, 4))
            cls.scripts = [subprocess.run(run, capture_output=True, text=True) for run in runs]

    def each(self):
        """Each example and each of its forms, with what SageMath told of it."""
        for name, listing in examples_with_forms().items():
            told = self.told["listings"][name]
            self.assertEqual(set(told), {form.text() for form in listing.forms})
            for form in listing.forms:
                yield form, told[form.text()]

    def test_forms_come_back_as_they_were(self):
        for form, told in self.each():
            self.assertEqual([told[way] for way in ("matroids", "matrices", "own", "loaded")], [form.text()] * 4)
            self.assertTrue(told["is kept"])

    def test_the_script_spells_what_was_saved(self):
        done, refused = self.scripts
        self.assertEqual((done.returncode, done.stdout, done.stderr), (0, "10 01 15 | 10 01 15\n", ""))
        self.assertEqual((refused.returncode, refused.stdout), (1, ""))
        told = "from_sage.py: these are not one to three matrices of one shape, with rows and columns\n"
        self.assertEqual(refused.stderr, told)

    def test_what_has_no_line_is_refused(self):
        shapes, fields = self.told["refused"][:7], self.told["refused"][7:]
        told = "refused: these are not one to three matrices of one shape, with rows and columns"
        self.assertEqual(shapes, [told] * 7)
        self.assertEqual(len(fields), 5)
        for ring, told in zip(("Integer Ring", "Rational Field", "Ring of integers modulo 4", "16", "17"), fields):
            self.assertRegex(told, f"^refused: .*{ring}")

    def test_matroids_have_the_bases(self):
        for form, told in self.each():
            wanted = sorted(list(basis) for basis in form.bases())
            self.assertEqual(told["bases"], [wanted] * len(form.orders))

    def test_other_moduli_give_the_same_up_to_automorphisms(self):
        self.assertEqual(self.told["moduli"]["9"], "x^2 + 2*x + 2")
        moved = 0
        for form, told in self.each():
            self.assertIn(told["moved"], images(form.text(), form.orders))
            moved += told["moved"] != form.text()
        self.assertGreater(moved, 0)


@skip_without_command("sage")
@skip_without("macek_alone", "macek_ask")
class Guide(unittest.TestCase):
    def test_the_example_is_as_the_guide_says(self):
        """All of the example in SageMath's Python, as it stands in the guide."""
        guide = TOP / "docs" / "GUIDE.md"
        self.assertIn("\n    >>> from macek.sage import macek_line\n", guide.read_text())
        command = ["sage", "-python", "-m", "doctest", str(guide)]
        done = subprocess.run(command, capture_output=True, text=True, env={**os.environ, "PYTHONPATH": PACKAGE})
        self.assertEqual((done.returncode, done.stdout), (0, ""))


class Scripts(unittest.TestCase):
    def run_of(self, script: str, *words: str, text: bytes = b"") -> tuple:
        done = subprocess.run([sys.executable, TOP / "tools" / script, *words], input=text, capture_output=True)
        return done.returncode, done.stdout.decode(), done.stderr.decode()

    def test_the_name_is_that_of_the_file_or_of_the_word(self):
        path = str(TOP / "examples" / "fano.listing")
        self.assertEqual(self.run_of("to_sage", path), (0, text_of("fano"), ""))
        self.assertIn("listed['plane'] = ", self.run_of("to_sage", "--name", "plane", path)[1])
        self.assertIn("listed['listing'] = ", self.run_of("to_sage", text=Path(path).read_bytes())[1])

    def test_a_text_that_is_cut_off_gives_its_whole_levels(self):
        text = (TOP / "examples" / "fano.listing").read_bytes()
        for script, sign in (("to_sage", ": "), ("to_macaulay2", " => ")):
            status, written, told = self.run_of(script, text=text[: text.index(b"level 6") - 4])
            self.assertEqual((status, told.startswith(f"{script}: line "), "cut off" in told), (0, True, True))
            self.assertIn(f"(4, 2){sign}", written)
            self.assertNotIn(f"(5, 1){sign}", written)

    def test_windows_line_ends(self):
        text = (TOP / "examples" / "fano.listing").read_bytes()
        for script in ("to_sage", "to_macaulay2"):
            self.assertEqual(self.run_of(script, text=text), self.run_of(script, text=text.replace(b"\n", b"\r\n")))

    def test_bad_inputs(self):
        counts = (TOP / "examples" / "counts.listing").read_bytes()
        for script in ("to_sage", "to_macaulay2"):
            status, written, told = self.run_of(script, text=counts)
            self.assertEqual((status, written, "counts alone" in told), (1, "", True))
            status, written, told = self.run_of(script, text=b"macek listing 1\nversion 3\n")
            self.assertEqual((status, written), (1, ""))
            self.assertEqual(told, f"{script}: line 2: this is not a line 'version 1' or 'version 2'\n")
            status, written, told = self.run_of(script, "no such file")
            self.assertEqual((status, written, "no such file" in told), (1, "", True))

    def test_words(self):
        for script in ("to_sage", "to_macaulay2", "from_sage.py"):
            status, written, told = self.run_of(script, "--help")
            self.assertEqual((status, written.startswith(f"usage: {script}"), told), (0, True, ""))
            status, written, told = self.run_of(script, "--wrong")
            self.assertEqual((status, written, told.startswith(f"usage: {script}")), (2, "", True))

    def test_sifted_texts_and_level_texts_are_taken(self):
        head = "version 1\nfield 2\nrank 3\nsize 7\nprint forms\n"
        for start, line in (("macek level 1\n", "level 4\n"), ("macek sifted 1\n", "sift over 3\nlevel 4\n")):
            text = start + head + line + "100 010 001 011\n100 010 001 111\n"
            status, written, told = self.run_of("to_sage", text=text.encode())
            self.assertEqual((status, told), (0, ""))
            self.assertIn("(4, 2): '100 010 001 111',\n", written)


if __name__ == "__main__":
    unittest.main()
