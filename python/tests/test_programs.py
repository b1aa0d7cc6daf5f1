"""Runs of the programs: by the built ones where they are there, and by small scripts in their place."""

import doctest
import io
import os
import tempfile
import unittest
from pathlib import Path
from unittest import mock

from support import TOP, examples_with_forms, skip_without

import macek
from macek import programs

TERNARY = macek.request(rank=3, field=3, size=6)


def example(name: str) -> str:
    return (TOP / "examples" / f"{name}.listing").read_text()


class Stand:
    """A folder with a script in the place of a program, named by MACEK_BIN."""

    def __init__(self, test: unittest.TestCase, name: str, lines: str) -> None:
        folder = tempfile.TemporaryDirectory()
        test.addCleanup(folder.cleanup)
        file = Path(folder.name) / name
        file.write_text("#!/bin/sh\n" + lines)
        file.chmod(0o755)
        patch = mock.patch.dict(os.environ, {"MACEK_BIN": folder.name})
        patch.start()
        test.addCleanup(patch.stop)
        self.folder = Path(folder.name)


class Finding(unittest.TestCase):
    def test_the_named_folder_comes_first(self):
        stand = Stand(self, "macek_alone", "exit 0\n")
        self.assertEqual(programs.find("macek_alone"), (stand.folder / "macek_alone").resolve())

    def test_the_path_comes_last(self):
        stand = Stand(self, "macek_elsewhere", "exit 0\n")
        with mock.patch.dict(os.environ, {"MACEK_BIN": "", "PATH": str(stand.folder)}):
            self.assertEqual(programs.find("macek_elsewhere"), stand.folder / "macek_elsewhere")

    def test_a_program_that_is_nowhere_is_told_at_once(self):
        Stand(self, "macek", "exit 0\n")
        with self.assertRaises(macek.ProgramNotFound) as caught:
            programs.levels_of("macek_nowhere", [], "")
        for place in (os.environ["MACEK_BIN"], "path", *(str(folder) for folder in programs.folders("macek_nowhere"))):
            self.assertIn(place, str(caught.exception))

    def test_the_repository_comes_after_the_named_folder(self):
        stand = Stand(self, "macek_alone", "exit 0\n")
        (stand.folder / "crates" / "macek_other" / "out").mkdir(parents=True)
        file = stand.folder / "crates" / "macek_other" / "out" / "macek_other"
        file.write_text("#!/bin/sh\n")
        with mock.patch.object(programs, "REPOSITORY", stand.folder):
            with self.assertRaises(macek.ProgramNotFound):
                programs.find("macek_other")
            file.chmod(0o755)
            self.assertEqual(programs.find("macek_other"), file.resolve())
            self.assertEqual(programs.find("macek_alone"), (stand.folder / "macek_alone").resolve())


class Endings(unittest.TestCase):
    """What comes of a run that ends badly, by scripts in the place of the program."""

    def run_of(self, lines: str) -> tuple:
        Stand(self, "macek_alone", lines)
        sizes = []
        try:
            for level in macek.run(TERNARY):
                sizes.append(level.size)
        except Exception as fault:
            return sizes, fault
        return sizes, None

    def begun(self, lines: int) -> str:
        return f"head -n {lines} {TOP / 'examples' / 'ternary.listing'}\n"

    def test_whole_levels_come_before_a_fault(self):
        sizes, fault = self.run_of(self.begun(11) + "echo 'macek: out of memory' >&2\nexit 6\n")
        self.assertEqual((sizes, type(fault), fault.status, str(fault)), ([3, 4], macek.ProgramFault, 6, "macek: out of memory"))
        self.assertIsInstance(fault.__cause__, macek.CutOff)

    def test_whole_levels_come_before_a_kill(self):
        sizes, fault = self.run_of(self.begun(8) + "kill -9 $$\n")
        self.assertEqual((sizes, fault.status, fault.text), ([3], -9, ""))
        self.assertIn("-9", str(fault))

    def test_a_listing_that_ends_too_early_is_cut_off(self):
        sizes, fault = self.run_of(self.begun(11))
        self.assertEqual((sizes, type(fault)), ([3, 4], macek.CutOff))

    def test_a_fault_after_the_whole_listing_is_told(self):
        sizes, fault = self.run_of(f"cat {TOP / 'examples' / 'ternary.listing'}\nexit 5\n")
        self.assertEqual((sizes, fault.status), (list(range(3, 14)), 5))

    def test_a_program_without_end_is_ended_with_its_iterator(self):
        stand = Stand(self, "macek_alone", f"echo $$ > $(dirname $0)/number\n{self.begun(11)}exec sleep 600\n")
        levels = macek.run(TERNARY)
        self.assertEqual([next(levels).size, next(levels).size], [3, 4])
        levels.close()
        number = int((stand.folder / "number").read_text())
        with self.assertRaises(ProcessLookupError):
            os.kill(number, 0)

    def test_refusals_have_their_numbers(self):
        for text, number in (("macek: refused 5: rank 7 is not from 1 to 6", 5), ("macek_resume: listing refused 3", 3)):
            _, fault = self.run_of(f"echo '{text}' >&2\nexit 3\n")
            self.assertEqual((type(fault), fault.number, fault.status, fault.text), (macek.Refused, number, 3, text))

    def test_words_of_the_program(self):
        stand = Stand(self, "macek_alone", "echo \"$@\" > $(dirname $0)/words\ncat >> $(dirname $0)/words\nexit 2\n")
        with self.assertRaises(macek.ProgramFault):
            next(macek.run(TERNARY, orderly=True))
        self.assertEqual((stand.folder / "words").read_text(), "--orderly\n" + TERNARY)
        with self.assertRaises(ValueError):
            macek.run(TERNARY, workers=2, orderly=True)


@skip_without("macek_alone", "macek", "macek_resume")
class Runs(unittest.TestCase):
    def test_each_way_gives_the_levels_of_an_example(self):
        wanted = list(macek.read_levels(io.BytesIO(example("golden_mean").encode())))
        head = macek.read_levels(io.BytesIO(example("golden_mean").encode())).head
        for words in ({}, {"orderly": True}, {"workers": 2}):
            copy = io.BytesIO()
            self.assertEqual(list(macek.run(head.request, copy=copy, **words)), wanted)
            self.assertEqual(copy.getvalue().decode(), example("golden_mean"))

    def test_a_request_is_refused(self):
        wide, many = {"rank": 6, "field": "9 x 9"}, {"forbid": ["F7"] * 9}
        for words, number in (({"rank": 7}, 5), ({"size": 17}, 6), (wide, 7), (many, 8)):
            text = macek.request(**{"rank": 3, "field": 3, "size": 6, **words})
            with self.assertRaises(macek.Refused) as caught:
                list(macek.run(text))
            self.assertEqual((caught.exception.status, caught.exception.number), (3, number))

    def test_a_long_text_is_refused(self):
        with self.assertRaises(macek.Refused) as caught:
            list(macek.run("#" * 200_000))
        self.assertEqual(caught.exception.number, 1)

    def test_a_run_is_gone_on_with(self):
        text = example("ternary")
        wanted = [level for level in macek.read_levels(io.BytesIO(text.encode())) if level.size <= 8]
        self.assertEqual(list(macek.resume(text[: text.index("level 6") + 3], 8)), wanted)
        with self.assertRaises(macek.Refused) as caught:
            list(macek.resume(text.replace("100 010 001 011 112\n", ""), 8))
        self.assertEqual(caught.exception.number, 3)

    def test_wrong_words_are_told(self):
        with self.assertRaises(macek.ProgramFault) as caught:
            list(macek.run(TERNARY, workers=65))
        self.assertEqual(caught.exception.status, 2)


@skip_without("macek_ask")
class Questions(unittest.TestCase):
    def test_the_dual_of_a_dual_is_the_form(self):
        for form in examples_with_forms()["golden_mean"].forms:
            if form.size > form.rank:
                dual = macek.ask_dual(form.orders, *form.factors)
                self.assertEqual((dual.rank, dual.size), (form.size - form.rank, form.size))
                self.assertEqual(len(dual.bases()), len(form.bases()))
                self.assertEqual(macek.ask_dual(dual.orders, *dual.factors).text(), form.text())

    def test_over_a_field(self):
        self.assertIsNone(macek.ask_over(3, "F7"))
        fano = macek.ask_over(4, "F7")
        self.assertEqual((fano.orders, fano.text()), ((4,), "100 010 001 011 101 110 111"))
        self.assertEqual(macek.ask_over(2, fano).bases(), fano.bases())
        self.assertIsNone(macek.ask_over(5, fano))

    def test_what_asks_no_question_is_told(self):
        for ask in (lambda: macek.ask_over(3, "F8"), lambda: macek.ask_dual(2, ["01", "10", "11"])):
            with self.assertRaises(macek.ProgramFault) as caught:
                ask()
            self.assertEqual(caught.exception.status, 2)
        for ask in (lambda: macek.ask_dual(2, ["12"]), lambda: macek.ask_dual("2 x 3", ["10", "01", "11"])):
            with self.assertRaises(ValueError):
                ask()


@skip_without("macek_alone", "macek_ask")
class Guide(unittest.TestCase):
    def test_the_example_is_as_the_guide_says(self):
        """The example without what needs SageMath."""
        part = (TOP / "docs" / "GUIDE.md").read_text().split("\n## From Python\n")[1].split("\nIn SageMath's Python ")[0]
        example = doctest.DocTestParser().get_doctest(part, {}, "From Python", "docs/GUIDE.md", 0)
        self.assertGreater(len(example.examples), 10)
        told: list = []
        doctest.DocTestRunner(verbose=False).run(example, out=told.append)
        self.assertEqual("".join(told), "")


if __name__ == "__main__":
    unittest.main()
