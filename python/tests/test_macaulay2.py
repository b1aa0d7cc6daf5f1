"""The text for Macaulay2, and its matroids where Macaulay2 is installed."""

import io
import re
import subprocess
import tempfile
import unittest
from pathlib import Path

from support import TOP, examples_with_forms, skip_without_command

from macek.fields import field
from macek.listings import Head, read_levels
from macek.macaulay2 import lines_of


def text_of(name: str) -> str:
    """The text of to_macaulay2 for an example."""
    levels = read_levels(io.BytesIO((TOP / "examples" / f"{name}.listing").read_bytes()))
    forms = [form for level in levels for form in level.forms]
    return "\n".join(lines_of(name, levels.head, forms)) + "\n"


class Text(unittest.TestCase):
    def test_the_table_has_the_forms_and_the_fields(self):
        for name, listing in examples_with_forms().items():
            text = text_of(name)
            table = re.findall(r'\((\d+), (\d+)\) => "(.*)"', text)
            self.assertEqual(table, [(str(form.size), str(form.number), form.text()) for form in listing.forms])
            calls = re.findall(r"elementsOf\((\d+), (\d+), \{([\d, ]+)\}\)", text)
            fields = [(int(order), int(prime), tuple(map(int, modulus.split(", ")))) for order, prime, modulus in calls]
            wanted = [(over.order, over.characteristic, over.modulus) for over in map(field, listing.orders)]
            self.assertEqual(fields, wanted)

    def test_names_are_quoted(self):
        head = Head("listing", ("version 1",), 1, (2,), 1, 1)
        self.assertIn('listed#"a \\"b\\" \\\\c" = ', "\n".join(lines_of('a "b" \\c', head, [])))


@skip_without_command("M2")
class InMacaulay2(unittest.TestCase):
    """Two texts in one run, so that the second doesn't overwrite the first."""

    NAMES = ("nonary", "golden_mean", "quaternary")

    def answers(self, code: str) -> list:
        """The lines that a code writes after the texts of the examples."""
        with tempfile.TemporaryDirectory() as folder:
            file = Path(folder) / "code.m2"
            file.write_text("".join(map(text_of, self.NAMES)) + code)
            done = subprocess.run(["M2", "--script", file], capture_output=True, text=True, stdin=subprocess.DEVNULL)
        self.assertEqual((done.returncode, done.stderr), (0, ""))
        return done.stdout.splitlines()

    def test_matroids_have_as_many_bases(self):
        names = ", ".join(f'"{name}"' for name in self.NAMES)
        code = f"scan({{{names}}}, name -> scan(listedForms name, place -> print toString(name, place,"
        code += " apply(listedMatroids(name, place#0, place#1), each -> #bases each))))\n"
        listings = examples_with_forms()
        wanted = []
        for name in self.NAMES:
            for form in listings[name].forms:
                counts = ", ".join([str(len(form.bases()))] * len(form.orders))
                wanted.append(f"({name},({form.size},{form.number}),{{{counts}}})")
        self.assertEqual(self.answers(code), wanted)

    def test_entries_are_the_elements_of_the_codes(self):
        """The field of nine elements: sums and products of the entries are those of their codes."""
        code = "nine = first listed#\"nonary\"#\"elements\"\nplace = each -> position(nine, other -> other == each)\n"
        code += "scan(nine, one -> print toString apply(nine, other -> (place(one+other), place(one*other))))\n"
        over = field(9)
        pairs = [[f"({over.add(one, other)},{over.multiply(one, other)})" for other in range(9)] for one in range(9)]
        self.assertEqual(self.answers(code), ["{" + ", ".join(row) + "}" for row in pairs])

    def test_a_matrix_by_rows(self):
        form = next(form for form in examples_with_forms()["quaternary"].forms if form.size == 6)
        elements = ["0", "1", "x", "x+1"]
        rows = [", ".join(elements[code] for code in row) for row in zip(*form.factors[0])]
        code = 'print toString entries first listedMatrices("quaternary", 6, 1)\n'
        self.assertEqual(self.answers(code), ["{{" + "}, {".join(rows) + "}}"])

    def test_minors_of_one_size_are_no_minors_there(self):
        """What the guide says of hasMinor: false between isomorphic matroids of one size."""
        code = 'M = first listedMatroids("quaternary", 6, 1)\n'
        code += "N = matroid(toList(0..5), apply(bases M, each -> apply(toList each, place -> (place+1)%6)))\n"
        code += "print toString(areIsomorphic(M, N), M == N, hasMinor(M, N))\n"
        self.assertEqual(self.answers(code), ["(true,false,false)"])


if __name__ == "__main__":
    unittest.main()
