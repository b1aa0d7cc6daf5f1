"""Pictures are read back from their SVG and measured; the script is run as a user runs it."""

from __future__ import annotations

import re
import shutil
import subprocess
import sys
import tempfile
import unittest
from cmath import phase
from dataclasses import dataclass
from itertools import combinations
from pathlib import Path
from xml.etree import ElementTree

ROOT = Path(__file__).resolve().parent.parent.parent
sys.path.insert(0, str(ROOT / "python"))

from macek.drawing import Geometry, NotDrawn, Picture, chart, counts_of, draw, faults_of, geometry_of, segment, sheet, svg
from macek.listings import Form, read_levels, read_listing

EXAMPLES = ROOT / "examples"
SVG = "{http://www.w3.org/2000/svg}"
SAMPLES = 60


@dataclass
class Drawn:
    """What an SVG has for one form: points as places and radii, lines as places along them, boxes of its words."""

    points: list[tuple[complex, float]]
    lines: list[list[complex]]
    boxes: list[tuple[float, float, float, float]]
    caption: str


def drawn_pictures(text: str) -> list[Drawn]:
    """The pictures of a sheet, each ended by the words of its size and number and, it may be, a name."""
    pictures: list[Drawn] = []
    points: list[tuple[complex, float]] = []
    lines: list[list[complex]] = []
    for element in ElementTree.fromstring(text):
        if element.tag == SVG + "circle":
            points.append((complex(float(element.get("cx", "")), float(element.get("cy", ""))), float(element.get("r", ""))))
        elif element.tag == SVG + "path":
            lines.append(places_along(element.get("d", "")))
        elif element.tag == SVG + "text" and (element.text or "").startswith("size "):
            pictures.append(Drawn(points, lines, [box_of(element)], element.text or ""))
            points, lines = [], []
        elif element.tag == SVG + "text":
            pictures[-1].boxes.append(box_of(element))
    return pictures


def places_along(path: str) -> list[complex]:
    """Many places along a path of cubic pieces."""
    first, *pieces = re.findall(r"[MC][^MC]*", path)
    places = [place_of(first[1:])]
    for piece in pieces:
        start = places[-1]
        one, two, end = (place_of(pair) for pair in piece[1:].split())
        for step in range(1, SAMPLES + 1):
            t = step / SAMPLES
            places.append((1 - t) ** 3 * start + 3 * t * (1 - t) ** 2 * one + 3 * t * t * (1 - t) * two + t**3 * end)
    return places


def place_of(pair: str) -> complex:
    left, right = pair.split(",")
    return complex(float(left), float(right))


def box_of(element: ElementTree.Element) -> tuple[float, float, float, float]:
    """A box that holds a centred line of text, with letters as wide as the widest of a common font."""
    size = float(element.get("font-size", ""))
    half = 0.4 * size * len(element.text or "")
    x, y = float(element.get("x", "")), float(element.get("y", ""))
    return x - half, y - size, x + half, y + 0.3 * size


def passes(place: complex, along: list[complex], within: float) -> int:
    """How often a line comes within a distance of a place; the ends of a closed line are one."""
    near = [abs(each - place) < within for each in along]
    starts = sum(now and not before for before, now in zip([False, *near], near))
    is_closed = abs(along[0] - along[-1]) < 0.1
    return starts - int(is_closed and starts > 1 and near[0] and near[-1])


def sharpest_turn(along: list[complex]) -> float:
    """The greatest angle by which a line turns between a place and those a little before and behind."""
    greatest = 0.0
    for number, place in enumerate(along):
        before = [each for each in along[:number] if abs(each - place) > 6][-1:]
        behind = [each for each in along[number:] if abs(each - place) > 6][:1]
        for one, other in zip(before, behind):
            greatest = max(greatest, abs(phase((other - place) / (place - one))))
    return greatest


def lines_of(form: Form) -> list[frozenset[int]]:
    """The greatest sets of three and more columns of which no three are a basis."""
    bases = form.bases()

    def are_collinear(three: set[int]) -> bool:
        return len(three) < 3 or tuple(sorted(three)) not in bases

    pairs = combinations(range(form.size), 2)
    spanned = {frozenset(each for each in range(form.size) if are_collinear({*pair, each})) for pair in pairs}
    return [line for line in spanned if len(line) > 2]


class Measured(unittest.TestCase):
    """Tests that measure pictures."""

    def assert_shows(self, drawn: Drawn, form: Form) -> None:
        """Fails unless a picture shows the matroid of a form, and nothing else."""
        self.assertEqual(len(drawn.points), form.size, drawn.caption)
        for (one, radius), (other, _) in combinations(drawn.points, 2):
            self.assertGreater(abs(one - other), 3 * radius, f"{drawn.caption}: points that touch")
        found = [self.points_on(drawn, along) for along in drawn.lines]
        self.assertEqual(len(set(found)), len(found), f"{drawn.caption}: a line that is drawn twice")
        wanted = lines_of(form) if form.rank == 3 else [frozenset(range(form.size))]
        self.assertEqual(set(found), set(wanted), drawn.caption)
        for along in drawn.lines:
            self.assertLess(sharpest_turn(along), 1.3, f"{drawn.caption}: a line with a corner")
        self.assert_words_apart(drawn)

    def points_on(self, drawn: Drawn, along: list[complex]) -> frozenset[int]:
        """The points that a line goes through, each once; it passes all others by."""
        on = set()
        for number, (place, radius) in enumerate(drawn.points):
            least = min(abs(each - place) for each in along)
            if least < 0.1:
                on.add(number)
                self.assertEqual(passes(place, along, 1.5 * radius), 1, f"{drawn.caption}: a line meets a point twice")
            else:
                self.assertGreater(least, 1.8 * radius, f"{drawn.caption}: a line passes near a point that isn't on it")
        return frozenset(on)

    def assert_words_apart(self, drawn: Drawn) -> None:
        for left, top, right, bottom in drawn.boxes:
            for place, radius in drawn.points:
                inside = left - radius < place.real < right + radius and top - radius < place.imag < bottom + radius
                self.assertFalse(inside, f"{drawn.caption}: words over a point")
            for along in drawn.lines:
                crossed = any(left < place.real < right and top < place.imag < bottom for place in along)
                self.assertFalse(crossed, f"{drawn.caption}: words over a line")


class Pictures(Measured):
    def test_small_matroids_are_drawn_as_they_are(self) -> None:
        for name, most in (("fano", 7), ("ternary", 8), ("golden_mean", 5), ("quaternary", 6), ("inequivalent", 8), ("eleven", 12)):
            forms = [form for form in read_listing((EXAMPLES / f"{name}.listing").read_bytes()).forms if form.size <= most]
            with self.subTest(listing=name):
                pictures = drawn_pictures(svg(sheet(forms)))
                self.assertEqual(len(pictures), len(forms))
                for drawn, form in zip(pictures, forms):
                    if form.rank == 3 or form.size > 2:
                        self.assert_shows(drawn, form)

    def test_a_picture_is_the_same_each_time(self) -> None:
        forms = [form for form in read_listing((EXAMPLES / "fano.listing").read_bytes()).forms if form.size > 5]
        self.assertEqual(svg(sheet(forms)), svg(sheet(forms)))

    def test_as_many_lines_are_straight_as_there_can_be(self) -> None:
        forms = read_listing((EXAMPLES / "fano.listing").read_bytes()).forms
        bent = {}
        for form in forms:
            picture = draw(geometry_of(form))
            assert picture is not None
            bent[form.size, form.number] = sum(not is_straight(curve) for curve in picture.curves)
        # Without the Fano matroid each simple binary matroid of rank 3 has a drawing by straight lines; it has one but for a line.
        self.assertEqual([bent[form.size, form.number] for form in forms], [int(form.size == 7) for form in forms])

    def test_other_ranks_are_refused(self) -> None:
        form = read_listing((EXAMPLES / "binary_four.listing").read_bytes()).forms[0]
        with self.assertRaisesRegex(NotDrawn, "rank 4"):
            geometry_of(form)

    def test_faults_are_seen(self) -> None:
        geometry = Geometry(3, 4, ((0, 1, 2),))
        through = (-60 + 0j, 0j, 60 + 0j)
        right = (segment(through[0], through[1]), segment(through[1], through[2]))
        self.assertEqual(faults_of(Picture(geometry, (*through, 50j), (right,))), [])
        for places, curve in (
            ((*through, 30 + 5j), right),
            ((*through, 5j), right),
            ((*through, 50j), right[:1]),
            ((*through, 50j), (segment(through[0], through[2]),)),
            ((*through, 50j), (right[0], (0j, 300j, 300j, 60 + 0j))),
            ((-60 + 0j, 0j, 60j, 50 + 0j), (segment(-60 + 0j, 0j), segment(0j, 60j))),
        ):
            with self.subTest(places=places, curve=curve):
                self.assertNotEqual(faults_of(Picture(geometry, places, (curve,))), [])


def is_straight(curve: tuple[tuple[complex, complex, complex, complex], ...]) -> bool:
    """Whether all control points of a curve are on the line of its ends."""
    start, end = curve[0][0], curve[-1][3]
    offsets = [((place - start) * (end - start).conjugate()).imag for piece in curve for place in piece]
    return start != end and max(abs(offset) for offset in offsets) < 1e-3 * abs(end - start) ** 2


class Guide(Measured):
    def test_the_sheet_of_the_guide_shows_the_ternary_matroids(self) -> None:
        forms = read_listing((EXAMPLES / "ternary.listing").read_bytes()).forms
        pictures = drawn_pictures((ROOT / "docs" / "pictures" / "ternary_rank_3.svg").read_text(encoding="utf-8"))
        self.assertEqual([drawn.caption for drawn in pictures], [f"size {form.size}, form {form.number}" for form in forms])
        for drawn, form in zip(pictures, forms):
            self.assert_shows(drawn, form)


    def test_commands_of_the_guide_write_sheets(self) -> None:
        guide = (ROOT / "docs" / "GUIDE.md").read_text(encoding="utf-8")
        commands = re.findall(r"^    tools/draw --to (\S+) (.*)$", guide, re.MULTILINE)
        commands += re.findall(r"^    tools/draw --counts --to (\S+)( .*)$", guide, re.MULTILINE)
        self.assertEqual(len(commands), guide.count("    tools/draw "))
        for target, words in commands:
            # All sizes take a minute; one shows that the words are right.
            more = ["--counts"] if words.startswith(" ") else []
            size = [] if more else ["5"]
            with self.subTest(words=words), tempfile.TemporaryDirectory() as folder:
                sheet_file = Path(folder, target)
                draw_words = [str(ROOT / "tools" / "draw"), *more, "--to", str(sheet_file), *words.split(), *size]
                done = subprocess.run([sys.executable, *draw_words], cwd=ROOT, capture_output=True, text=True)
                self.assertEqual((done.returncode, done.stderr), (0, ""))
                self.assertEqual(ElementTree.parse(sheet_file).getroot().tag, SVG + "svg")


class Chart(unittest.TestCase):
    def test_places_are_logarithms(self) -> None:
        places = spots({"one": {3: 1, 4: 10, 5: 100, 6: 0, 7: 1000}})
        heights = [place.imag for place in places]
        self.assertEqual(len(places), 4)
        self.assertAlmostEqual(heights[0] - heights[1], heights[1] - heights[2], places=1)
        self.assertAlmostEqual(heights[1] - heights[2], heights[2] - heights[3], places=1)
        self.assertAlmostEqual(places[3].real - places[2].real, 2 * (places[1].real - places[0].real), places=1)

    def test_no_number_is_refused(self) -> None:
        with self.assertRaises(NotDrawn):
            chart({"none": {3: 0}})

    def test_one_size_with_one_class_is_drawn(self) -> None:
        self.assertEqual(len(spots({"single": {3: 1}})), 1)

    def test_counts_are_those_of_the_level_lines(self) -> None:
        text = (EXAMPLES / "counts.listing").read_text()
        found = {int(size): int(classes) for size, classes in re.findall(r"level (\d+) classes (\d+)", text)}
        with open(EXAMPLES / "counts.listing", "rb") as file:
            self.assertEqual(counts_of(read_levels(file)), found)


def spots(counts: dict[str, dict[int, int]]) -> list[complex]:
    """The places of the points of a chart that have a title, in order."""
    tree = ElementTree.fromstring(svg(chart(counts)))
    titled = [circle for circle in tree.iter(SVG + "circle") if circle.find(SVG + "title") is not None]
    return [complex(float(circle.get("cx", "")), float(circle.get("cy", ""))) for circle in titled]


class Script(unittest.TestCase):
    def run_draw(self, *words: str) -> subprocess.CompletedProcess[str]:
        return subprocess.run([sys.executable, str(ROOT / "tools" / "draw"), *words], capture_output=True, text=True)

    def listing(self, name: str) -> str:
        return str(EXAMPLES / f"{name}.listing")

    def written(self, text: bytes) -> str:
        """The name of a file with a text, which is gone after the test."""
        folder = tempfile.mkdtemp()
        self.addCleanup(shutil.rmtree, folder)
        path = Path(folder, "text.listing")
        path.write_bytes(text)
        return str(path)

    def test_help(self) -> None:
        done = self.run_draw("--help")
        self.assertEqual((done.returncode, done.stderr), (0, ""))
        self.assertIn("usage: draw", done.stdout)

    def test_wrong_words(self) -> None:
        listing = self.listing("fano")
        for words in ((), ("--colour", listing), (listing, "seven"), (listing, "4", "5"), ("--to",), ("--counts",)):
            with self.subTest(words=words):
                done = self.run_draw(*words)
                self.assertEqual((done.returncode, done.stdout), (2, ""))
                self.assertIn("usage: draw", done.stderr)

    def test_bad_inputs(self) -> None:
        bad = self.written(b"macek listing 1\nversion 3\n")
        for words, reason in (
            ((self.listing("binary_four"),), "rank 4"),
            ((self.listing("fano"), "8"), "no form of size 8"),
            ((self.listing("class_regular"),), "counts alone"),
            ((bad,), "line 2"),
            (("--counts", bad), "line 2"),
            ((bad + ".none",), "No such file"),
        ):
            with self.subTest(words=words):
                done = self.run_draw(*words)
                self.assertEqual((done.returncode, done.stdout), (1, ""))
                self.assertIn(reason, done.stderr)

    def test_one_size(self) -> None:
        done = self.run_draw(self.listing("fano"), "6")
        self.assertEqual((done.returncode, done.stderr), (0, ""))
        forms = [form for form in read_listing((EXAMPLES / "fano.listing").read_bytes()).forms if form.size == 6]
        self.assertEqual(done.stdout, svg(sheet(forms)))

    def test_windows_line_ends(self) -> None:
        text = (EXAMPLES / "fano.listing").read_bytes()
        crlf = self.run_draw(self.written(text.replace(b"\n", b"\r\n")), "5")
        self.assertEqual((crlf.returncode, crlf.stdout), (0, self.run_draw(self.listing("fano"), "5").stdout))

    def test_whole_levels_of_a_cut_off_listing(self) -> None:
        text = (EXAMPLES / "fano.listing").read_bytes()
        cut = self.written(text[: text.index(b"level 6") + 45])
        done = self.run_draw(cut)
        self.assertEqual(done.returncode, 0)
        self.assertIn("whole levels", done.stderr)
        wanted = [form for form in read_listing(text).forms if form.size < 6]
        self.assertEqual(done.stdout, svg(sheet(wanted)))
        self.assertEqual(self.run_draw("--counts", cut).returncode, 0)

    def test_files(self) -> None:
        target = Path(self.written(b"")).with_name("sheet.svg")
        self.assertEqual(self.run_draw("--to", str(target), self.listing("fano"), "4").stdout, "")
        self.assertEqual(target.read_text(encoding="utf-8"), self.run_draw(self.listing("fano"), "4").stdout)

    def test_png_is_written_or_refused_by_name(self) -> None:
        target = Path(self.written(b"")).with_name("sheet.png")
        done = self.run_draw("--to", str(target), self.listing("fano"), "5")
        if done.returncode == 0:
            self.assertEqual(target.read_bytes()[:8], b"\x89PNG\r\n\x1a\n")
        else:
            self.assertEqual(done.returncode, 1)
            self.assertIn("rsvg-convert, Inkscape or matplotlib", done.stderr)
            self.assertFalse(target.exists())

    def test_counts(self) -> None:
        done = self.run_draw("--counts", self.listing("ternary"), self.listing("counts"))
        self.assertEqual((done.returncode, done.stderr), (0, ""))
        texts = [each.text for each in ElementTree.fromstring(done.stdout).iter(SVG + "text")]
        self.assertIn("ternary.listing: field 3, rank 3", texts)
        self.assertIn("counts.listing: field 2, rank 4", texts)


if __name__ == "__main__":
    unittest.main()
