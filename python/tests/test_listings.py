"""The reader of listings, level texts, sifted texts and excluded listings."""

import io
import unittest

from support import EXAMPLES, TOP, examples_with_forms

from macek.fields import bases, field
from macek.listings import BadListing, CutOff, Grown, Levels, read_levels, read_listing

SHORT = b"macek listing 1\nversion 1\nfield 2\nrank 2\nsize 3\nprint forms\n"
SHORT += b"level 2 classes 1 listed 1 tried 0\n10 01\nlevel 3 classes 1 listed 1 tried 1\n10 01 11\nend\n"
HEAD = "macek level 1/version 1/field 2/rank 3/size 7/print forms/level 4/"
FIRST, SECOND = "100 010 001 011/", "100 010 001 111/"
SIFTED = "macek sifted 1/version 1/field 3/rank 2/size 4/print forms/"
EXCLUDED = SIFTED + "sift excluded 2/level 2 over 1 excluded 0/level 3 over 1 excluded 0/level 4 over 0 excluded 1/"
EXCLUDED += "10 01 11 12/end/"


def levels_of(text: str) -> Levels:
    """The levels of a text in which a line end is written as a slash."""
    return read_levels(io.BytesIO(text.replace("/", "\n").encode()))


def whole_levels(levels: Levels) -> tuple[list, str]:
    """The levels that come before a text ends, and the kind of its fault."""
    found = []
    try:
        for level in levels:
            found.append(level)
    except BadListing as fault:
        return found, type(fault).__name__
    return found, ""


class Examples(unittest.TestCase):
    def test_each_text_is_given_back(self):
        for path in EXAMPLES:
            levels = read_levels(io.BytesIO(path.read_bytes()))
            lines = ["macek listing 1", *levels.head.lines]
            for level in levels:
                lines.append(f"level {level.size} classes {level.classes} listed {level.listed} tried {level.tried}")
                lines += [form.text() for form in level.forms]
                self.assertEqual([form.number for form in level.forms], list(range(1, len(level.forms) + 1)))
                for form in level.forms:
                    self.assertEqual((form.orders, form.rank, form.size), (levels.head.orders, levels.head.rank, level.size))
            self.assertEqual("\n".join(lines + ["end", ""]), path.read_text(), path)

    def test_matrices_of_a_form_have_the_same_bases(self):
        for name, listing in examples_with_forms().items():
            for form in listing.forms:
                found = [bases(field(order), columns) for order, columns in zip(listing.orders, form.factors)]
                self.assertTrue(found[0], name)
                self.assertEqual(set(found), {form.bases()}, name)

    def test_windows_line_ends_are_taken(self):
        for path in EXAMPLES:
            text = path.read_bytes()
            given = list(read_levels(io.BytesIO(text.replace(b"\n", b"\r\n"))))
            self.assertEqual(given, list(read_levels(io.BytesIO(text))), path)


class Streams(unittest.TestCase):
    def test_a_level_comes_with_its_last_form(self):
        lines = SHORT.splitlines(keepends=True)
        taken = []

        def source():
            for line in lines:
                taken.append(line)
                yield line

        levels = read_levels(source())
        self.assertEqual(len(taken), 6)
        self.assertEqual(next(levels).size, 2)
        self.assertEqual(taken[-1], b"10 01\n")
        self.assertEqual(next(levels).size, 3)
        self.assertEqual(taken[-1], b"10 01 11\n")

    def test_each_front_gives_its_whole_levels_and_is_cut_off(self):
        ends = [SHORT.index(b"level 3"), SHORT.index(b"end")]
        for length in range(len(SHORT)):
            front = io.BytesIO(SHORT[:length])
            if length <= SHORT.index(b"level 2") - 1:
                with self.assertRaises(CutOff):
                    read_levels(front)
            else:
                found, fault = whole_levels(read_levels(front))
                self.assertEqual((len(found), fault), (sum(length >= end for end in ends), "CutOff"), length)

    def test_counts_have_levels_without_forms(self):
        levels = read_levels(io.BytesIO((TOP / "examples" / "counts.listing").read_bytes()))
        self.assertTrue(levels.head.counts)
        self.assertEqual({level.forms for level in levels}, {()})


class OtherTexts(unittest.TestCase):
    def test_blocks_of_a_level_text_are_numbered_on(self):
        counts = "grown 5 classes 1 tried 2/grown 9 classes 0 tried 0/"
        text = HEAD + FIRST + "grown 4 classes 1 tried 2/" + HEAD + HEAD + SECOND + counts
        levels = levels_of(text)
        self.assertEqual((levels.head.kind, levels.head.level), ("level", 4))
        found = list(levels)
        self.assertEqual([[form.number for form in level.forms] for level in found], [[1], [], [2]])
        self.assertEqual(found[2].grown, (Grown(5, 1, 2), Grown(9, 0, 0)))
        self.assertEqual([level.classes for level in found], [None] * 3)

    def test_a_level_text_that_is_cut_off(self):
        self.assertEqual(whole_levels(levels_of(HEAD + FIRST[:-1])), ([], "CutOff"))
        self.assertEqual(whole_levels(levels_of(HEAD + FIRST + "macek level 1/version 1/"))[1], "CutOff")

    def test_bad_level_texts(self):
        other = HEAD.replace("size 7", "size 8")
        for rest in (FIRST + other, "grown 4 classes 1 tried 1/" + FIRST, "grown 04 classes 1 tried 1/", "end/"):
            self.assertEqual(whole_levels(levels_of(HEAD + rest))[1], "BadListing")
        for old, new in (("level 4", "level 8"), ("level 4", "level 2"), ("forms", "counts"), ("print", "filter 3conn/print")):
            with self.assertRaises(BadListing):
                levels_of(HEAD.replace(old, new))

    def test_sifted_texts(self):
        text = SIFTED + "sift over 3 x 5/sift no U1,2/"
        text += "level 2 classes 1 listed 1 tried 0/10 01/level 3 classes 1 listed 1 tried 2/end/"
        levels = levels_of(text)
        self.assertEqual(levels.head.sifts, ("over 3 x 5", "no U1,2"))
        self.assertEqual([(level.listed, len(level.forms)) for level in levels], [(1, 1), (1, 0)])
        self.assertEqual(whole_levels(levels_of(text.replace("end/", ""))), (list(levels_of(text))[:1], "CutOff"))

    def test_a_sifted_level_text_has_no_end(self):
        text = SIFTED + "sift connected/level 3/10 01 11/grown 4 classes 2 tried 2/level 3/10 01 12/"
        found = list(levels_of(text))
        self.assertEqual([(level.size, [form.number for form in level.forms]) for level in found], [(3, [1]), (3, [2])])
        self.assertEqual(found[0].grown, (Grown(4, 2, 2),))

    def test_excluded_listings(self):
        found = list(levels_of(EXCLUDED))
        self.assertEqual([(level.over, level.excluded, len(level.forms)) for level in found], [(1, 0, 0), (1, 0, 0), (0, 1, 1)])
        self.assertEqual(whole_levels(levels_of(EXCLUDED.replace("10 01 11 12/end/", ""))), (found[:2], "CutOff"))
        self.assertEqual(whole_levels(levels_of(EXCLUDED.replace("end/", ""))), (found, "CutOff"))
        self.assertEqual(whole_levels(levels_of(EXCLUDED.replace("10 01 11 12/", "")))[1], "BadListing")
        sifted = EXCLUDED.replace("10 01 11 12/", "").replace("level 2 over", "sift 3conn/level 2 over")
        self.assertEqual([level.forms for level in levels_of(sifted.replace("excluded 2/", "excluded 2/", 1))], [()] * 3)
        counts = EXCLUDED.replace("print forms", "print counts").replace("10 01 11 12/", "")
        self.assertEqual([level.excluded for level in levels_of(counts)], [0, 0, 1])

    def test_bad_sifted_texts(self):
        with self.assertRaises(BadListing):
            levels_of(SIFTED + "level 3/")
        for test in ("over 6", "over 2 x", "has U2,11", "F7", "3conn x", "has matrix 2 12"):
            with self.assertRaises(BadListing):
                levels_of(SIFTED + f"sift {test}/level 3/")
        wrong = ["10 01/", "level 1/", "level 17/", "level 3 classes 1/", "level 3/10 01 11 12/", "level 3/01 10 11/", "end/end/"]
        for rest in wrong:
            self.assertEqual(whole_levels(levels_of(SIFTED + "sift 3conn/" + rest))[1], "BadListing", rest)


class Refused(unittest.TestCase):
    def refuse(self, text, words):
        with self.assertRaisesRegex(BadListing, words):
            read_listing(text)

    def test_the_short_listing_is_read(self):
        self.assertEqual([form.size for form in read_listing(SHORT).forms], [2, 3])

    def test_each_front_is_refused(self):
        for length in range(len(SHORT)):
            self.refuse(SHORT[:length], "")
        self.refuse(SHORT[: -len(b"end\n")], "after line 10: .* cut off")

    def test_each_line_left_out_or_doubled_is_refused(self):
        lines = SHORT.splitlines(keepends=True)
        for place in range(len(lines)):
            self.refuse(b"".join(lines[:place] + lines[place + 1 :]), "")
            self.refuse(b"".join(lines[: place + 1] + lines[place:]), "")

    def test_bytes_that_spoil_a_line_are_refused(self):
        for place in range(len(SHORT)):
            for byte in b" |-#x\n\r\xff":
                if SHORT[place] != byte:
                    self.refuse(SHORT[:place] + bytes([byte]) + SHORT[place + 1 :], "")

    def test_counts_and_other_kinds_are_refused(self):
        self.refuse((TOP / "examples" / "counts.listing").read_bytes(), "line 6: .* counts alone")
        self.refuse(EXCLUDED.replace("/", "\n").encode(), "line 1: ")

    def test_codes_belong_to_the_field(self):
        self.refuse(SHORT.replace(b"10 01 11", b"10 01 12"), "line 10: .* GF\\(2\\)")
        self.refuse(SHORT.replace(b"field 2", b"field 11"), "line 3: .* fields")

    def test_options_of_the_head_stand_once_and_in_their_order(self):
        start, end = SHORT.split(b"print forms\n")
        for options in (b"forbid U2,4\nforbid matrix 2 10 01 11\nfilter connected\nfilter has F7*\n", b"forbid F7-\n" * 8):
            self.assertEqual(len(read_listing(start + options + b"print forms\n" + end).forms), 2)
        for options in (b"filter distinct\nforbid F7\n", b"filter 3conn\n" * 2, b"forbid F7-\n" * 9, b"equivalence linear\n"):
            self.refuse(start + options + b"print forms\n" + end, "in its place")
        for minor in (b"F8", b"U2,11", b"U3,2", b"matrix 2", b"matrix 2 12", b"matrix 2 10 1", b"matrix 11 10", b"K4 K5"):
            self.refuse(start + b"forbid " + minor + b"\nprint forms\n" + end, "in its place")

    def test_no_more_forms_than_the_level_line_says(self):
        twice = SHORT.replace(b"listed 1 tried 1\n10 01 11\n", b"listed 2 tried 1\n10 01 11\n10 01 11\n")
        self.refuse(twice, "line 9: .* no more listed than classes")
        text = SIFTED + "sift 3conn/level 3 classes 2 listed 1 tried 2/10 01 11/10 01 12/end/"
        self.assertEqual(whole_levels(levels_of(text)), ([], "BadListing"))

    def test_one_matrix_for_each_field(self):
        self.refuse(SHORT.replace(b"field 2", b"field 2 x 3"), "not 2 matrices")


if __name__ == "__main__":
    unittest.main()
