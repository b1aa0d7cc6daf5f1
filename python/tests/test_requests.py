"""Texts of requests, against the heads of examples/ and what docs/FORMATS.md says of words."""

import io
import re
import unittest

from support import EXAMPLES

from macek import Form, Head, read_levels, request


def said(head: Head, start: str) -> list[str]:
    """What follows a word at the beginning of lines of a head."""
    return [line[len(start) :] for line in head.lines if line.startswith(start)]


ANY_ORDER = ["distinct", "3conn", "cosimple", "connected", "3conn"]


class Number:
    """An integer that isn't Python's."""

    def __init__(self, value: int) -> None:
        self.value = value

    def __index__(self) -> int:
        return self.value


class Requests(unittest.TestCase):
    def test_heads_of_the_examples_are_built(self):
        for path in EXAMPLES:
            head = read_levels(io.BytesIO(path.read_bytes())).head
            has = said(head, "filter has ")
            text = request(
                counts=head.counts,
                equivalence=(said(head, "equivalence ") or ["linear"])[0],
                field=said(head, "field ")[0],
                filters=[each for each in said(head, "filter ") if not each.startswith("has ")],
                forbid=said(head, "forbid "),
                has=has[0] if has else None,
                rank=head.rank,
                size=head.size,
            )
            self.assertEqual(text, head.request, path)

    def test_lines_stand_in_the_order_of_a_head(self):
        text = request(
            rank=3, field=[4, 4], size=7, forbid=["F7", "U2,5"], filters=ANY_ORDER, has="K4", equivalence="semilinear"
        )
        lines = "version 1/field 4 x 4/rank 3/size 7/equivalence semilinear/forbid F7/forbid U2,5/"
        lines += "filter connected/filter 3conn/filter cosimple/filter distinct/filter has K4/print forms/"
        self.assertEqual(text, lines.replace("/", "\n"))

    def test_minors_are_names_matrices_and_forms(self):
        form = Form((3, 4), (((1, 0), (0, 1), (1, 2)), ((1, 0), (0, 1), (1, 3))), 1)
        for minor in ("matrix 3 10 01 12", (3, ["10", "01", "12"]), (3, ((1, 0), (0, 1), (1, 2))), form):
            text = request(rank=2, field=3, size=4, forbid=[minor], has=minor)
            self.assertEqual(re.findall("matrix.*", text), ["matrix 3 10 01 12"] * 2)

    def test_version_2_stands_where_it_has_to(self):
        second = [{"field": 11}, {"field": "2 x 13"}, {"forbid": [(13, ["1c"])]}, {"has": (11, ["1"])}, {"version": 2}]
        for version, words in ((1, {}), (1, {"version": 1}), *((2, words) for words in second)):
            text = request(**{"rank": 2, "field": 3, "size": 4, **words})
            self.assertEqual(text.splitlines()[0], f"version {version}", words)

    def test_numbers_need_not_be_those_of_python(self):
        """As SageMath's integers are none."""
        text = request(rank=Number(3), field=Number(4), size=Number(7), forbid=[(Number(3), ["10", "01"])])
        self.assertEqual(text, request(rank=3, field=4, size=7, forbid=[(3, ["10", "01"])]))
        self.assertEqual(request(rank=3, field=[Number(4), 5], size=7), request(rank=3, field="4 x 5", size=7))
        for words in ({"rank": 3.5}, {"size": "7"}, {"field": 4.0}):
            with self.assertRaises(TypeError):
                request(**{"rank": 3, "field": 4, "size": 7, **words})

    def test_what_has_no_place_is_refused(self):
        for words in (
            {"field": "3x4"},
            {"field": 6},
            {"field": [2, 3, 4, 5]},
            {"field": []},
            {"field": "3\nsize 4"},
            {"forbid": ["F8"]},
            {"forbid": ["F7\nprint counts"]},
            {"forbid": ["U2,11"]},
            {"forbid": [(3, ["103"])]},
            {"has": (2, ["10", "1"])},
            {"filters": ["has K4"]},
            {"filters": ["3connected"]},
            {"filters": "distinct"},
            {"equivalence": "none"},
            {"field": 11, "version": 1},
            {"version": 3},
        ):
            with self.assertRaises(ValueError, msg=words):
                request(**{"rank": 2, "field": 3, "size": 4, **words})


if __name__ == "__main__":
    unittest.main()
