"""Pictures of matroids of rank 2 and 3 by points and lines, and of counts by size, as SVG or PNG.

A matroid is drawn as theorists draw it: a point for each element, a line through each set of three or more collinear points.
As many lines as can be found to be straight together are straight; the others are bent, and keep clear of every point that is
not on them. The places come from a search with a fixed seed, so a matrix has the same picture each time. A picture is checked
before it is given (`faults_of`); where the search finds none without a fault, the picture says so in place of points.

`sheet` makes a sheet of pictures, `chart` the counts by size of several listings, `svg` and `write_png` write either.
"""

from __future__ import annotations

import cmath
import math
import shutil
import subprocess
import tempfile
from collections.abc import Callable, Iterable, Iterator, Mapping, Sequence
from dataclasses import dataclass, replace
from html import escape
from importlib import import_module
from itertools import combinations, permutations
from pathlib import Path
from random import Random
from typing import Any, Optional, Union

from macek.listings import Form, Level, Representation

# Places are complex numbers, in units of a sheet (pixels), with the second axis downward.
# A curve is a chain of cubic pieces: start, two control points, end.
Piece = tuple[complex, complex, complex, complex]
Curve = tuple[Piece, ...]

POINT_RADIUS = 4.5
# A picture's points are at most so far from its middle, and its curves.
POINTS_WITHIN = 78.0
CURVES_WITHIN = 94.0
# The least distance of a curve from a point that it must miss, and of two points.
CLEARANCE = 2 * POINT_RADIUS
# What the search for curves aims at.
WANTED_CLEARANCE = 3 * POINT_RADIUS
# A turn of this angle or more within so short a way is a corner.
CORNER_REACH, CORNER_ANGLE = 6.0, 1.1
# What a whole circle costs in place of as much of any other curve: it is easily seen for what it is.
WHOLE_CIRCLE = 0.4
# The least angle between two lines where they meet in a point that the search aims at.
WANTED_ANGLE = 0.35


class NotDrawn(Exception):
    """What was asked for cannot be drawn; the message says why."""


@dataclass(frozen=True)
class Geometry:
    """A simple matroid of rank 2 or 3: its elements are the numbers below its size, its lines those of three points and more."""

    rank: int
    size: int
    lines: tuple[tuple[int, ...], ...]

    def lines_through(self, element: int) -> list[tuple[int, ...]]:
        """The lines of three points and more that an element is on."""
        return [line for line in self.lines if element in line]


def geometry_of(form: Representation) -> Geometry:
    """The geometry of a representation, from the bases of its first matrix; NotDrawn where its rank is not 2 or 3."""
    if form.rank == 2:
        everything = tuple(range(form.size))
        return Geometry(2, form.size, (everything,) if form.size > 2 else ())
    if form.rank != 3:
        raise NotDrawn(f"matroids of rank {form.rank} are not drawn: only those of rank 2 and 3 are")
    bases = form.bases()
    lines = set()
    for one, other in combinations(range(form.size), 2):
        rest = [each for each in range(form.size) if each not in (one, other)]
        line = [each for each in rest if tuple(sorted((one, other, each))) not in bases]
        if line:
            lines.add(tuple(sorted([one, other, *line])))
    return Geometry(3, form.size, tuple(sorted(lines)))


@dataclass(frozen=True)
class Picture:
    """A drawn geometry: the place of each element, in order, and the curve of each line, in the order of its lines."""

    geometry: Geometry
    places: tuple[complex, ...]
    curves: tuple[Curve, ...]


# Curves and what is measured on them.

_SAMPLES = 16
_WEIGHTS = tuple(
    ((1 - t) ** 3, 3 * t * (1 - t) ** 2, 3 * t * t * (1 - t), t**3) for t in (step / _SAMPLES for step in range(_SAMPLES + 1))
)


def samples(piece: Piece) -> list[complex]:
    """Places along a piece of a curve, its ends among them."""
    start, first, second, end = piece
    return [a * start + b * first + c * second + d * end for a, b, c, d in _WEIGHTS]


def segment(start: complex, end: complex) -> Piece:
    """The straight piece between two places."""
    return start, start + (end - start) / 3, end - (end - start) / 3, end


def distance(place: complex, chain: Sequence[complex]) -> float:
    """The least distance of a place from a chain of segments."""
    return min(_segment_distance(place, start, end) for start, end in zip(chain, chain[1:]))


def _segment_distance(place: complex, start: complex, end: complex) -> float:
    along, offset = end - start, place - start
    length = along.real * along.real + along.imag * along.imag
    if length < 1e-18:
        return abs(offset)
    part = (offset.real * along.real + offset.imag * along.imag) / length
    return abs(offset - along * min(1.0, max(0.0, part)))


def faults_of(picture: Picture) -> list[str]:
    """What is wrong with a picture, in words: nothing where it shows its geometry clearly.

    Points are apart; each curve goes through its points once, in turn and without a corner, misses all others, and stays
    within the picture.
    """
    return list(_faults(picture.places, dict(zip(picture.geometry.lines, picture.curves))))


def _faults(places: Sequence[complex], curves: Mapping[tuple[int, ...], Curve]) -> Iterator[str]:
    for one, other in combinations(range(len(places)), 2):
        if abs(places[one] - places[other]) < 2 * CLEARANCE:
            yield f"points {one} and {other} are too near to each other"
    for line, curve in curves.items():
        yield from (f"line {line}: {fault}" for fault in _curve_faults(places, line, curve))


def _curve_faults(places: Sequence[complex], line: Sequence[int], curve: Curve) -> Iterator[str]:
    ends = [_elements_at(places, piece[0], piece[3]) for piece in curve]
    met = {element for pair in ends for element in pair}
    if met != set(line):
        yield f"it goes through the points {sorted(met)}"
    if has_corner([curve[0][0]] + [place for piece in curve for place in samples(piece)[1:]]):
        yield "it has a corner"
    for piece, pair in zip(curve, ends):
        chain = samples(piece)
        if max(abs(place) for place in chain) > CURVES_WITHIN + 6:
            yield "it leaves the picture"
        for element, place in enumerate(places):
            if element not in pair and distance(place, chain) < CLEARANCE:
                yield f"it passes too near to point {element}"


def has_corner(chain: Sequence[complex]) -> bool:
    """Whether a chain of segments turns sharply somewhere, seen from places a little before and behind."""
    for number, place in enumerate(chain):
        before = next((each for each in reversed(chain[:number]) if abs(each - place) > CORNER_REACH), None)
        behind = next((each for each in chain[number:] if abs(each - place) > CORNER_REACH), None)
        if before is not None and behind is not None:
            if abs(cmath.phase((behind - place) / (place - before))) > CORNER_ANGLE:
                return True
    return False


def _elements_at(places: Sequence[complex], *ends: complex) -> tuple[int, ...]:
    """The elements whose points are at the ends of a piece."""
    return tuple(element for end in ends for element, place in enumerate(places) if abs(place - end) < 1e-6)


# Places: points are put down one after another, each where the straight lines through it meet.


@dataclass(frozen=True)
class Plan:
    """An order in which points are put down, each with the straight lines that it is put on, by two points of each.

    A point without lines is free, one with one line is anywhere on it, and one with two is where they meet.
    """

    steps: tuple[tuple[int, tuple[tuple[int, int], ...]], ...]
    bent: frozenset[tuple[int, ...]]


def random_plan(geometry: Geometry, given_up: int, random: Random) -> Plan:
    """A plan in which, by chance, few lines are bent besides some that are given up beforehand."""
    places: dict[int, complex] = {}
    bent = set(random.sample(geometry.lines, min(given_up, len(geometry.lines))))
    steps = []
    while len(places) < geometry.size:
        open_lines = [line for line in geometry.lines if line not in bent and sum(each in places for each in line) > 1]
        waiting = [each for each in range(geometry.size) if each not in places]
        random.shuffle(waiting)
        if random.random() < 0.85:
            waiting.sort(key=lambda each: -min(2, sum(each in line for line in open_lines)))
        element = waiting[0]
        through = [line for line in open_lines if element in line]
        random.shuffle(through)
        through.sort(key=len, reverse=True)
        spans = [tuple(each for each in line if each in places)[:2] for line in through]
        step = (element, tuple((span[0], span[1]) for span in spans[:2]))
        place = _put(step, places, complex(random.gauss(0, 1), random.gauss(0, 1)))
        if place is None:
            bent.add(through[1])
            continue
        places[element] = place
        bent.update(line for line, span in zip(through, spans) if not _are_collinear(place, *(places[each] for each in span)))
        steps.append(step)
    return Plan(tuple(steps), frozenset(bent))


def _put(step: tuple[int, tuple[tuple[int, int], ...]], places: dict[int, complex], chosen: complex) -> Optional[complex]:
    """The place of the next point: a chosen one, on its lines; None where these are nearly parallel."""
    _, spans = step
    if not spans:
        return chosen
    start, end = (places[each] for each in spans[0])
    if len(spans) == 1:
        return start + (0.5 + chosen.real) * (end - start)
    other, along = places[spans[1][0]], places[spans[1][1]] - places[spans[1][0]]
    turn = ((end - start).conjugate() * along).imag
    if abs(turn) < 1e-3 * abs(end - start) * abs(along):
        return None
    return start + (end - start) * ((other - start).conjugate() * along).imag / turn


def _are_collinear(*places: complex) -> bool:
    """Whether places are on one line, but for rounding."""
    start, end = places[0], max(places, key=lambda place: abs(place - places[0]))
    if abs(end - start) < 1e-9:
        return True
    return all(abs(((end - start).conjugate() * (place - start)).imag) < 1e-6 * abs(end - start) ** 2 for place in places)


def places_of(plan: Plan, choices: Sequence[complex]) -> Optional[list[complex]]:
    """The places of all elements by a plan, with a choice for each step; the middle is 0 and the greatest distance from it 1."""
    places: dict[int, complex] = {}
    for step, chosen in zip(plan.steps, choices):
        place = _put(step, places, chosen)
        if place is None:
            return None
        places[step[0]] = place
    if len(places) == 1:
        return [0j]
    middle = sum(places.values()) / len(places)
    scale = max(abs(place - middle) for place in places.values())
    if scale < 1e-9:
        return None
    return [(places[element] - middle) / scale for element in range(len(places))]


def crowding(places: Sequence[complex], straight: Iterable[tuple[int, ...]], bent: Iterable[tuple[int, ...]]) -> float:
    """How near points are to one another, and to lines that they are not on, and how bent lines are: the less the clearer."""
    total = 0.0
    for one, other in combinations(places, 2):
        total += 1 / (abs(one - other) ** 2 + 1e-6)
    for line in straight:
        total += _nearness(places, line, ends_of(places, line))
    for line in bent:
        chain = in_order(places, line)
        total += 0.5 * _nearness(places, line, chain)
        total += 8 * sum(cmath.phase((c - b) / (b - a)) ** 2 for a, b, c in zip(chain, chain[1:], chain[2:]) if a != b)
    return total


def _nearness(places: Sequence[complex], line: Sequence[int], chain: Sequence[complex]) -> float:
    """How near the points that are not on a line are to the chain of segments in its place."""
    pairs = list(zip(chain, chain[1:]))
    total = 0.0
    for element, place in enumerate(places):
        if element not in line:
            least = min([_segment_distance(place, start, end) for start, end in pairs])
            total += 0.6 / (least * least + 1e-6)
    return total


def in_order(places: Sequence[complex], line: Sequence[int]) -> list[complex]:
    """The places of the points of a line in their order along it, as if it were straight."""
    start, end = ends_of(places, line)
    back = (end - start).conjugate()
    return sorted((places[each] for each in line), key=lambda place: (place * back).real)


def ends_of(places: Sequence[complex], line: Sequence[int]) -> tuple[complex, complex]:
    """The outermost places of the points of a straight line."""
    first = places[line[0]]
    start = max((places[each] for each in line), key=lambda place: abs(place - first))
    end = max((places[each] for each in line), key=lambda place: abs(place - start))
    return start, end


def spread(plan: Plan, geometry: Geometry, random: Random, rounds: int) -> tuple[float, list[complex]]:
    """The least crowding that a search from random choices finds by a plan, and its places."""
    straight = [line for line in geometry.lines if line not in plan.bent]
    # The first few bent lines find their way between the points; many have to be thought of from the start.
    bent = [line for line in geometry.lines if line in plan.bent] if len(plan.bent) > 2 else []
    choices = [complex(random.gauss(0, 1), random.gauss(0, 1)) for _ in plan.steps]
    best = places_of(plan, choices)
    least = crowding(best, straight, bent) if best else math.inf
    loose = [place for place, (_, spans) in enumerate(plan.steps) if len(spans) < 2]
    tries = rounds * len(loose)
    for attempt in range(tries):
        step = 0.8 * (0.01 ** (attempt / tries))
        changed = list(choices)
        changed[random.choice(loose)] += complex(random.gauss(0, step), random.gauss(0, step))
        places = places_of(plan, changed)
        if places is not None:
            found = crowding(places, straight, bent)
            if found < least:
                choices, best, least = changed, places, found
    return least, best or []


# Bent lines.


class _Bends:
    """The search for the curve of one bent line among the points of a picture."""

    def __init__(self, places: Sequence[complex], line: Sequence[int], tangents: dict[int, list[complex]], random: Random) -> None:
        self._places = places
        self._line = line
        self._tangents = tangents
        self._random = random

    def best(self) -> tuple[float, Curve]:
        """The curve that costs least of those that the search finds, and its cost."""
        found = []
        for curve in self._circles():
            is_whole = _is_closed(curve)
            found.append((self._cost(curve, touches=is_whole) * (WHOLE_CIRCLE if is_whole else 1), curve))
        starts = []
        for order in self._orders():
            shape = self._smooth(order)
            starts.append((self._cost(self._curve(order, shape)), order, shape))
        starts.sort(key=lambda start: start[0])
        found += [self._improved(*start) for start in starts[:3]]
        return min(found, key=lambda pair: pair[0])

    def _orders(self) -> list[tuple[int, ...]]:
        """The orders in which a curve may meet the points; for long lines only those near to the order along the line."""
        if len(self._line) < 6:
            return [order for order in permutations(self._line) if order[0] < order[-1]]
        start, end = ends_of(self._places, self._line)
        along = sorted(self._line, key=lambda each: ((self._places[each] - start) * (end - start).conjugate()).real)
        swaps = [(place, place + 1) for place in range(len(along) - 1)]
        return [tuple(along)] + [tuple(_swapped(along, *swap)) for swap in swaps]

    def _circles(self) -> Iterator[Curve]:
        """The circle through three points, whole and without each of its three arcs."""
        if len(self._line) != 3:
            return
        one, two, three = (self._places[each] for each in self._line)
        turn = ((two - one).conjugate() * (three - one)).imag
        if abs(turn) < 1e-6:
            return
        side, other = two - one, three - one
        middle = one + 1j * (side * abs(other) ** 2 - other * abs(side) ** 2) / (2 * turn)
        if abs(one - middle) > 4 * POINTS_WITHIN:
            return
        round_trip = sorted((one, two, three), key=lambda place: cmath.phase(place - middle))
        arcs = [_arc(middle, start, end) for start, end in zip(round_trip, round_trip[1:] + round_trip[:1])]
        yield sum(arcs, ())
        for left_out in range(3):
            yield arcs[(left_out + 1) % 3] + arcs[(left_out + 2) % 3]

    def _smooth(self, order: Sequence[int]) -> list[complex]:
        """For each point the direction of a smooth curve and, as two factors, how far it is kept before and behind."""
        places = [self._places[each] for each in order]
        inner = [_unit(after - before) for before, after in zip(places, places[2:])]
        first = _mirrored(inner[0], places[1] - places[0])
        last = _mirrored(inner[-1], places[-1] - places[-2])
        return [part for direction in [first, *inner, last] for part in (direction, 1 + 1j)]

    def _curve(self, order: Sequence[int], shape: Sequence[complex]) -> Curve:
        """The curve through points in an order with the directions of a shape."""
        places = [self._places[each] for each in order]
        pieces = []
        for place, (start, end) in enumerate(zip(places, places[1:])):
            reach = abs(end - start) / 3
            leaving = shape[2 * place] * shape[2 * place + 1].imag * reach
            arriving = shape[2 * place + 2] * shape[2 * place + 3].real * reach
            pieces.append((start, start + leaving, end - arriving, end))
        return tuple(pieces)

    def _improved(self, cost: float, order: Sequence[int], shape: list[complex]) -> tuple[float, Curve]:
        """The best curve that small changes of a shape lead to."""
        tries = 60 * len(order)
        for attempt in range(tries):
            step = 0.5 * (0.1 ** (attempt / tries))
            changed = list(shape)
            place = 2 * self._random.randrange(len(order))
            if self._random.random() < 0.5:
                changed[place] *= cmath.rect(1, self._random.gauss(0, step))
            else:
                before, behind = (math.exp(self._random.gauss(0, step)) for _ in range(2))
                factors = changed[place + 1]
                changed[place + 1] = complex(_kept(factors.real * before), _kept(factors.imag * behind))
            found = self._cost(self._curve(order, changed))
            if found < cost:
                cost, shape = found, changed
        return cost, self._curve(order, shape)

    def _cost(self, curve: Curve, touches: bool = False) -> float:
        """How unclear a curve is: near to other points, bent, long, outside, along another line unless it may touch it."""
        total = 0.0
        for piece in curve:
            chain = samples(piece)
            total += _bending([piece[0] - _unit(piece[1] - piece[0]), *chain, piece[3] + _unit(piece[3] - piece[2])])
            outside = max([abs(place) for place in chain]) - CURVES_WITHIN
            total += max(0.0, outside) ** 2
            for place in self._places:
                if abs(place - piece[0]) > 1e-6 and abs(place - piece[3]) > 1e-6:
                    near = 1 - distance(place, chain) / WANTED_CLEARANCE
                    total += 300 * max(0.0, near) ** 2 + (60 if near > 0.3 else 0)
            if not touches:
                total += self._along(piece[0], piece[1] - piece[0]) + self._along(piece[3], piece[3] - piece[2])
        return total

    def _along(self, place: complex, direction: complex) -> float:
        """How much a curve goes along another line that it meets in a point."""
        (element, *_) = _elements_at(self._places, place) or (-1,)
        total = 0.0
        for tangent in self._tangents.get(element, []):
            angle = abs(cmath.phase(direction * tangent.conjugate()))
            angle = min(angle, math.pi - angle)
            total += 20 * max(0.0, 1 - angle / WANTED_ANGLE) ** 2
        return total


def _is_closed(curve: Curve) -> bool:
    return abs(curve[0][0] - curve[-1][3]) < 1e-6


def _kept(factor: float) -> float:
    """A factor of how far a direction is kept, within its bounds: a curve that leaves it at once has a corner."""
    return min(3.0, max(0.5, factor))


def _swapped(items: Sequence[int], one: int, other: int) -> list[int]:
    changed = list(items)
    changed[one], changed[other] = changed[other], changed[one]
    return changed


def _unit(direction: complex) -> complex:
    return direction / abs(direction)


def _mirrored(direction: complex, chord: complex) -> complex:
    """The direction at the other end of a chord of the circle that has a direction at this end."""
    return _unit(chord) ** 2 / direction


def _arc(middle: complex, start: complex, end: complex) -> Curve:
    """The arc of a circle about a middle from one place to another, by rising angles."""
    angle = cmath.phase((end - middle) / (start - middle)) % (2 * math.pi)
    parts = max(1, math.ceil(angle / (math.pi / 2)))
    step = cmath.rect(1, angle / parts)
    reach = 4 / 3 * math.tan(angle / parts / 4)
    ways = [(start - middle) * step**part for part in range(parts)] + [end - middle]
    return tuple(
        (middle + one, middle + one * (1 + 1j * reach), middle + other * (1 - 1j * reach), middle + other)
        for one, other in zip(ways, ways[1:])
    )


def _bending(chain: Sequence[complex]) -> float:
    """How bent and how long a chain of segments is."""
    steps = [after - before for before, after in zip(chain, chain[1:]) if after != before]
    total = 0.0
    for step, after in zip(steps, steps[1:]):
        turn = cmath.phase(after / step)
        total += turn * turn / (abs(step) + abs(after))
    return 60 * total + sum(abs(step) for step in steps) / 100


# Whole pictures.


def draw(geometry: Geometry) -> Optional[Picture]:
    """A picture of a geometry without faults, or None where the search finds none."""
    if geometry.rank == 2:
        return _on_a_line(geometry)
    if geometry.size == 1:
        return Picture(geometry, (0j,), ())
    for given_up in (0, 1, 2, 3, 4, 5, 6, 8):
        random = Random(given_up)
        found = [_drawn(geometry, plan, random) for plan in _best_plans(geometry, given_up, random)]
        good = [each for each in found if each is not None]
        if good:
            return min(good, key=lambda pair: pair[0])[1]
    return None


def _on_a_line(geometry: Geometry) -> Picture:
    """The points of a matroid of rank 2 on a line, evenly."""
    gap = 2 * POINTS_WITHIN / max(geometry.size - 1, 3)
    places = tuple(complex((element - (geometry.size - 1) / 2) * gap, 0) for element in range(geometry.size))
    curves = tuple(tuple(segment(*pair) for pair in zip(places, places[1:])) for _ in geometry.lines)
    return Picture(geometry, places, curves)


def _best_plans(geometry: Geometry, given_up: int, random: Random) -> list[Plan]:
    """A few plans of many, each with other bent lines: those with the fewest, and those with the least crowding in a trial."""
    plans: dict[frozenset[tuple[int, ...]], Plan] = {}
    for _ in range(150 if geometry.lines else 1):
        plan = random_plan(geometry, given_up, random)
        kept = plans.setdefault(plan.bent, plan)
        if len(_fixed(plan)) < len(_fixed(kept)):
            plans[plan.bent] = plan
    ranked = sorted(plans.values(), key=lambda plan: (len(plan.bent), sum(map(len, plan.bent)), len(_fixed(plan))))
    if len(ranked) < 5:
        return ranked
    trials = [(spread(plan, geometry, random, 8)[0] + 8 * len(plan.bent), plan) for plan in ranked[2:14]]
    return ranked[:2] + [plan for _, plan in sorted(trials, key=lambda trial: trial[0])[:2]]


def _fixed(plan: Plan) -> list[int]:
    """The elements whose places a plan leaves no choice."""
    return [element for element, spans in plan.steps if len(spans) == 2]


def _drawn(geometry: Geometry, plan: Plan, random: Random) -> Optional[tuple[float, Picture]]:
    """The picture that a plan leads to, and how unclear it is; None where it has a fault."""
    least, unit_places = min((spread(plan, geometry, random, 50) for _ in range(3)), key=lambda pair: pair[0])
    if not unit_places:
        return None
    straight = [line for line in geometry.lines if _are_collinear(*(unit_places[each] for each in line))]
    places = [place * POINTS_WITHIN for place in _turned(unit_places, straight)]
    curves = {line: _straight(places, line) for line in straight}
    if any(_faults(places, curves)):
        return None
    tangents: dict[int, list[complex]] = {}
    for curve in curves.values():
        _note_tangents(tangents, places, curve)
    cost = 0.002 * least
    for line in geometry.lines:
        if line not in curves:
            extra, curves[line] = _Bends(places, line, tangents, random).best()
            if any(_curve_faults(places, line, curves[line])):
                return None
            _note_tangents(tangents, places, curves[line])
            cost += 2 + extra
    return cost, Picture(geometry, tuple(places), tuple(curves[line] for line in geometry.lines))


def _note_tangents(tangents: dict[int, list[complex]], places: Sequence[complex], curve: Curve) -> None:
    """Adds to the directions of lines at each element those of a curve."""
    for start, first, second, end in curve:
        for place, direction in ((start, first - start), (end, end - second)):
            for element in _elements_at(places, place):
                tangents.setdefault(element, []).append(direction)


def _straight(places: Sequence[complex], line: Sequence[int]) -> Curve:
    """The straight line through collinear points, a piece between each two neighbours."""
    start, _ = ends_of(places, line)
    along = sorted((places[each] for each in line), key=lambda place: abs(place - start))
    return tuple(segment(*pair) for pair in zip(along, along[1:]))


def _turned(places: Sequence[complex], straight: Sequence[Sequence[int]]) -> list[complex]:
    """The places turned so that a line lies flat below most of the points, with the middle of the whole at 0."""
    pairs = tuple(combinations(range(len(places)), 2))
    longest = max(straight or pairs, key=lambda line: (len(line), _on_one_side(places, line)))
    start, end = ends_of(places, longest)
    turned = [place * _unit(end - start).conjugate() for place in places]
    if turned[longest[0]].imag < 0:
        turned = [-place for place in turned]
    heights = [place.imag for place in turned]
    widths = [place.real for place in turned]
    middle = complex(min(widths) + max(widths), min(heights) + max(heights)) / 2
    scale = max(1e-9, *(abs(place - middle) for place in turned))
    return [(place - middle) / scale for place in turned]


def _on_one_side(places: Sequence[complex], line: Sequence[int]) -> int:
    """How many more points are on one side of a straight line than on the other."""
    start, end = ends_of(places, line)
    sides = [((end - start).conjugate() * (place - start)).imag for place in places]
    return abs(sum((side > 1e-9) - (side < -1e-9) for side in sides))


# Sheets: circles, curves and words, in units of pixels, in the order in which they are painted.

INK = "#1a1a1a"


@dataclass(frozen=True)
class Disc:
    """A filled circle; its title is shown by a browser."""

    middle: complex
    radius: float
    colour: str = INK
    title: str = ""


@dataclass(frozen=True)
class Stroke:
    """A curve of some width, with its title."""

    curve: Curve
    colour: str = INK
    width: float = 1.3
    title: str = ""


@dataclass(frozen=True)
class Words:
    """A line of text: its anchor is "start", "middle" or "end", and its place is there on the base line."""

    text: str
    place: complex
    size: float = 12
    anchor: str = "middle"
    is_bold: bool = False
    colour: str = INK

    @property
    def box(self) -> tuple[float, float, float, float]:
        """Left, top, right and bottom of a box that holds the text in a common font without serifs."""
        width = 0.64 * self.size * len(self.text)
        left = self.place.real - {"start": 0.0, "middle": width / 2, "end": width}[self.anchor]
        return left, self.place.imag - self.size, left + width, self.place.imag + 0.3 * self.size


Mark = Union[Disc, Stroke, Words]


@dataclass(frozen=True)
class Sheet:
    """Marks on white paper of a width and a height."""

    width: float
    height: float
    marks: tuple[Mark, ...]


CELL_WIDTH, CELL_HEIGHT = 210.0, 240.0
MOST_IN_A_ROW = 5
MARGIN = 15.0


def sheet(forms: Iterable[Form]) -> Sheet:
    """A sheet with the picture of each form, over its size and number and, where it is known, its name."""
    cells = [cell(form) for form in forms]
    columns = max(1, min(MOST_IN_A_ROW, len(cells)))
    marks: list[Mark] = []
    for number, drawn in enumerate(cells):
        corner = complex(MARGIN + number % columns * CELL_WIDTH, MARGIN + number // columns * CELL_HEIGHT)
        marks += [_moved(mark, corner) for mark in drawn]
    rows = math.ceil(len(cells) / columns)
    return Sheet(2 * MARGIN + columns * CELL_WIDTH, 2 * MARGIN + rows * CELL_HEIGHT, tuple(marks))


def cell(form: Form) -> list[Mark]:
    """The marks of one picture with its words, from the corner of its cell at the left and top."""
    middle = complex(CELL_WIDTH, CELL_WIDTH) / 2
    picture = draw(geometry_of(form))
    marks: list[Mark] = []
    if picture is None:
        marks.append(Words("no clear picture found", middle, 12))
    else:
        for line, curve in zip(picture.geometry.lines, picture.curves):
            title = "line " + " ".join(str(element + 1) for element in line)
            marks.append(_moved(Stroke(curve, title=title), middle))
        for element, place in enumerate(picture.places):
            marks.append(Disc(middle + place, POINT_RADIUS, title=f"column {element + 1}"))
    below = complex(CELL_WIDTH / 2, CELL_WIDTH + 12)
    marks.append(Words(f"size {form.size}, form {form.number}", below, 11, colour="#555555"))
    name = known_name(form)
    if name is not None:
        marks.append(Words(name, below + 15j, 12, is_bold=True))
    return marks


def known_name(form: Form) -> Optional[str]:
    """The name of the matroid of a form, where it has a well-known one and the table of names is there."""
    try:
        names = import_module("macek.names")
    except ModuleNotFoundError:
        return None
    name: Optional[str] = names.name_of(form)
    return name


def _moved(mark: Mark, by: complex) -> Mark:
    """A mark moved by a step."""
    if isinstance(mark, Disc):
        return replace(mark, middle=mark.middle + by)
    if isinstance(mark, Words):
        return replace(mark, place=mark.place + by)
    return replace(mark, curve=tuple((a + by, b + by, c + by, d + by) for a, b, c, d in mark.curve))


# Counts by size.

COLOURS = ("#0072b2", "#d55e00", "#009e73", "#cc79a7", "#e69f00", "#56b4e9", "#1a1a1a")
PLOT_WIDTH, PLOT_HEIGHT = 460.0, 330.0
PLOT_CORNER = complex(75, 40)


def chart(counts: Mapping[str, Mapping[int, int]]) -> Sheet:
    """The numbers of classes by size, a curve for each name, on a logarithmic axis; NotDrawn where there is no number above 0.

    A size without a class has no point, since 0 has no place on such an axis.
    """
    found = {name: {size: number for size, number in sorted(row.items()) if number > 0} for name, row in counts.items()}
    sizes = [size for row in found.values() for size in row]
    if not sizes:
        raise NotDrawn("no size has a class")
    low, high = min(sizes), max(max(sizes), min(sizes) + 1)
    top = max(1, len(str(max(number for row in found.values() for number in row.values()) - 1)))

    def place(size: float, number: float) -> complex:
        across = (size - low) / (high - low) * PLOT_WIDTH
        return PLOT_CORNER + complex(across, PLOT_HEIGHT * (1 - math.log10(number) / top))

    marks = list(_axes(low, high, top, place))
    for number, (name, row) in enumerate(found.items()):
        colour = COLOURS[number % len(COLOURS)]
        spots = {size: place(size, row[size]) for size in row}
        steps = [(spots[size], spots[size + 1]) for size in spots if size + 1 in spots]
        marks += [Stroke((segment(*step),), colour, 1.8) for step in steps]
        marks += [Disc(spot, 3.5, colour, f"{name}, size {size}: {row[size]}") for size, spot in spots.items()]
        level = PLOT_CORNER + complex(PLOT_WIDTH + 30, 12 + 20 * number)
        marks += [Stroke((segment(level - 10, level + 10),), colour, 1.8), Disc(level, 3.5, colour)]
        marks.append(Words(name, level + 18 + 4j, 12, "start"))
    right = max(mark.box[2] for mark in marks if isinstance(mark, Words))
    height = PLOT_CORNER.imag + max(PLOT_HEIGHT + 60, 30 + 20 * len(found))
    return Sheet(right + MARGIN, height, tuple(marks))


def _axes(low: int, high: int, top: int, place: Callable[[float, float], complex]) -> Iterator[Mark]:
    """The axes of a chart with their ticks and words: sizes from low to high, numbers from 1 to the power of ten of top."""
    for power in range(top + 1):
        level = place(low, 10**power)
        yield Stroke((segment(level, level + PLOT_WIDTH),), "#dddddd", 1)
        yield Words(f"{10**power:,}", level + complex(-12, 4), 12, "end")
        for part in range(2, 10 if power < top else 2):
            tick = place(low, part * 10**power)
            yield Stroke((segment(tick - 4, tick),), INK, 1)
    for size in range(low, high + 1):
        foot = place(size, 1)
        yield Stroke((segment(foot, foot + 5j),), INK, 1)
        yield Words(str(size), foot + 20j, 12)
    corner = place(low, 1)
    yield Stroke((segment(place(low, 10**top), corner), segment(corner, place(high, 1))), INK, 1)
    yield Words("size", place((low + high) / 2, 1) + 42j, 12)
    yield Words("classes", PLOT_CORNER + complex(-8, -18), 12, "end")


def counts_of(levels: Iterable[Level]) -> dict[int, int]:
    """The number of classes of each size; NotDrawn where the levels have none."""
    counts = {}
    for level in levels:
        if level.classes is None:
            raise NotDrawn("the text has no counts of classes")
        counts[level.size] = level.classes
    return counts


# What is written.


def svg(paper: Sheet) -> str:
    """A sheet as the text of an SVG file."""
    size = f'width="{paper.width:g}" height="{paper.height:g}" viewBox="0 0 {paper.width:g} {paper.height:g}"'
    lines = [f'<svg xmlns="http://www.w3.org/2000/svg" {size} font-family="DejaVu Sans, Verdana, sans-serif">']
    lines.append('<rect width="100%" height="100%" fill="white"/>')
    lines += [_svg_mark(mark) for mark in paper.marks]
    return "\n".join([*lines, "</svg>", ""])


def _svg_mark(mark: Mark) -> str:
    title = "" if isinstance(mark, Words) or not mark.title else f"<title>{escape(mark.title)}</title>"
    if isinstance(mark, Disc):
        place = f'cx="{mark.middle.real:.2f}" cy="{mark.middle.imag:.2f}"'
        return f'<circle {place} r="{mark.radius:g}" fill="{mark.colour}">{title}</circle>'
    if isinstance(mark, Stroke):
        style = f'fill="none" stroke="{mark.colour}" stroke-width="{mark.width:g}" stroke-linecap="round"'
        return f'<path d="{_svg_path(mark.curve)}" {style}>{title}</path>'
    style = f'font-size="{mark.size:g}" text-anchor="{mark.anchor}" fill="{mark.colour}"'
    weight = ' font-weight="bold"' if mark.is_bold else ""
    place = f'x="{mark.place.real:.2f}" y="{mark.place.imag:.2f}"'
    return f"<text {place} {style}{weight}>{escape(mark.text)}</text>"


def _svg_path(curve: Curve) -> str:
    words = [f"M {_pair(curve[0][0])}"]
    for _, first, second, end in curve:
        words.append(f"C {_pair(first)} {_pair(second)} {_pair(end)}")
    return " ".join(words)


def _pair(place: complex) -> str:
    return f"{place.real:.2f},{place.imag:.2f}"


def write_png(paper: Sheet, name: str) -> None:
    """Writes a sheet as a PNG file, by rsvg-convert, Inkscape or matplotlib; NotDrawn where none of them is there."""
    for program, words in (("rsvg-convert", ["--zoom", "2", "-o"]), ("inkscape", ["--export-dpi", "192", "-o"])):
        if shutil.which(program):
            with tempfile.TemporaryDirectory() as folder:
                source = Path(folder, "sheet.svg")
                source.write_text(svg(paper), encoding="utf-8")
                done = subprocess.run([program, *words, name, str(source)], capture_output=True, text=True)
            if done.returncode != 0:
                raise NotDrawn(f"{program} failed: {done.stderr.strip()}")
            return
    try:
        figures, paths, patches = (import_module(f"matplotlib.{part}") for part in ("figure", "path", "patches"))
    except ModuleNotFoundError:
        raise NotDrawn("a PNG needs rsvg-convert, Inkscape or matplotlib, and none is installed; SVG needs none") from None
    _painted(paper, figures, paths, patches).savefig(name, dpi=144)


def _painted(paper: Sheet, figures: Any, paths: Any, patches: Any) -> Any:
    """A sheet as a figure of matplotlib, made by its modules."""
    figure = figures.Figure(figsize=(paper.width / 72, paper.height / 72), facecolor="white")
    axes = figure.add_axes((0, 0, 1, 1), xlim=(0, paper.width), ylim=(paper.height, 0))
    axes.axis("off")
    for order, mark in enumerate(paper.marks):
        if isinstance(mark, Disc):
            place = (mark.middle.real, mark.middle.imag)
            axes.add_patch(patches.Circle(place, mark.radius, facecolor=mark.colour, linewidth=0, zorder=order))
        elif isinstance(mark, Stroke):
            corners = [mark.curve[0][0]] + [place for piece in mark.curve for place in piece[1:]]
            codes = [paths.Path.MOVETO] + [paths.Path.CURVE4] * (len(corners) - 1)
            path = paths.Path([(place.real, place.imag) for place in corners], codes)
            axes.add_patch(patches.PathPatch(path, fill=False, edgecolor=mark.colour, linewidth=mark.width, zorder=order))
        else:
            anchor = {"start": "left", "middle": "center", "end": "right"}[mark.anchor]
            weight = "bold" if mark.is_bold else "normal"
            text = axes.text(mark.place.real, mark.place.imag, mark.text, ha=anchor, va="baseline", zorder=order)
            text.set(color=mark.colour, fontsize=mark.size, fontweight=weight)
    return figure
