"""Isomorphism of small matroids: whether some relabelling of the elements takes the bases of one to those of the other."""

from __future__ import annotations

from collections import Counter
from collections.abc import Hashable, Iterable, Iterator
from itertools import combinations
from typing import Generic, TypeVar

from macek.matroids import Matroid

Label = TypeVar("Label", bound=Hashable)


def are_isomorphic(left: Matroid, right: Matroid) -> bool:
    """Whether some relabelling of the elements takes the bases of one matroid to exactly those of another."""
    return relabelling(left, right) is not None


def relabelling(left: Matroid, right: Matroid) -> list[int] | None:
    """For each element of one matroid its image in another, so that bases go to bases and no others do; None without one."""
    if left.invariant != right.invariant:
        return None
    frequency = Counter(left.kinds)
    order = sorted(range(left.size), key=lambda element: (frequency[left.kinds[element]], left.kinds[element]))
    found = next(_images(left, right, order, []), None)
    return None if found is None else [image for _, image in sorted(zip(order, found))]


def _images(left: Matroid, right: Matroid, order: list[int], images: list[int]) -> Iterator[list[int]]:
    """The images of all elements, in this order, that go on from the images of the first ones."""
    if len(images) == left.size:
        yield images
        return
    element = order[len(images)]
    for image in range(right.size):
        if image not in images and right.kinds[image] == left.kinds[element] and _agrees(left, right, order, images, image):
            yield from _images(left, right, order, [*images, image])


def _agrees(left: Matroid, right: Matroid, order: list[int], images: list[int], image: int) -> bool:
    """Whether an image of the next element agrees with those before: on the bases that two share, and on which sets are bases."""
    last = len(images)
    element = order[last]
    if any(left.shares[element][other] != right.shares[image][other_image] for other, other_image in zip(order, images)):
        return False
    pairs = [(1 << other, 1 << other_image) for other, other_image in zip(order, images)]
    for chosen in combinations(pairs, left.rank - 1) if left.rank else ():
        mask, other_mask = 1 << element, 1 << image
        for bit, other_bit in chosen:
            mask |= bit
            other_mask |= other_bit
        if (mask in left.bases) != (other_mask in right.bases):
            return False
    return True


class Table(Generic[Label]):
    """Matroids with a label each, found again up to isomorphism."""

    def __init__(self, entries: Iterable[tuple[Matroid, Label]] = ()) -> None:
        self._entries: dict[Hashable, list[tuple[Matroid, Label]]] = {}
        for matroid, label in entries:
            self.add(matroid, label)

    def add(self, matroid: Matroid, label: Label) -> None:
        """Puts a matroid in, after those that are there."""
        self._entries.setdefault(matroid.invariant, []).append((matroid, label))

    def find(self, matroid: Matroid) -> Label | None:
        """The label of the first matroid that was put in and is isomorphic to one, or None."""
        for other, label in self._entries.get(matroid.invariant, ()):
            if are_isomorphic(matroid, other):
                return label
        return None
