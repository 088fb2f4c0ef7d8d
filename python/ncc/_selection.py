"""numpy's basic indexing as start, count and stride."""

from __future__ import annotations

import operator
from dataclasses import dataclass, field
from typing import Any

import numpy as np

from .errors import SelectionError

ONLY_BASIC = "only basic indexing: integers, slices, Ellipsis (...) and None"


@dataclass
class Selection:
    """A selection of an array: a start, a count and a stride (at least 1) for each dimension.

    `rest` is what is left to do by numpy on the array of shape `count`: drop the dimensions that an integer selects,
    turn those with a negative step, and add those of None.
    """

    start: list[int] = field(default_factory=list)
    count: list[int] = field(default_factory=list)
    stride: list[int] = field(default_factory=list)
    rest: list[Any] = field(default_factory=list)

    @property
    def lists(self) -> tuple[list[int], list[int], list[int]]:
        """What the library takes."""
        return self.start, self.count, self.stride

    def take(self, start: int, count: int, stride: int) -> None:
        """Selects along the next dimension."""
        self.start.append(start)
        self.count.append(count)
        self.stride.append(stride)

    def take_slice(self, part: slice, length: int) -> None:
        """A slice along the next dimension. A negative step is taken upwards, and turned by `rest`."""
        numbers = range(*part.indices(length))
        count = len(numbers)
        start = min(numbers[0], numbers[-1]) if count else 0
        self.take(start, count, abs(numbers.step) if count > 1 else 1)
        self.rest.append(slice(None, None, -1) if numbers.step < 0 else slice(None))

    def take_index(self, part: Any, length: int) -> None:
        """An integer along the next dimension."""
        index = operator.index(part)
        axis = len(self.start)
        if not -length <= index < length:
            raise SelectionError(f"index {index} is out of bounds for axis {axis} with size {length}")
        self.take(index % length, 1, 1)
        self.rest.append(0)


def _is_index(part: Any) -> bool:
    if isinstance(part, (bool, np.bool_)):
        return False
    try:
        operator.index(part)
    except TypeError:
        return False
    return True


def _kinds(parts: tuple[Any, ...]) -> list[str]:
    kinds = []
    for part in parts:
        if part is None or part is Ellipsis:
            kinds.append("none" if part is None else "ellipsis")
        elif isinstance(part, slice):
            kinds.append("slice")
        elif _is_index(part):
            kinds.append("index")
        else:
            raise SelectionError(f"{ONLY_BASIC}, not {type(part).__name__}")
    return kinds


def parse(key: Any, shape: tuple[int, ...]) -> Selection:
    """The selection that numpy's basic indexing with `key` makes of an array of this shape.

    Raises SelectionError (an IndexError) for any other index, for too many indices, and for one that isn't inside the
    shape; ValueError for a step of 0; and TypeError for a slice of what isn't a number: as numpy does.
    """
    parts = key if isinstance(key, tuple) else (key,)
    kinds = _kinds(parts)
    given = kinds.count("slice") + kinds.count("index")
    if kinds.count("ellipsis") > 1:
        raise SelectionError("an index can only have a single ellipsis ('...')")
    if given > len(shape):
        raise SelectionError(f"too many indices: the array is {len(shape)}-dimensional, but {given} were indexed")
    selection = Selection()
    for part, kind in zip(parts, kinds):
        axis = len(selection.start)
        if kind == "slice":
            selection.take_slice(part, shape[axis])
        elif kind == "index":
            selection.take_index(part, shape[axis])
        else:
            selection.rest.append(part)
            for length in shape[axis : axis + len(shape) - given] if kind == "ellipsis" else ():
                selection.take(0, length, 1)
    for length in shape[len(selection.start) :]:
        selection.take(0, length, 1)
    return selection
