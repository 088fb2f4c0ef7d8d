"""The rules of basic indexing, against numpy itself."""

import random

import numpy as np
import pytest
from conftest import random_key

from ncc._selection import parse
from ncc.errors import SelectionError


def by_lists(array: np.ndarray, key):
    """The selection of `parse`, made by numpy."""
    selection = parse(key, array.shape)
    assert len(selection.start) == len(selection.count) == len(selection.stride) == array.ndim
    for axis, (start, count, stride) in enumerate(zip(*selection.lists)):
        assert start >= 0 and count >= 0 and stride >= 1
        array = array.take([start + k * stride for k in range(count)], axis)
    return array[tuple(selection.rest)]


@pytest.mark.parametrize("shape", [(), (0,), (1,), (7,), (3, 4), (2, 0, 3), (2, 3, 4, 5)], ids=str)
def test_as_numpy(shape):
    draw, array = random.Random(str(shape)), np.arange(int(np.prod(shape)), dtype=">i4").reshape(shape)
    for _ in range(400):
        key = random_key(draw, shape)
        try:
            wanted = array[key]
        except IndexError:
            with pytest.raises(IndexError):
                parse(key, shape)
            continue
        found = by_lists(array, key)
        assert type(found) is type(wanted) and np.array_equal(found, wanted)


@pytest.mark.parametrize(
    "key",
    [[0, 1], np.array([0, 1]), True, np.True_, np.array([True, False, True]), 1.0, "x", (0, [1]), {}, (1, 1.5), b"x"],
    ids=repr,
)
def test_only_basic_indexing(key):
    with pytest.raises(SelectionError, match="only basic indexing"):
        parse(key, (3, 3))


@pytest.mark.parametrize(
    "key", [(0, 0, 0), (Ellipsis, Ellipsis), 3, -4, (0, 9), 1 << 70, (Ellipsis, 0, 0, 0)], ids=repr
)
def test_outside(key):
    with pytest.raises(IndexError):
        np.zeros((3, 3))[key]
    with pytest.raises(SelectionError):
        parse(key, (3, 3))


def test_as_numpy_refuses():
    with pytest.raises(ValueError):
        parse(slice(None, None, 0), (3,))
    with pytest.raises(TypeError):
        parse(slice("a", None), (3,))


def test_numbers_of_any_kind():
    far = 1 << 80
    for key in (np.int8(-1), np.uint64(2), np.array(1), slice(np.int16(0), np.int64(3), far), slice(-far, far)):
        assert np.array_equal(by_lists(np.arange(3), key), np.arange(3)[key])


def test_long_dimensions():
    selection = parse(slice(None, None, -(1 << 61)), ((1 << 63) - 1,))
    assert selection.lists == ([(1 << 61) - 2], [4], [1 << 61])
    assert (1 << 61) - 2 + 3 * (1 << 61) == (1 << 63) - 2
