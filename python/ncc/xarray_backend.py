"""The engine `ncc` of xarray: `xr.open_dataset(path, engine="ncc")`."""

from __future__ import annotations

import os
from collections.abc import Iterable
from typing import Any

import numpy as np
import xarray as xr
from xarray.backends import AbstractDataStore, BackendArray, BackendEntrypoint
from xarray.backends.store import StoreBackendEntrypoint
from xarray.core import indexing

from ._index import Attrs
from .dataset import Dataset
from .dataset import open as open_dataset
from .variable import Variable

MAGIC = (b"CDF\x01", b"CDF\x02", b"CDF\x05")


def _split(parts: tuple[Any, ...], shape: tuple[int, ...]) -> tuple[tuple[Any, ...], dict[int, np.ndarray]]:
    """A basic index for the file, and what is then left to pick: an array of indices by axis.

    Slices and integers stay as they are, whatever the step; an array becomes the slice from its least index to its
    greatest. (xarray's own `explicit_indexing_adapter` takes other elements for steps below -2.)
    """
    basic: list[Any] = []
    picks: dict[int, np.ndarray] = {}
    axis = 0
    for part, length in zip(parts, shape):
        if isinstance(part, np.ndarray) and part.ndim:
            indices = np.where(part < 0, part + length, part)
            low, high = (int(indices.min()), int(indices.max()) + 1) if indices.size else (0, 0)
            picks[axis] = indices - low
            part = slice(low, high)
        basic.append(part)
        axis += isinstance(part, slice)
    return tuple(basic), picks


def _points(values: np.ndarray, picks: dict[int, np.ndarray]) -> np.ndarray:
    """Values at points: their dimensions come first, and then the axes without an array of indices."""
    others = [axis for axis in range(values.ndim) if axis not in picks]
    return values.transpose(*picks, *others)[tuple(picks.values())]


class NccArray(BackendArray):
    """The values of a variable in native byte order, read when they are asked for. It can be pickled."""

    def __init__(self, variable: Variable) -> None:
        self.variable, self.shape = variable, variable.shape
        self.dtype = variable.dtype.newbyteorder("=")

    def __getitem__(self, key: indexing.ExplicitIndexer) -> np.ndarray:
        basic, picks = _split(key.tuple, self.shape)
        values = self.variable.native(basic)
        if isinstance(key, indexing.VectorizedIndexer):
            return _points(values, picks)
        for axis, pick in picks.items():
            values = values.take(pick, axis)
        return values


def _attrs(attrs: Attrs) -> dict[str, Any]:
    """Attributes as the engine netcdf4 gives them: texts without NULs, the fill value of chars as bytes."""
    found: dict[str, Any] = {}
    for name in attrs:
        raw = attrs.raw(name)
        if raw.dtype.kind != "S":
            found[name] = attrs[name]
        elif name == "_FillValue":
            found[name] = raw.tobytes()
        else:
            found[name] = raw.tobytes().decode("utf-8", "replace").replace("\x00", "")
    return found


class NccStore(AbstractDataStore):
    """What xarray asks of an open file."""

    def __init__(self, dataset: Dataset, source: str | None) -> None:
        self.dataset, self.source = dataset, source

    def open_store_variable(self, variable: Variable) -> xr.Variable:
        """A lazy variable."""
        data = indexing.LazilyIndexedArray(NccArray(variable))
        encoding: dict[str, Any] = {"dtype": data.dtype, "original_shape": variable.shape}
        if self.source is not None:
            encoding["source"] = self.source
        return xr.Variable(variable.dims, data, _attrs(variable.attrs), encoding)

    def get_variables(self) -> dict[str, xr.Variable]:
        """All variables by name, lazy."""
        return {name: self.open_store_variable(it) for name, it in self.dataset.variables.items()}

    def get_attrs(self) -> dict[str, Any]:
        """The attributes of the file."""
        return _attrs(self.dataset.attrs)

    def get_dimensions(self) -> dict[str, int]:
        """The length of each dimension."""
        return dict(self.dataset.dims)

    def get_encoding(self) -> dict[str, Any]:
        """The record dimension."""
        record = self.dataset.record_dim
        return {"unlimited_dims": set() if record is None else {record}}

    def close(self) -> None:
        """Closes the dataset."""
        self.dataset.close()


def _start_of(where: Any) -> bytes:
    if isinstance(where, (str, os.PathLike)):
        with open(where, "rb") as file:
            return file.read(4)
    if isinstance(where, bytes):
        return where[:4]
    before = where.tell()
    where.seek(0)
    start = where.read(4)
    where.seek(before)
    return start


class NccBackendEntrypoint(BackendEntrypoint):
    """Opens netCDF classic files. The header is checked; a file with a fault raises it (ncc.Fault)."""

    description = "netCDF classic files (CDF-1, CDF-2, CDF-5), checked"

    def open_dataset(  # type: ignore[override]
        self,
        filename_or_obj: Any,
        *,
        mask_and_scale: bool = True,
        decode_times: bool = True,
        concat_characters: bool = True,
        decode_coords: bool = True,
        drop_variables: str | Iterable[str] | None = None,
        use_cftime: bool | None = None,
        decode_timedelta: bool | None = None,
    ) -> xr.Dataset:
        """A lazy dataset; xarray decodes by the CF conventions what it is told to."""
        is_path = isinstance(filename_or_obj, (str, os.PathLike))
        store = NccStore(open_dataset(filename_or_obj), os.fspath(filename_or_obj) if is_path else None)
        return StoreBackendEntrypoint().open_dataset(
            store,
            mask_and_scale=mask_and_scale,
            decode_times=decode_times,
            concat_characters=concat_characters,
            decode_coords=decode_coords,
            drop_variables=drop_variables,
            use_cftime=use_cftime,
            decode_timedelta=decode_timedelta,
        )

    def guess_can_open(self, filename_or_obj: Any) -> bool:
        """Whether it begins as a netCDF classic file does."""
        try:
            return _start_of(filename_or_obj) in MAGIC
        except (OSError, AttributeError, TypeError, ValueError):
            return False
