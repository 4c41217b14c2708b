"""Columns of pandas, which is not imported: a Series gives a Series of its index and name."""
from __future__ import annotations

import sys
from typing import TYPE_CHECKING, Any

import numpy as np

from ._options import Errors

if TYPE_CHECKING:
    from ._arrays import Array, Flags


def is_column(given: Any) -> bool:
    """Whether it is a Series, or of the arrays that one holds."""
    pandas: Any = sys.modules.get("pandas")
    return pandas is not None and isinstance(given, (pandas.Series, pandas.api.extensions.ExtensionArray))


def array_of(given: Any, errors: Errors) -> Any:
    """A column as an array of numpy; with errors masked, what is missing in it is masked."""
    items, is_missing = parts(given)
    if is_missing is None or not is_missing.any():
        return items
    if errors is Errors.MASK:
        return np.ma.MaskedArray(items, mask=is_missing)  # type: ignore[no-untyped-call]
    if isinstance(given.dtype, np.dtype):
        return items
    objects = items.astype(object)
    objects[is_missing] = sys.modules["pandas"].NA
    return objects


def parts(given: Any) -> tuple[Array, Flags | None]:
    """A column's items, and which of them are missing, if any can be."""
    pandas: Any = sys.modules["pandas"]
    if isinstance(given.dtype, np.dtype):
        items = np.asarray(given)
        return items, np.asarray(given.isna()) if items.dtype == object else None
    is_missing = np.asarray(given.isna())
    if isinstance(given.dtype, pandas.CategoricalDtype):
        codes = np.asarray(given.cat.codes if isinstance(given, pandas.Series) else given.codes)
        categories, _ = parts(given.dtype.categories.array)
        return categories[codes] if len(categories) else np.zeros(len(codes), object), is_missing
    kind = getattr(given.dtype, "numpy_dtype", np.dtype(object))
    is_number = isinstance(kind, np.dtype) and kind.kind in "biuf"
    return given.to_numpy(dtype=kind, na_value=0) if is_number else np.asarray(given, object), is_missing


def like(given: Any, found: Any) -> Any:
    """What was found for a Series, as Series of its index and name; for another column it stays an array."""
    pandas: Any = sys.modules["pandas"]
    if not isinstance(given, pandas.Series):
        return found
    if isinstance(found, tuple):
        return tuple(like(given, part) for part in found)
    return pandas.Series(values_of(pandas, found), index=given.index, name=given.name)


def of_one_index(columns: list[Any]) -> Any:
    """The first of columns, whose index is that of the others."""
    indexes = [each.index for each in columns if hasattr(each, "index")]
    if any(not each.equals(indexes[0]) for each in indexes):
        raise ValueError("two Series of different indexes are compared")
    return next((each for each in columns if hasattr(each, "index")), columns[0])


def values_of(pandas: Any, found: Any) -> Any:
    """What a Series holds: what is masked is missing in it."""
    items, kind = np.asarray(found), found.dtype.kind
    is_masked = isinstance(found, np.ma.MaskedArray)
    mask = np.array(np.ma.getmaskarray(found))  # type: ignore[no-untyped-call]
    if kind == "U":
        texts = items.astype(object)
        texts[mask] = None
        return pandas.array(texts, dtype="string")
    if not is_masked:
        return items
    if kind in "biuf":
        of_kind = {"b": "BooleanArray", "f": "FloatingArray"}.get(kind, "IntegerArray")
        return getattr(pandas.arrays, of_kind)(items, mask)
    objects = items.astype(object)
    objects[mask] = None
    return objects
