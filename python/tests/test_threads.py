"""Calls from several threads at once answer as one does."""
from __future__ import annotations

from concurrent.futures import ThreadPoolExecutor

import pytest
from lomdeqash import Format

np = pytest.importorskip("numpy")


def test_threads() -> None:
    form = Format("I1F15")
    bits = np.arange(-32768, 32768, 7).astype(np.int16)
    wanted = form.text(bits)

    def once(_: int) -> bool:
        return bool(
            (form.read(wanted) == bits).all() and (form.text(bits) == wanted).all() and form.read("0.5") == 16384
        )

    with ThreadPoolExecutor(8) as pool:
        assert all(pool.map(once, range(40)))
