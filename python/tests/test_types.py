"""What mypy finds for each form of a call; nothing of it runs."""
from __future__ import annotations

from typing import TYPE_CHECKING, Any, List, Optional, Tuple

if TYPE_CHECKING:
    from decimal import Decimal
    from fractions import Fraction

    from lomdeqash import Format, fit
    from numpy import float64, int16, str_
    from numpy.typing import NDArray
    from typing_extensions import assert_type

    form = Format("I1F15")

    def forms(texts: NDArray[str_], array: NDArray[int16]) -> None:
        assert_type(form.read("1"), int)
        assert_type(form.read(0.5, policy="saturating", target="I8F8"), int)
        assert_type(form.read(["1", "2"]), List[int])
        assert_type(form.read(["1", None], errors="mask"), List[Optional[int]])
        assert_type(form.read(texts, errors="mask"), NDArray[Any])
        assert_type(form.text(1), str)
        assert_type(form.text(range(3), places=2), List[str])
        assert_type(form.text(array, dtype="S"), NDArray[Any])
        assert_type(form.value(1), Decimal)
        assert_type(form.value(1, Fraction), Fraction)
        assert_type(form.value([1], float), List[float])
        assert_type(form.value([1], errors="mask"), List[Optional[Decimal]])
        assert_type(form.convert([1], "I8F8"), List[int])
        assert_type(form.enclose("1"), Tuple[int, int])
        assert_type(form.enclose(["1"], errors="mask"), List[Optional[Tuple[int, int]]])
        assert_type(form.enclose(texts), Tuple[NDArray[Any], NDArray[Any]])
        assert_type(form.compare(1, 2, "I8F8"), int)
        assert_type(form.compare([1], 2), List[int])
        assert_type(form.compare(1, array), NDArray[Any])
        assert_type(form.read("1", overflowed=True), Tuple[int, bool])
        assert_type(form.read(["1"], overflowed=True), Tuple[List[int], List[bool]])
        assert_type(form.convert(array, "I8F8", overflowed=True), Tuple[NDArray[Any], NDArray[Any]])
        assert_type(form.value([1], float64), List[float64])
        assert_type(form.greatest_error(["1", 0.5]), Fraction)
        assert_type(form.greatest_error(array, mode="floor"), Fraction)
        assert_type(fit(texts, 16), Format)
        assert_type(fit([0.5, "1"], error=2**-12, signed=True), Format)

    def words() -> None:
        """Words that are none: an ignored error that is not there would be an error."""
        form.read("1", mode="ties")  # type: ignore[call-overload]
        form.read("1", policy="saturated")  # type: ignore[call-overload]
        form.convert(1, "I8F8", target_mode="up")  # type: ignore[call-overload]
        form.text([1], errors="ignore")  # type: ignore[call-overload]
        form.text(1, dtype="O")  # type: ignore[call-overload]
        form.greatest_error([1], mode="ties")  # type: ignore[arg-type]
        fit([1], "16")  # type: ignore[arg-type]
