"""Numbers as they are: exact fractions, and the decimals that say them in a document."""

from __future__ import annotations

import math
import numbers
from decimal import Decimal
from fractions import Fraction
from typing import Iterable, Optional, Union

from .errors import BadModel
from .limits import GREATEST

Number = Union[int, float, Fraction, Decimal]
MOST_PLACES = 38  # 10^38 is the greatest power of ten within 128 bits


def exact(value: Number, where: str) -> Fraction:
    """The fraction that a number is. A float is its shortest decimal that reads back, so that 0.1 is one tenth."""
    if isinstance(value, numbers.Integral):
        return Fraction(int(value))
    if isinstance(value, numbers.Rational):
        return Fraction(value.numerator, value.denominator)
    if isinstance(value, Decimal) and value.is_finite():
        return fraction_of(value, where)
    if isinstance(value, float) and math.isfinite(value):
        return Fraction(float.__repr__(value))
    if isinstance(value, (float, Decimal)):
        raise BadModel(f"{where}: {value} is no number that a model has there")
    raise BadModel(f"{where}: {value!r} is no number, but {type(value).__name__}")


def fraction_of(value: Decimal, where: str) -> Fraction:
    """A decimal as a fraction; one that is wider than any document takes isn't written out."""
    if abs(value.adjusted()) > 10 * MOST_PLACES:
        raise BadModel(f"{where}: {value} passes 128 bits; take other units")
    return Fraction(value)


def lower_end(value: Optional[Number], where: str) -> Optional[Fraction]:
    """A lower end: none where it is None or minus infinity."""
    if is_infinite(value) and value > 0:  # type: ignore[operator]
        raise BadModel(f"{where}: a lower end is infinite, and no value is beyond it")
    return None if value is None or is_infinite(value) else exact(value, where)


def upper_end(value: Optional[Number], where: str) -> Optional[Fraction]:
    """An upper end: none where it is None or infinity."""
    if is_infinite(value) and value < 0:  # type: ignore[operator]
        raise BadModel(f"{where}: an upper end is minus infinity, and no value is below it")
    return None if value is None or is_infinite(value) else exact(value, where)


def is_infinite(value: Optional[Number]) -> bool:
    return isinstance(value, (float, Decimal)) and math.isinf(value)


def rest_of(denominator: int) -> int:
    """What is left of a denominator without its factors 2 and 5: 1 where the fraction is a decimal."""
    while denominator % 10 == 0:
        denominator //= 10
    for prime in (2, 5):
        while denominator % prime == 0:
            denominator //= prime
    return denominator


def scale_of(values: Iterable[Fraction]) -> int:
    """The least whole number that makes decimals of these fractions."""
    return math.lcm(*(rest_of(value.denominator) for value in values))


def decimal_text(value: Fraction, where: str) -> str:
    """The decimal that says a fraction, without an exponent, where it is one within 128 bits (`docs/rules/numbers.md`)."""
    text = _decimal(value) if value.denominator <= GREATEST and abs(value.numerator) <= GREATEST else None
    if text is None:
        raise BadModel(f"{where}: {float_text(value)} passes 128 bits as it has to be written; take other units, or fewer digits")
    return text


def _decimal(value: Fraction) -> Optional[str]:
    if value.denominator == 1:
        return str(value.numerator)
    places = next((k for k in range(1, MOST_PLACES + 1) if 10**k % value.denominator == 0), 0)
    digits = abs(value.numerator) * 10**places // value.denominator
    if not places or digits > GREATEST:
        return None
    text = str(digits).rjust(places + 1, "0")
    return ("-" if value < 0 else "") + f"{text[:-places]}.{text[-places:]}"


def float_text(value: Fraction) -> str:
    """About what a fraction is, for a message."""
    try:
        return f"{float(value):g}"
    except OverflowError:
        return f"a number of {len(str(abs(value.numerator)))} digits"
