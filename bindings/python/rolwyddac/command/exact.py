"""Decimal numbers from texts, exactly: which cell a point is in, and whether digits are lost, is never a matter of rounding."""

from __future__ import annotations

import datetime
import functools
import re
from typing import NamedTuple, Optional, Tuple

# no coordinate or depth has more digits, and longer ones would only cost time
_DIGITS_MOST, _EXPONENT_MOST = 40, 30

_NUMBER = re.compile(r'([+-]?)([0-9]*)(?:\.([0-9]*))?(?:[eE]([+-]?[0-9]{1,2}))?')
_WHOLE = re.compile(r'\+?[0-9]{1,10}')
_DATE = re.compile(r'([0-9]{4}-[0-9]{2}-[0-9]{2})(?:[T ]([0-9:.,]+)(?:Z|[+-][0-9:]+)?)?')
_FIRST_DAY = datetime.date(1970, 1, 1)

WORD_MOST = 2 ** 32 - 1


class Exact(NamedTuple):
    """The number digits / 10^places."""

    digits: int
    places: int

    def times(self, other: Exact) -> Exact:
        """The product."""
        return Exact(self.digits * other.digits, self.places + other.places)

    @property
    def unit(self) -> int:
        """10^places."""
        return int(10 ** self.places)

    @property
    def is_whole(self) -> bool:
        """Has it nothing behind the point?"""
        return self.digits % self.unit == 0

    def nearest(self) -> int:
        """The nearest whole number, of two the one further from 0."""
        whole = (2 * abs(self.digits) + self.unit) // (2 * self.unit)
        return whole if self.digits >= 0 else -whole

    def cells_from(self, start: int, size: int) -> Tuple[int, bool]:
        """How many whole cells lie between the start and the number, and is it where one ends and the next begins?"""
        cells, rest = divmod(self.digits - start * self.unit, size * self.unit)
        return cells, rest == 0

    def __str__(self) -> str:
        sign, text = '-' if self.digits < 0 else '', str(abs(self.digits)).rjust(self.places + 1, '0')
        return sign + (text[:-self.places] + '.' + text[-self.places:] if self.places else text)


def number_of(text: str) -> Optional[Exact]:
    """The number of a text, None where it is none, or has more digits than anything measured."""
    found = _NUMBER.fullmatch(text)
    if not found or len(text) > _DIGITS_MOST:
        return None
    sign, whole, part, exponent = found[1], found[2], found[3] or '', int(found[4] or 0)
    if not whole + part or abs(exponent) > _EXPONENT_MOST:
        return None
    digits, places = int(sign + whole + part), len(part) - exponent
    return Exact(digits, places) if places >= 0 else Exact(digits * 10 ** -places, 0)


def word_of(text: str) -> Optional[int]:
    """The whole number of a text, from 0 to 2^32 - 1."""
    return int(text) if _WHOLE.fullmatch(text) and int(text) <= WORD_MOST else None


@functools.lru_cache(maxsize=1024)
def day_of(text: str) -> Optional[Tuple[int, bool]]:
    """The day of a text, and whether it had a time of the day, which is left out: a whole number as it is, a date as days since
    1970-01-01."""
    whole = word_of(text)
    if whole is not None:
        return whole, False
    found = _DATE.fullmatch(text)
    try:
        days = (datetime.date.fromisoformat(found[1]) - _FIRST_DAY).days if found else -1
    except ValueError:
        return None
    return (days, bool(found and found[2])) if days >= 0 else None
