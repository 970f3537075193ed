"""Refusals: one class a number, named by its term."""

from __future__ import annotations

from typing import Dict, SupportsIndex, Type

from .kinds import whole
from .library import term, text


class Refused(Exception):
    """A call was refused: `number`, `term` and `reason` of the table of numbers, docs/RECIPE.md. No lent element has changed.
    Each number of the table has a class of its own below this one, named by its term: `Waiting`, `NoMail`."""

    number: int

    def __init__(self, number: SupportsIndex) -> None:
        super().__init__(number)
        self.number = whole('number', 'u32', number)

    @property
    def term(self) -> str:
        """The number's term, as `no mail`."""
        return term(self.number)

    @property
    def reason(self) -> str:
        """What the number says."""
        return text(self.number)

    def __str__(self) -> str:
        return 'refused %d, %s: %s' % (self.number, self.term, self.reason)


# Written down, so that editors and type checkers know them. What each says is the library's, below.


class Ragged(Refused):
    pass


class StrayRecord(Refused):
    pass


class Length(Refused):
    pass


class TooLarge(Refused):
    pass


class Distance(Refused):
    pass


class Tile(Refused):
    pass


class Boards(Refused):
    pass


class Tiles(Refused):
    pass


class Area(Refused):
    pass


class Unfit(Refused):
    pass


class NoSuch(Refused):
    pass


class Waiting(Refused):
    pass


class Finished(Refused):
    pass


class NoMail(Refused):
    pass


class Early(Refused):
    pass


class SpreadOrder(Refused):
    pass


class LastSpread(Refused):
    pass


class TooWide(Refused):
    pass


class Engaged(Refused):
    pass


class Empty(Refused):
    pass


class DirectOnly(Refused):
    pass


class OffTheBox(Refused):
    pass


class NoChart(Refused):
    pass


class Closed(Refused):
    pass


class Hours(Refused):
    pass


class Damaged(Refused):
    pass


class Stale(Refused):
    pass


REFUSALS: Dict[int, Type[Refused]] = dict(enumerate((
    Ragged, StrayRecord, Length, TooLarge, Distance, Tile, Boards, Tiles, Area,
    Unfit, NoSuch, Waiting, Finished, NoMail, Early, SpreadOrder, LastSpread,
    TooWide, Engaged, Empty, DirectOnly, OffTheBox, NoChart, Closed, Hours,
    Damaged, Stale), start=1))

# beyond every number that a library of this major version gives
_NUMBERS = 64

# a later library may have numbers that are not written down here
for _number in range(1, _NUMBERS):
    if term(_number) != 'other' and _number not in REFUSALS:
        REFUSALS[_number] = type(term(_number).title().replace(' ', ''), (Refused,), {})

Refused.__module__ = 'rolwyddac'
for _number, _refusal in REFUSALS.items():
    _refusal.__doc__, _refusal.__module__ = '%d, %s: %s.' % (_number, term(_number), text(_number)), 'rolwyddac'


def refused(number: int) -> Refused:
    """The exception of a number."""
    return REFUSALS.get(number, Refused)(number)
