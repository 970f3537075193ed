"""A run that owns its areas."""

from __future__ import annotations

from typing import Any, Callable, List, Optional, SupportsIndex, Tuple

from . import calls
from .areas import Areas
from .calls import REFUSALS, sizes
from .hints import BytesLike, Grid, Numbers, Words
from .kinds import DIRECT, route_of
from .owner import Owner, locked
from .plan import Summary, summary
from .recipe import lengths_of
from .words import laid, octets, shaped, timetable, zeros

# numbers of refusals
NO_SUCH, WAITING, FINISHED = 11, 12, 13

# beyond the number of every message: no plan has as many
NO_MESSAGE = 2 ** 32 - 1


def turns(turn: Callable[[], None], *ends: int) -> int:
    """Takes turns until one is refused with one of these numbers; how many were taken."""
    taken = 0
    while True:
        try:
            turn()
        except tuple(REFUSALS[number] for number in ends):
            return taken
        taken += 1


def resumed(encoded: bytes, route: int, source: Words, areas: Areas) -> Areas:
    """A copy of areas that an earlier run left, their lengths and their fitness tested."""
    if not isinstance(areas, Areas):
        raise TypeError('areas: Areas are needed, not %s' % type(areas).__name__)
    kept = areas.copy()
    # a delivery tests lengths and fitness before the message's number
    try:
        calls.EXPORTED['deliver'](encoded, route, source, *kept, NO_MESSAGE)
    except REFUSALS[NO_SUCH]:
        pass
    return kept


class OverAreas(Owner):
    """What is lent all four areas at each call: a run, and a board that has them to itself."""

    _source: Words
    _areas: Areas

    @property
    def source(self) -> memoryview:
        """The source's words, to be read."""
        return memoryview(self._source).toreadonly()

    @property
    @locked
    def areas(self) -> Areas:
        """A copy of the areas as the last call left them, to be looked at or kept; `Run.resume` goes on from there."""
        return self._areas.copy()

    @locked
    def in_flight(self) -> List[int]:
        """The messages that are sent and not delivered, or not posted, yet, by number."""
        return self._areas.in_flight()

    @locked
    def _call(self, name: str, *last: Any) -> None:
        calls.EXPORTED[name](self._encoded, self._route, self._source, *self._areas, *last)


class Run(OverAreas):
    """A run of one recipe by one route over one source: a fresh start, then any turns and deliveries. Whatever their order, the
    grid that `collect` gives is that of the sweep. Threads may share a run: its calls go one at a time."""

    _plan: Summary

    def __init__(self, encoded: BytesLike, route: SupportsIndex, source: Numbers, areas: Optional[Areas] = None) -> None:
        """A fresh start; or, with areas that an earlier run of these left, the run goes on from there, on a copy."""
        recipe, word = octets('encoded', encoded), route_of(route)
        plan, words = summary(recipe, word), laid('source', source, lengths_of(recipe))
        if areas is None:
            made = Areas(sizes(recipe, word))
            calls.EXPORTED['fresh'](recipe, word, words, *made)
        else:
            made = resumed(recipe, word, words, areas)
        self._own(_encoded=recipe, _route=word, _source=words, _plan=plan, _areas=made)

    @classmethod
    def start(cls, encoded: BytesLike, route: SupportsIndex, source: Numbers) -> Run:
        """A fresh start."""
        return cls(encoded, route, source)

    @classmethod
    def resume(cls, encoded: BytesLike, route: SupportsIndex, source: Numbers, areas: Areas) -> Run:
        """Goes on from the areas that an earlier run of the same recipe, route and source left; they are copied."""
        if areas is None:
            raise TypeError('areas: Areas are needed, not None')
        return cls(encoded, route, source, areas)

    @classmethod
    def by_rounds(cls, encoded: BytesLike, source: Numbers) -> Tuple[Run, int]:
        """A whole run by rounds on the direct route: the run at its end, to be collected, and the rounds that it took."""
        run = cls(encoded, DIRECT, source)
        return run, calls.EXPORTED['rounds'](run._encoded, run._source, *run._areas).rounds

    @property
    def plan(self) -> Summary:
        """The plan's totals."""
        return self._plan

    def turn(self, processor: SupportsIndex) -> None:
        """Gives one processor a turn."""
        self._call('turn', processor)

    def turn_at(self, hours: Numbers, minute: SupportsIndex, processor: SupportsIndex) -> None:
        """Gives one processor a turn at a minute of the week, if the table of hours has it open then."""
        self._call('turn_at', timetable(hours, self._plan.processors), minute, processor)

    def deliver(self, message: SupportsIndex) -> None:
        """Delivers one message."""
        self._call('deliver', message)

    @locked
    def finish(self) -> int:
        """Goes on to the end: processors take turns in rising order, and each message in flight is delivered when no turn can be
        taken. Gives the number of turns and deliveries that were done. Other threads' calls wait for the end."""
        steps = 0
        while True:
            before = steps
            for processor in range(self._plan.processors):
                steps += turns(lambda: self.turn(processor), WAITING, FINISHED)
            for message in self.in_flight():
                self.deliver(message)
                steps += 1
            if steps == before:
                return steps

    def collect(self) -> Grid:
        """The grid, once all processors have finished."""
        grid = zeros(self._plan.cells)
        self._call('collect', grid)
        return shaped(grid, lengths_of(self._encoded))


def rounds(encoded: BytesLike, source: Numbers) -> Tuple[int, Run]:
    """`Run.by_rounds` the other way round: the rounds, and the run."""
    run, taken = Run.by_rounds(encoded, source)
    return taken, run
