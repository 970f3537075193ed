"""A rig that two offices share, with the areas of both."""

from __future__ import annotations

import array
from typing import Any, Iterable, List, SupportsIndex, Tuple

from . import calls
from .areas import Areas
from .calls import sizes
from .hints import BytesLike, Grid, Numbers, Words
from .kinds import route_of, whole
from .owner import Owner, locked
from .plan import Summary, summary
from .recipe import lengths_of
from .run import FINISHED, NO_SUCH, WAITING, turns
from .words import laid, octets, shaped, timetable, zeros

# an engaged word of a processor that no office holds
FREE = 2

# number of a refusal
ENGAGED = 19

OFFICES = 2


def place(office: SupportsIndex) -> int:
    """Which of two an office's number names; any number but 0 names the second, and the engine refuses those above 1."""
    return int(whole('office', 'u32', office) != 0)


class Rig(Owner):
    """Two offices with one recipe and one route, each over its own source, on the same processors; offices are 0 and 1. Threads may share
    a rig: its calls go one at a time."""

    CHANGED = ('_areas', '_engaged')
    _sources: Tuple[Words, ...]
    _plan: Summary
    _areas: Tuple[Areas, Areas]
    _engaged: Words

    def __init__(self, encoded: BytesLike, route: SupportsIndex, sources: Iterable[Numbers]) -> None:
        """A fresh start of both offices."""
        recipe, word = octets('encoded', encoded), route_of(route)
        plan, wanted = summary(recipe, word), sizes(recipe, word)
        words = tuple(laid('source', source, lengths_of(recipe)) for source in sources)
        if len(words) != OFFICES:
            raise ValueError('sources: two are needed, not %d' % len(words))
        first, second, engaged = Areas(wanted), Areas(wanted), zeros(wanted.engaged)
        calls.EXPORTED['fresh_both'](recipe, word, words[0], *first, words[1], *second, engaged)
        self._own(_encoded=recipe, _route=word, _sources=words, _plan=plan, _areas=(first, second), _engaged=engaged)

    @classmethod
    def start(cls, encoded: BytesLike, route: SupportsIndex, sources: Iterable[Numbers]) -> Rig:
        """A fresh start of both offices."""
        return cls(encoded, route, sources)

    @property
    def sources(self) -> Tuple[memoryview, ...]:
        """The words of each office's source, to be read."""
        return tuple(memoryview(words).toreadonly() for words in self._sources)

    @property
    def plan(self) -> Summary:
        """The plan's totals, which are each office's."""
        return self._plan

    @property
    @locked
    def areas(self) -> List[Areas]:
        """Copies of each office's areas as the last call left them."""
        return [areas.copy() for areas in self._areas]

    @property
    @locked
    def engaged(self) -> Words:
        """A copy of the engaged words: the office that holds each processor, or `FREE`."""
        return array.array('I', self._engaged)

    @locked
    def _call(self, name: str, office: SupportsIndex, *last: Any) -> None:
        """A call for an office, lent its own areas and the other's records; its number is also among the last words, where the call has it."""
        own = place(office)
        calls.EXPORTED[name](self._encoded, self._route, self._sources[own], *self._areas[own], self._engaged,
                             self._areas[1 - own].progress, *last)

    def turn(self, office: SupportsIndex, processor: SupportsIndex) -> None:
        """Gives one processor a turn for an office."""
        self._call('tenant_turn', office, office, processor)

    def turn_at(self, hours: Numbers, minute: SupportsIndex, office: SupportsIndex, processor: SupportsIndex) -> None:
        """Gives one processor a turn for an office at a minute of the week."""
        self._call('tenant_turn_at', office, timetable(hours, self._plan.processors), minute, office, processor)

    def deliver(self, office: SupportsIndex, message: SupportsIndex) -> None:
        """Delivers one message of an office."""
        self._call('tenant_deliver', office, office, message)

    @locked
    def in_flight(self, office: SupportsIndex) -> List[int]:
        """An office's messages in flight, by number."""
        if whole('office', 'u32', office) >= OFFICES:
            raise calls.refused(NO_SUCH)
        return self._areas[place(office)].in_flight()

    @locked
    def finish(self) -> List[int]:
        """Goes on to the end, on each processor in rising order one office after the other; gives each office's steps. Other threads' calls
        wait for the end."""
        steps = [0, 0]
        while True:
            before = list(steps)
            for processor in range(self._plan.processors):
                for office in range(OFFICES):
                    steps[office] += turns(lambda: self.turn(office, processor), WAITING, FINISHED, ENGAGED)
            for office in range(OFFICES):
                for message in self.in_flight(office):
                    self.deliver(office, message)
                    steps[office] += 1
            if steps == before:
                return steps

    def collect(self, office: SupportsIndex) -> Grid:
        """An office's grid, once all processors have finished for it."""
        grid = zeros(self._plan.cells)
        self._call('tenant_collect', office, office, grid)
        return shaped(grid, lengths_of(self._encoded))

    @locked
    def view(self, office: SupportsIndex, processor: SupportsIndex) -> Grid:
        """A copy of the processor's part of an office's memories."""
        first, second = self._areas
        part = calls.EXPORTED['view'](self._encoded, first.memories, second.memories, office, processor)
        return shaped(self._areas[place(office)].memories[part.begin:part.begin + part.length], lengths_of(self._encoded))
