"""A run of one office by hours, or of two offices that share the processors, with hours or without."""

from __future__ import annotations

import array
from typing import Any, Dict, List, Optional, Sequence

from .. import plan
from ..calls import EXPORTED
from ..hints import Words
from ..kinds import DIRECT
from ..rig import OFFICES, Rig
from ..run import Run
from .differs import hold
from .scene import Dice, Event, Scene, number_of

TURN, DELIVER, COLLECT = 0, 1, 2
GATHER = 0
DELIVERED, IN_FLIGHT = 2, 1
WEEK = 7 * 24 * 60

# how often an event is drawn that will most likely be refused, and the minutes that go by between two calls
_STRAY, _CLOSED, _KNOCK, _MINUTES = 0.08, 0.25, 0.5, (0, 0, 1, 2, 5, 10, 20)


class Shared:
    """One or two offices on the same processors, by the engine's calls."""

    def __init__(self, encoded: bytes, sources: Sequence[Sequence[int]], hours: Optional[Words]) -> None:
        self.encoded, self.sources, self.hours, self.minute = encoded, sources, hours, 0
        self.offices = len(sources)
        self.rows = plan.messages(encoded, DIRECT)
        self.processors = plan.summary(encoded).processors
        self._rig = Rig(encoded, DIRECT, sources) if self.offices == OFFICES else None
        self._run = None if self._rig else Run(encoded, DIRECT, sources[0])

    def _areas(self, office: int) -> Any:
        return self._rig._areas[office] if self._rig else self._run._areas  # type: ignore[union-attr]

    def record(self, office: int, processor: int) -> List[int]:
        """Tiles finished, stage, messages sent."""
        record = self._areas(office).progress[processor]
        return [record.finished, record.stage, record.sent]

    def status(self, office: int) -> bytearray:
        """The marks of an office's messages, to be looked at."""
        found: bytearray = self._areas(office).status
        return found

    def held(self, processor: int) -> int:
        """The office that holds a processor; 2 for none."""
        return self._rig._engaged[processor] if self._rig else OFFICES

    def words(self) -> Words:
        """Records, who holds each processor, marks."""
        found = array.array('I', [word for office in range(self.offices) for p in range(self.processors) for word in self.record(office, p)])
        found.extend(self.held(p) for p in range(self.processors))
        for office in range(self.offices):
            found.extend(self._areas(office).status)
        return found

    def opens(self, processor: int) -> Optional[int]:
        """In how many minutes a processor opens; None: never."""
        return 0 if self.hours is None else plan.opens(self.encoded, self.hours, self.minute, processor)

    def _turn(self, office: int, processor: int) -> None:
        if self._rig and self.hours is not None:
            self._rig.turn_at(self.hours, self.minute, office, processor)
        elif self._rig:
            self._rig.turn(office, processor)
        elif self._run and self.hours is not None:
            self._run.turn_at(self.hours, self.minute, processor)

    def _deliver(self, office: int, message: int) -> None:
        if self._rig:
            self._rig.deliver(office, message)
        elif self._run:
            self._run.deliver(message)

    def _collect(self, office: int) -> None:
        """The grid is the sweep of the office's own source."""
        cells = plan.summary(self.encoded).cells
        swept, grid = array.array('I', bytes(4 * cells)), array.array('I', bytes(4 * cells))
        EXPORTED['sweep'](self.encoded, array.array('I', self.sources[office]), swept)
        if self._rig:
            self._rig._call('tenant_collect', office, office, grid)
        elif self._run:
            self._run._call('collect', grid)
        hold(grid == swept, 'the grid of office %d' % office)

    def take(self, kind: int, office: int, which: int) -> Event:
        """An event, with its number and minute."""
        call = (self._turn, self._deliver)[kind] if kind != COLLECT else None
        number = number_of(lambda: call(office, which) if call else self._collect(office))
        return [kind, which, number, office, self.minute]


class Drawn:
    """Draws the next event of offices that share processors."""

    def __init__(self, shared: Shared, tiles_on: Sequence[Sequence[int]], seed: int) -> None:
        self._shared, self._tiles_on, self._dice = shared, tiles_on, Dice(seed)
        self._collected: List[int] = []
        self._taken_by: Dict[int, List[int]] = {}
        for m, row in enumerate(shared.rows):
            self._taken_by.setdefault(row.taking_tile, []).append(m)

    def left(self, office: int, processor: int) -> int:
        """How many tiles are not finished."""
        return len(self._tiles_on[processor]) - self._shared.record(office, processor)[0]

    def _waits(self, office: int, processor: int) -> bool:
        finished, stage, _ = self._shared.record(office, processor)
        status = self._shared.status(office)
        return stage == GATHER and any(status[m] < DELIVERED for m in self._taken_by.get(self._tiles_on[processor][finished], ()))

    def _ready(self) -> List[List[int]]:
        shared, found = self._shared, []
        for office in range(shared.offices):
            status = shared.status(office)
            found += [[DELIVER, office, m] for m, mark in enumerate(status) if mark == IN_FLIGHT]
            found += [[TURN, office, p] for p in range(shared.processors) if self.left(office, p) and not self._waits(office, p)
                      and shared.held(p) in (office, OFFICES) and shared.opens(p) == 0]
        return found

    def _stray(self) -> List[int]:
        """One that may be refused: of a processor that is closed, held by the other office, or waits."""
        shared = self._shared
        left = [[TURN, office, p] for office in range(shared.offices) for p in range(shared.processors) if self.left(office, p)]
        shut = [event for event in left if shared.opens(event[2]) != 0]
        found: List[int] = self._dice.one(shut if shut and self._dice.is_so(_CLOSED) else left)
        return found

    def next(self) -> Optional[List[int]]:
        """The next event; None where both are collected."""
        shared = self._shared
        over = [office for office in range(shared.offices) if not any(self.left(office, p) for p in range(shared.processors))]
        for office in over:
            if office not in self._collected:
                self._collected.append(office)
                return [COLLECT, office, 0]
        if len(over) == shared.offices:
            return None
        if shared.hours is not None:
            shared.minute = (shared.minute + self._dice.one(_MINUTES)) % WEEK
        if self._dice.is_so(_STRAY):
            return self._stray()
        ready = self._ready()
        if not ready:
            if self._dice.is_so(_KNOCK):
                return self._stray()
            # time goes by until one opens
            waits = [shared.opens(p) or 0 for p in range(shared.processors) if any(self.left(o, p) for o in range(shared.offices)) and shared.opens(p)]
            hold(bool(waits), 'a run that can go on')
            shared.minute = (shared.minute + min(waits)) % WEEK
            ready = self._ready()
        return self._dice.one(ready) if ready else self._stray()


def scene_of(encoded: bytes, sources: Sequence[Sequence[int]], hours: Optional[Words], tiles_on: Sequence[Sequence[int]], seed: int) -> Dict[str, Any]:
    """A run in a drawn order to its end."""
    shared = Shared(encoded, sources, hours)
    drawn, scene = Drawn(shared, tiles_on, seed), Scene(shared.words())
    while True:
        event = drawn.next()
        if event is None:
            break
        scene.add(shared.take(*event), shared.words())
    return {**scene.data(), 'offices': shared.offices, 'hours': None if hours is None else list(hours)}
