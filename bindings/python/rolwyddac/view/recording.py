"""A run in a drawn order, recorded call by call, with the other orders in which its neighbouring calls can be taken."""

from __future__ import annotations

import random
from typing import Any, List, NamedTuple, Optional, Sequence

from .. import plan
from ..areas import IN_FLIGHT
from ..hints import Words
from .differs import hold
from .routes import Route
from .states import COLLECT, DELIVER, TURN, WAITING, Event, Kept, Replay, State

# how often an event is drawn that will most likely be refused
_STRAY_DELIVERY, _STRAY_COLLECT, _STRAY_TURN, _WAITING_TURN = 0.03, 0.01, 0.01, 0.18

# so many calls behind another the engine is asked for, in every order; the first of them alone, as a set
REACH = 4
SECOND = 1


class Other(NamedTuple):
    """A state that the run as recorded does not have: all calls before the first are done, and some of those behind it, a bit a call."""

    first: int
    done: int
    sum: int


class Recording(NamedTuple):
    """Calls, their numbers, the check number of the areas before the first and behind each, and the states of other orders."""

    events: List[Event]
    numbers: List[int]
    sums: List[int]
    others: List[Other]

    def pairs(self) -> int:
        """How many neighbouring calls may be swapped."""
        return sum(other.done == SECOND for other in self.others)


class Drawing:
    """Draws events. Of the standard library's dice only `random` is the same in every version of Python."""

    def __init__(self, seed: int, replay: Replay) -> None:
        self._dice, self._replay = random.Random(seed), replay

    def _is(self, chance: float) -> bool:
        return self._dice.random() < chance

    def _one(self, of: Sequence[Any]) -> Any:
        return of[int(self._dice.random() * len(of))]

    def event(self) -> Event:
        """The next event: any processor or message may be called, also one that will be refused."""
        replay, processors, messages = self._replay, range(self._replay.route.processors), range(len(self._replay.status))
        left = [p for p in processors if replay.left(p)]
        if not left:
            return COLLECT, 0
        if messages and self._is(_STRAY_DELIVERY):
            return DELIVER, self._one(messages)
        if self._is(_STRAY_COLLECT):
            return COLLECT, 0
        if self._is(_STRAY_TURN):
            return TURN, self._one(processors)
        stuck = [p for p in left if replay.due(p)]
        if stuck and self._is(_WAITING_TURN * min(1, len(stuck) / 2)):
            return TURN, self._one(stuck)
        ready = [(TURN, p) for p in left if p not in set(stuck)]
        ready += [(DELIVER, m) for m in messages if replay.status[m] == IN_FLIGHT]
        found: Event = self._one(ready)
        return found


class Taken(NamedTuple):
    """A call that was taken, the state before it, and of the calls behind it the sets that can be taken before it, a bit a call."""

    at: int
    event: Event
    before: Kept
    sets: List[int]


# the last calls that were taken, without one refused between
Window = List[Taken]


class Orders:
    """Asks the engine in which other orders neighbouring calls can be taken, and holds what each leaves to the recorded order."""

    def __init__(self, trial: State) -> None:
        self._trial = trial

    def _sum(self, before: Kept, asked: Sequence[Event], then: Sequence[Event], live: State) -> Optional[int]:
        """The check number behind the events that are asked for; none where one of them is refused. Else the others can be taken too, and
        all of them leave the live state."""
        self._trial.go_to(before)
        if any(self._trial.take(event) for event in asked):
            return None
        found = self._trial.sum()
        hold(not any(self._trial.take(event) for event in then), 'calls that can be taken in another order')
        hold(self._trial.same(live), 'what calls leave in another order')
        return found

    def found(self, window: Window, event: Event, live: State) -> List[Other]:
        """The states that this event makes possible if it is taken before some of the calls before it. A set of calls can be taken before
        another only if that set without its last call can."""
        others: List[Other] = []
        for place, first in enumerate(window):
            events = [taken.event for taken in window[place + 1:]] + [event]
            last = 1 << len(events) - 1
            for done in [last, *(earlier | last for earlier in first.sets)]:
                asked = [each for bit, each in enumerate(events) if done >> bit & 1]
                then = [first.event] + [each for bit, each in enumerate(events) if not done >> bit & 1]
                # two turns of one processor are one event
                told = None if event in then else self._sum(first.before, asked, then, live)
                if told is not None:
                    others.append(Other(first.at, done, told))
        for other in others:
            next(first for first in window if first.at == other.first).sets.append(other.done)
        return others


def record(encoded: bytes, route: Route, source: Sequence[int], grid: Words, seed: int) -> Recording:
    """A run in a drawn order to its end. Each call's number and all elements behind it are held to the page's own rules."""
    live, orders = State(encoded, route.route, source), Orders(State(encoded, route.route, source))
    replay = Replay(route, grid)
    drawing, found, collected = Drawing(seed, replay), Recording([], [], [live.sum()], []), False
    window: Window = []
    while not collected:
        event, before, at = drawing.event(), live.kept(), len(found.events)
        waits_for = replay.due(event[1]) if event[0] == TURN else []
        number = live.take(event)
        hold(number == replay.take(event) and replay.agrees(live), 'the areas behind call %d' % (at + 1))
        if number == WAITING:
            told = plan.awaited(encoded, route.route, live.areas.progress, live.areas.status, event[1])
            hold(told.messages == waits_for, 'the messages that processor %d waits for' % event[1])
        found.events.append(event)
        found.numbers.append(number)
        found.sums.append(live.sum())
        if number == 0 and event[0] != COLLECT:
            found.others.extend(orders.found(window, event, live))
            window = [*window, Taken(at, event, before, [])][-REACH:]
        else:
            window = []
        collected = event[0] == COLLECT and number == 0
    hold(sum(number == 0 for number in found.numbers) == route.summary.steps + 1, 'the steps of the run')
    hold(live.grid == grid, 'the collected grid')
    return found
