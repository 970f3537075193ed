"""A run that is told by the engine's own words: the elements behind each call, as changes from the call before."""

from __future__ import annotations

import array
import base64
import random
import zlib
from typing import Any, Callable, Dict, Iterable, List, NamedTuple, Optional, Sequence

from ..hints import Words
from ..refusals import Refused

# an event: its kind, and what it is of; the number that the engine gave, none where it was not asked; then what the scene adds
Event = List[Optional[int]]


def number_of(call: Callable[[], object]) -> int:
    """The number that a call gives."""
    try:
        call()
    except Refused as refusal:
        return refusal.number
    return 0


def sum_of(words: Words) -> int:
    """The check number of a state: CRC-32 of its words, low byte first, as this machine has them."""
    return zlib.crc32(words)


class Told(NamedTuple):
    """What an event left: the words that changed, place and word in turn, and the check number of all."""

    event: Event
    changes: List[int]
    sum: int


class Scene:
    """Events, and the words behind each."""

    def __init__(self, words: Words) -> None:
        self._start, self._words = list(words), array.array('I', words)
        self._told: List[Told] = []
        self._sum = sum_of(words)

    def add(self, event: Event, words: Words, places: Optional[Iterable[int]] = None) -> Told:
        """One more event. Where places are named, no other word has changed."""
        changes: List[int] = []
        for place in range(len(words)) if places is None else places:
            if self._words[place] != words[place]:
                self._words[place] = words[place]
                changes += [place, words[place]]
        told = Told(event, changes, sum_of(self._words))
        self._told.append(told)
        return told

    @property
    def events(self) -> List[Event]:
        """All events."""
        return [told.event for told in self._told]

    def data(self) -> Dict[str, Any]:
        """For the page."""
        sums = array.array('I', [self._sum, *(told.sum for told in self._told)])
        return {'events': self.events, 'start': self._start, 'changes': [told.changes for told in self._told],
                'sums': base64.b64encode(sums.tobytes()).decode()}


class Dice:
    """Draws. Of the standard library's dice only `random` is the same in every version of Python."""

    def __init__(self, seed: int) -> None:
        self._dice = random.Random(seed)

    def is_so(self, chance: float) -> bool:
        """Is it so, by this chance?"""
        return self._dice.random() < chance

    def one(self, of: Sequence[Any]) -> Any:
        """One of these."""
        return of[int(self._dice.random() * len(of))]
