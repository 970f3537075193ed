"""Boards that are driven by hand: one event at a time, each answered by the engine."""

from __future__ import annotations

from typing import Any, Dict, Sequence

from ..hints import Words
from .apart import COLLECT, Apart, data_of, told_by
from .scene import Scene


class Session:
    """Boards apart as they stand, and all that was done with them."""

    def __init__(self, encoded: bytes, source: Sequence[int], grid: Words) -> None:
        self._apart, self._grid = Apart(encoded, source), grid
        self._scene = Scene(self._apart.words)

    def data(self) -> Dict[str, Any]:
        """For the page."""
        return data_of(self._apart, self._scene)

    def event(self, kind: int, which: int) -> Dict[str, Any]:
        """Does what was chosen: the event with the engine's number, the words that changed, their check number, the packets' messages. What can't be
        done, as a turn of a board that is down, is told so."""
        if kind > COLLECT or not self._apart.can(kind, which):
            return {'refused': 'that can\'t be done as things stand'}
        told = told_by(self._apart, self._scene, kind, which)
        answer = {'event': told.event, 'changes': told.changes, 'sum': told.sum, 'packets': [packet.message for packet in self._apart.packets]}
        if kind == COLLECT and told.event[2] == 0:
            answer['equal'] = self._apart.grid == self._grid
        return answer

