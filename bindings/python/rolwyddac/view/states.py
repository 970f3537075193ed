"""The areas of a run as the engine leaves them, and the page's own rules of what a call writes."""

from __future__ import annotations

import array
import ctypes
import itertools
import struct
import zlib
from typing import TYPE_CHECKING, List, NamedTuple, Sequence, Tuple

from .. import calls
from ..areas import IN_FLIGHT, UNSENT, Areas
from ..hints import Words
from ..refusals import Refused
from .differs import hold

if TYPE_CHECKING:
    from .routes import Route

# kinds of events; of a collecting the second number is 0
TURN, DELIVER, COLLECT = 0, 1, 2
Event = Tuple[int, int]

GATHER, CALCULATE, SEND = 0, 1, 2
DELIVERED, TAKEN = 2, 3

WAITING, FINISHED, NO_MAIL, EARLY = 12, 13, 14, 15

_WORD = 4


def number_of(call: str, *lent: object) -> int:
    """The number that a call gives."""
    try:
        calls.EXPORTED[call](*lent)
    except Refused as refusal:
        return refusal.number
    return 0


class Kept(NamedTuple):
    """A state that is kept: of each processor its memory and its check number, then the other areas."""

    parts: Tuple[bytes, ...]
    sums: Tuple[int, ...]
    buffer: bytes
    progress: bytes
    status: bytes


class State:
    """The areas of a run, changed by the engine's calls alone."""

    def __init__(self, encoded: bytes, route: int, source: Sequence[int]) -> None:
        wanted = calls.sizes(encoded, route)
        self.encoded, self.route, self.source, self.cells = encoded, route, array.array('I', source), wanted.source
        self.areas = Areas(wanted)
        self.grid = array.array('I', bytes(_WORD * wanted.grid))
        hold(number_of('fresh', encoded, route, self.source, *self.areas) == 0, 'a fresh start')
        self._octets = memoryview(self.areas.memories).cast('B')
        self.parts = [bytes(self._octets[self._part(p)]) for p in range(wanted.progress)]
        self.sums = [zlib.crc32(part) for part in self.parts]

    def _part(self, processor: int) -> slice:
        return slice(_WORD * processor * self.cells, _WORD * (processor + 1) * self.cells)

    def take(self, event: Event) -> int:
        """An event; its number."""
        kind, which = event
        name, last = (('turn', which), ('deliver', which), ('collect', self.grid))[kind]
        number = number_of(name, self.encoded, self.route, self.source, *self.areas, last)
        if kind == TURN and number == 0:
            self.parts[which] = bytes(self._octets[self._part(which)])
            self.sums[which] = zlib.crc32(self.parts[which])
        return number

    def sum(self) -> int:
        """The check number: CRC-32 over the CRC-32 of each processor's memory, buffer, progress and status; words low byte first."""
        found = zlib.crc32(struct.pack('<%dI' % len(self.sums), *self.sums))
        for octets in (self.areas.buffer.tobytes(), bytes(self.areas.progress), bytes(self.areas.status)):
            found = zlib.crc32(octets, found)
        return found

    def kept(self) -> Kept:
        """This state, to be gone back to."""
        areas = self.areas
        return Kept(tuple(self.parts), tuple(self.sums), areas.buffer.tobytes(), bytes(areas.progress), bytes(areas.status))

    def go_to(self, kept: Kept) -> None:
        """Takes over a kept state; memories that are the same already are left."""
        for p, part in enumerate(kept.parts):
            if self.parts[p] is not part:
                self._octets[self._part(p)] = part
        self.parts, self.sums = list(kept.parts), list(kept.sums)
        memoryview(self.areas.buffer).cast('B')[:] = kept.buffer
        ctypes.memmove(self.areas.progress, kept.progress, len(kept.progress))
        self.areas.status[:] = kept.status

    def same(self, other: State) -> bool:
        """Has it the same elements in all areas?"""
        return all(mine == theirs for mine, theirs in zip(self.areas, other.areas)
                   if not isinstance(mine, ctypes.Array)) and bytes(self.areas.progress) == bytes(other.areas.progress)


class Replay:
    """The page's rules of a run: which elements a call writes. It is held to the engine after every call."""

    def __init__(self, route: Route, grid: Words) -> None:
        self.route, self.grid = route, grid
        self.memories = array.array('I', bytes(_WORD * len(grid) * route.processors))
        self.buffer = array.array('I', bytes(_WORD * len(route.cells)))
        self.progress = [[0, 0, 0] for _ in range(route.processors)]
        self.status = bytearray(len(route.rows))

    def left(self, processor: int) -> int:
        """How many tiles a processor has not finished."""
        return len(self.route.tiles_on[processor]) - self.progress[processor][0]

    def due(self, processor: int) -> List[int]:
        """The messages that a processor waits for."""
        finished, stage, _ = self.progress[processor]
        if stage != GATHER or not self.left(processor):
            return []
        return [m for m in self.route.taken_by[self.route.tiles_on[processor][finished]] if self.status[m] < DELIVERED]

    def take(self, event: Event) -> int:
        """An event; its number."""
        kind, which = event
        if kind == COLLECT:
            return EARLY if any(map(self.left, range(self.route.processors))) else 0
        if kind == DELIVER:
            if self.status[which] != IN_FLIGHT:
                return NO_MAIL
            self.status[which] = DELIVERED
            return 0
        if not self.left(which):
            return FINISHED
        if self.due(which):
            return WAITING
        self._turn(which)
        return 0

    def _turn(self, processor: int) -> None:
        record, route = self.progress[processor], self.route
        tile = route.tiles_on[processor][record[0]]
        sends = route.sent_by[tile]
        if record[1] == GATHER:
            for m in route.taken_by[tile]:
                self.status[m] = TAKEN
                self._write(processor, route.cells_of_message(m))
            record[1] = CALCULATE
            return
        if record[1] == CALCULATE:
            self._write(processor, route.cells_of[tile])
            record[1] = SEND
        else:
            self._send(sends[record[2]])
            record[2] += 1
        if record[2] == len(sends):
            record[:] = [record[0] + 1, GATHER, 0]

    def _write(self, processor: int, cells: Sequence[int]) -> None:
        for cell in cells:
            self.memories[processor * len(self.grid) + cell] = self.grid[cell]

    def _send(self, message: int) -> None:
        hold(self.status[message] == UNSENT, 'message %d is sent once' % message)
        offset = self.route.rows[message].offset
        for at, cell in enumerate(self.route.cells_of_message(message)):
            self.buffer[offset + at] = self.grid[cell]
        self.status[message] = IN_FLIGHT

    def agrees(self, state: State) -> bool:
        """Has the engine's state the same elements?"""
        records = struct.pack('<%dI' % (3 * len(self.progress)), *itertools.chain(*self.progress))
        return (bytes(state.areas.progress) == records and state.areas.status == self.status
                and state.areas.buffer == self.buffer and state.areas.memories == self.memories)
