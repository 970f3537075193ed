"""One processor of a run on processors that share no memory."""

from __future__ import annotations

import array
from typing import Any, List, Optional, SupportsIndex, Tuple

from . import calls
from .areas import IN_FLIGHT, UNSENT, Areas, PartAreas
from .calls import sizes
from .hints import BytesLike, Grid, Numbers, Records, Words, Writable
from .kinds import route_of, whole
from .owner import Owner, locked
from .plan import AREA, Awaited, PartRow, Row, awaited, messages, part_messages, part_sizes
from .recipe import lengths_of
from .run import NO_SUCH, OverAreas
from .words import laid, octets, shape_held, shape_of, shaped


class _Processor(Owner):
    """What both kinds of board have."""

    _source: Words
    _processor: int

    @property
    def source(self) -> memoryview:
        """The source's words, to be read."""
        return memoryview(self._source).toreadonly()

    @property
    def processor(self) -> int:
        """The processor's number."""
        return self._processor


class Board(OverAreas, _Processor):
    """One processor of a run on processors that share no memory: it has all areas to itself, and a transport carries its messages.
    Where every message that one posts is taken in by its taker, sooner or later, each finishes, and its memory has the cells of its
    tiles as the sweep has them. Threads may share a board: its calls go one at a time."""

    CHANGED = ('_areas', '_parts', '_masks')
    _rows: Tuple[Row, ...]
    # what came so far of each message, at its words' places in the buffer, and which of its chunks
    _parts: Words
    _masks: Words

    def __init__(self, encoded: BytesLike, route: SupportsIndex, source: Numbers, processor: SupportsIndex) -> None:
        """A fresh start."""
        recipe, word, own = octets('encoded', encoded), route_of(route), whole('processor', 'u32', processor)
        rows, words = messages(recipe, word), laid('source', source, lengths_of(recipe))
        areas = Areas(sizes(recipe, word))
        calls.EXPORTED['fresh'](recipe, word, words, *areas)
        if own >= len(areas.progress):
            raise calls.refused(NO_SUCH)
        parts, masks = array.array('I', bytes(4 * len(areas.buffer))), array.array('Q', bytes(8 * len(areas.status)))
        self._own(_encoded=recipe, _route=word, _source=words, _processor=own, _rows=tuple(rows), _areas=areas, _parts=parts, _masks=masks)

    @property
    def rows(self) -> Tuple[Row, ...]:
        """All messages of the route, in the order of their numbers."""
        return self._rows

    @locked
    def memory(self) -> Grid:
        """A copy of the processor's own part of its memories, as a grid."""
        cells = len(self._source)
        return shaped(self._areas.memories[self._processor * cells:][:cells], lengths_of(self._encoded))

    def turn(self) -> None:
        """Gives the processor a turn."""
        self._call('turn', self._processor)

    @locked
    def awaited(self) -> Awaited:
        """What the processor waits for."""
        return awaited(self._encoded, self._route, self._areas.progress, self._areas.status, self._processor)

    @locked
    def post(self, message: SupportsIndex) -> Tuple[int, Words]:
        """Posts a message in flight: gives the processor that takes it, and the words to carry there."""
        m = whole('message', 'u32', message)
        self._call('deliver', m)
        row = self._rows[m]
        return row.taking_processor, self._areas.buffer[row.offset:row.offset + row.words]

    def take_in(self, message: SupportsIndex, words: Numbers) -> None:
        """Takes a message in that another processor posted."""
        self._call('take_in', self._processor, message, laid('words', words))

    @locked
    def packet(self, run: SupportsIndex, life: SupportsIndex, message: SupportsIndex, chunk: SupportsIndex) -> bytes:
        """The packet of a chunk of a message that this processor has posted: the first time, and whenever its taker asks again."""
        space = bytearray(calls.LONGEST_PACKET)
        told = calls.EXPORTED['send'](self._encoded, self._route, run, life, self._areas.buffer, self._areas.status, self._processor, message, chunk, space)
        return bytes(space[:told.length])

    @locked
    def receive(self, run: SupportsIndex, packet: BytesLike) -> Tuple[int, bool]:
        """Takes bytes as they came: a chunk to what came of its message, and the message in once it is whole. Gives the message, and whether
        it is whole."""
        areas = self._areas
        told = calls.EXPORTED['receive'](self._encoded, self._route, run, self._source, areas.memories, areas.buffer, areas.progress, areas.status,
                                         self._processor, packet, self._parts, self._masks)
        return told.message, told.whole == 1


class PartBoard(_Processor):
    """One processor of a run on processors that share no memory, with memory for its own part alone; a transport carries its messages.
    Where every message that one posts arrives at its taker, sooner or later, each finishes, and the grid that all have collected into is
    that of the sweep. Threads may share a board: its calls go one at a time."""

    _rows: Tuple[PartRow, ...]
    _areas: PartAreas

    def __init__(self, encoded: BytesLike, route: SupportsIndex, source: Numbers, processor: SupportsIndex) -> None:
        """A fresh start; the source has a word for each cell of the processor's tiles (`part_source`)."""
        recipe, word, own = octets('encoded', encoded), route_of(route), whole('processor', 'u32', processor)
        wanted, words = part_sizes(recipe, word, own), laid('source', source)
        if len(words) != wanted.source:
            raise calls.refused(AREA)
        rows, areas = part_messages(recipe, word, own), PartAreas(wanted)
        calls.EXPORTED['part_fresh'](recipe, word, *areas, own)
        self._own(_encoded=recipe, _route=word, _source=words, _processor=own, _rows=tuple(rows), _areas=areas)

    @property
    def rows(self) -> Tuple[PartRow, ...]:
        """The messages that the processor handles, in the order of their numbers."""
        return self._rows

    @property
    @locked
    def areas(self) -> PartAreas:
        """A copy of the areas as the last call left them."""
        return self._areas.copy()

    @property
    def memory(self) -> Words:
        """A copy of the processor's memory: a word for each cell that it keeps."""
        return self.areas.memory

    @property
    def mail(self) -> Words:
        """A copy of the words of the messages that it handles."""
        return self.areas.mail

    @property
    def progress(self) -> Records:
        """A copy of its record."""
        return self.areas.progress

    @property
    def marks(self) -> bytearray:
        """A copy of the marks of the messages that it handles: 0 unsent, 1 in flight, 2 delivered, 3 taken."""
        return self.areas.marks

    @locked
    def _call(self, name: str, *last: Any) -> None:
        calls.EXPORTED[name](self._encoded, self._route, *self._areas, self._processor, *last)

    @locked
    def turn(self) -> None:
        """Gives the processor a turn."""
        calls.EXPORTED['part_turn'](self._encoded, self._route, self._source, *self._areas, self._processor)

    def _marked(self, mark: int) -> List[PartRow]:
        return [row for row, found in zip(self._rows, self._areas.marks) if found == mark]

    @locked
    def awaited(self) -> Optional[Awaited]:
        """The first tile of the processor that has a message still to come, and the messages that it then waits for; None where all have
        come. Where a turn was refused with 12 it stands at this tile."""
        missing = [row for row in self._marked(UNSENT) if row.taking_processor == self._processor]
        tile = min((row.taking_tile for row in missing), default=None)
        return None if tile is None else Awaited(tile, [row.message for row in missing if row.taking_tile == tile])

    @locked
    def in_flight(self) -> List[int]:
        """The messages that are sent and not posted yet, by number."""
        return [row.message for row in self._marked(IN_FLIGHT)]

    @locked
    def post(self, message: SupportsIndex) -> Tuple[int, Words]:
        """Posts a message in flight: gives the processor that takes it, and the words to carry there."""
        m = whole('message', 'u32', message)
        self._call('part_post', m)
        row, = [row for row in self._rows if row.message == m]
        return row.taking_processor, self._areas.mail[row.place:row.place + row.words]

    def arrive(self, message: SupportsIndex, words: Numbers) -> None:
        """A message arrives that another processor posted."""
        self._call('part_arrive', message, laid('words', words))

    @locked
    def collect(self, grid: Writable) -> None:
        """Puts the processor's part into a grid of all cells, an array of words, once it has finished; the words of other processors' cells
        are as before. The grid is lent: no other call may have it at the same time."""
        shape_held('grid', shape_of(grid), lengths_of(self._encoded))
        calls.EXPORTED['part_collect'](self._encoded, self._route, self._areas.memory, self._areas.progress, self._processor, grid)
