"""One route's plan: figures, rows, and the cells of each message as the engine's own sends write them."""

from __future__ import annotations

import array
from typing import List, Sequence

from .. import plan
from ..areas import IN_FLIGHT
from ..hints import Words
from ..kinds import DIRECT
from .differs import hold
from .nest import OUTSIDE, Nest, Place, Read
from .states import SEND, TURN, State

NAMES = ('direct', 'indirect')


class Route:
    """The plan of a recipe on a route."""

    def __init__(self, encoded: bytes, nest: Nest, route: int, source: Sequence[int]) -> None:
        self.route, self.name = route, NAMES[route]
        self.summary, self.rows = plan.summary(encoded, route), plan.messages(encoded, route)
        self.processors, tiles = self.summary.processors, len(nest.tiles)
        hold(self.summary.tiles == tiles, 'the number of tiles')
        self.tiles_on: List[List[int]] = [[] for _ in range(self.processors)]
        for t, p in enumerate(nest.processor_of):
            self.tiles_on[p].append(t)
        self.cells_of: List[List[int]] = [[] for _ in range(tiles)]
        for cell, t in enumerate(nest.tile_of):
            if t != OUTSIDE:
                self.cells_of[t].append(cell)
        self._name_messages(nest, tiles)
        self.hops = [plan.hops(encoded, m) for m in range(len(self.rows))] if route == DIRECT else []
        self.cells = self._sent(State(encoded, route, source))
        self.readers = self._readers(nest)

    def _name_messages(self, nest: Nest, tiles: int) -> None:
        """Which messages a tile sends and takes, and each message's direction."""
        self.sent_by: List[List[int]] = [[] for _ in range(tiles)]
        self.taken_by: List[List[int]] = [[] for _ in range(tiles)]
        self.directions: List[Place] = []
        for m, row in enumerate(self.rows):
            self.sent_by[row.sending_tile].append(m)
            self.taken_by[row.taking_tile].append(m)
            ends = row.sending_tile, row.taking_tile
            hold(tuple(nest.processor_of[t] for t in ends) == row[2:4], 'the processors of message %d' % m)
            here, there = (nest.tiles[t][:nest.spread] for t in ends)
            self.directions.append(tuple(b - a for a, b in zip(here, there)))

    def _sent(self, state: State) -> Words:
        """Memories are lent with cell numbers as words, and each tile is put to its sends: the buffer then has the numbers."""
        numbers = array.array('I', range(state.cells))
        for p in range(self.processors):
            state.areas.memories[p * state.cells:(p + 1) * state.cells] = numbers
        for p, tiles in enumerate(self.tiles_on):
            record = state.areas.progress[p]
            for finished, tile in enumerate(tiles):
                if self.sent_by[tile]:
                    record.finished, record.stage, record.sent = finished, SEND, 0
                for m in self.sent_by[tile]:
                    hold(state.take((TURN, p)) == 0 and state.areas.status[m] == IN_FLIGHT, 'the send of message %d' % m)
            record.finished, record.stage, record.sent = 0, 0, 0
        return state.areas.buffer

    def _readers(self, nest: Nest) -> List[Read]:
        """The readers of each word of the buffer; the engine's cells of each message are held to its definition."""
        wanted = nest.held(self.route != DIRECT)
        readers: List[Read] = []
        for m, row in enumerate(self.rows):
            cells = wanted.pop((row.sending_tile, self.directions[m]), {})
            hold(list(self.cells_of_message(m)) == list(cells), 'the cells of message %d' % m)
            readers += list(cells.values())
        # what is left goes nowhere, or to the same processor
        for t, direction in wanted:
            hold(all(one == 0 or nest.counts[e] == 1 for e, one in enumerate(direction)), 'a message of tile %d is missing' % t)
        return readers

    def cells_of_message(self, message: int) -> Words:
        """A message's cells, in the order of its words."""
        row = self.rows[message]
        return self.cells[row.offset:row.offset + row.words]

    def hold_rounds(self, nest: Nest, rounds: Sequence[int]) -> None:
        """A tile's round is one more than the latest among its processor's previous tile and the tiles that mail to it."""
        for tiles in self.tiles_on:
            for before, t in zip([None, *tiles], tiles):
                earlier = [self.rows[m].sending_tile for m in self.taken_by[t]] + ([] if before is None else [before])
                hold(rounds[t] == 1 + max((rounds[e] for e in earlier), default=0), 'the round of tile %d' % t)
