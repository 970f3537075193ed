"""A recipe as docs/RECIPE.md reads it: cells, tiles, processors, values, and which cells a message holds for which readers.

Everything here is this package's own reading, and is held to the engine by the modules beside it.
"""

from __future__ import annotations

import itertools
from typing import Dict, List, NamedTuple, Optional, Sequence, Tuple

from ..recipe import COMPONENTS, Fields

Place = Tuple[int, ...]

# the tile of a cell that is outside the shape
OUTSIDE = 0xFFFF

_LOWER = 0
_WORD_MOST = 2 ** 32 - 1


class Read(NamedTuple):
    """By which distances a cell of a message is read, one bit each: of all of them, and of those whose readers the taker passes it on to."""

    by: int
    further: int


# by sending tile and direction: the message's cells, each with its readers
Held = Dict[Tuple[int, Place], Dict[int, Read]]


class Nest:
    """Cells and tiles by their numbers."""

    def __init__(self, encoded: bytes) -> None:
        fields, self.shift, self.boundary = Fields.read(encoded)
        self.lengths, self.tiling, self.counts, self.bounds = fields.lengths, fields.tiling, fields.counts, fields.bounds
        n = len(self.lengths)
        self.distances = [(tuple(fields.components[COMPONENTS * k:COMPONENTS * k + n]), weight) for k, weight in enumerate(fields.weights)]
        self.spread = sum(count > 0 for count in self.counts)
        self.places: List[Place] = list(itertools.product(*map(range, self.lengths)))
        self.number = {place: cell for cell, place in enumerate(self.places)}
        self.inside = [self._is_inside(place) for place in self.places]
        above = [tuple(x // k for x, k in zip(place, self.tiling)) for place in self.places]
        self.tiles = sorted({tile for tile, inside in zip(above, self.inside) if inside})
        self.names = {tile: t for t, tile in enumerate(self.tiles)}
        self.tile_of = [self.names[tile] if inside else OUTSIDE for tile, inside in zip(above, self.inside)]
        self.processor_of = [self._processor(tile) for tile in self.tiles]

    def _is_inside(self, place: Place) -> bool:
        for side, dimension, earlier, slope, offset in self.bounds:
            limit = slope * place[earlier] + offset
            if place[dimension] < limit if side == _LOWER else place[dimension] > limit:
                return False
        return True

    def _processor(self, tile: Place) -> int:
        number = 0
        for component, count in zip(tile, self.counts[:self.spread]):
            number = number * count + component % count
        return number

    def moved(self, cell: int, distance: Sequence[int], sign: int) -> Optional[int]:
        """The cell that lies a distance further (1) or back (-1); None outside the box or the shape."""
        found = self.number.get(tuple(x + sign * d for x, d in zip(self.places[cell], distance)))
        return found if found is not None and self.inside[found] else None

    def swept(self, source: Sequence[int]) -> List[int]:
        """The value's formula, cell after cell."""
        grid = [self.boundary] * len(self.places)
        for cell, inside in enumerate(self.inside):
            if inside:
                reads = [(self.moved(cell, d, -1), weight) for d, weight in self.distances]
                total = source[cell] + sum(weight * (self.boundary if at is None else grid[at]) for at, weight in reads)
                grid[cell] = (total >> self.shift) & _WORD_MOST
        return grid

    def held(self, indirect: bool) -> Held:
        """The cells of each message by its definition, with their readers."""
        found: Held = {}
        for cell, t in enumerate(self.tile_of):
            if t == OUTSIDE:
                continue
            for k, (distance, _) in enumerate(self.distances):
                reader = self.moved(cell, distance, 1)
                if reader is None:
                    continue
                own = self.tiles[t]
                way = tuple(a - b for a, b in zip(self.tiles[self.tile_of[reader]][:self.spread], own))
                for sender, direction, further in self._hops(own, way) if indirect else [(t, way, False)]:
                    cells = found.setdefault((sender, direction), {})
                    by, passed = cells.get(cell, Read(0, 0))
                    cells[cell] = Read(by | 1 << k, passed | further << k)
        return {key: dict(sorted(cells.items())) for key, cells in found.items()}

    def _hops(self, own: Place, way: Place) -> List[Tuple[int, Place, bool]]:
        """The messages by which a cell goes a way, lowest dimension first: sending tile, direction, and whether the taker passes it on. A
        cell goes on in a dimension from where the dimensions below have brought it."""
        hops = []
        for q in range(self.spread):
            if way[q]:
                at = tuple(x + way[e] * (e < q) for e, x in enumerate(own[:self.spread])) + own[self.spread:]
                further = any(way[e] and self.counts[e] > 1 for e in range(q + 1, self.spread))
                hops.append((self.names[at], tuple(int(e == q) for e in range(self.spread)), further))
        return hops
