"""What a recipe says, whether the engine accepts it or not: from its bytes, and to them by the proved writer."""

from __future__ import annotations

import itertools
import struct
from typing import Iterator, List, NamedTuple, Sequence, Tuple

from .. import recipe as writer

RECORD = writer.RECORD
DIMENSION, DISTANCE, CLOSE, WIDE_DISTANCE, BOUND = 1, 2, 3, 4, 5
LOWER, UPPER = 0, 1

# of a recipe, as rolwyddac_library.h has them
LEAST_DIMENSIONS, MOST_DIMENSIONS, MOST_BOUNDS, MOST_DISTANCES = 2, 4, 4, 8
MOST_LENGTH = MOST_TILE = 1024
MOST_CELLS, MOST_TILES, MOST_PROCESSORS, MOST_SHIFT = 16384, 1024, 64, 31

# of a plan: a tile has at most 7 directions, and a cell stands once in each at most
MOST_MESSAGES, MOST_WORDS = 7 * MOST_TILES, 7 * MOST_CELLS


class Dimension(NamedTuple):
    """A dimension; no processors where it is not spread."""

    length: int
    tile: int
    processors: int


class Bound(NamedTuple):
    """A bound; dimensions are counted from 0, as in the bytes."""

    side: int
    dimension: int
    earlier: int
    slope: int
    offset: int

    def is_met(self, place: Sequence[int]) -> bool:
        """Does the cell meet it?"""
        limit = self.slope * place[self.earlier] + self.offset
        return place[self.dimension] >= limit if self.side == LOWER else place[self.dimension] <= limit

    def __str__(self) -> str:
        """As a reader sees it; dimensions are counted from 1."""
        times = {1: 'component %d', -1: '-component %d'}.get(self.slope)
        limit = '%d' % self.offset if times is None else times % (self.earlier + 1) + (' %+d' % self.offset if self.offset else '')
        return 'component %d %s %s' % (self.dimension + 1, 'at least' if self.side == LOWER else 'at most', limit)


class Distance(NamedTuple):
    """A distance with its four components."""

    step: Tuple[int, ...]
    weight: int
    wide: bool


class Parts(NamedTuple):
    """All records of a recipe."""

    dimensions: List[Dimension]
    bounds: List[Bound]
    distances: List[Distance]
    shift: int
    boundary: int

    @property
    def lengths(self) -> List[int]:
        """The lengths of the dimensions."""
        return [dimension.length for dimension in self.dimensions]

    def places(self) -> Iterator[Tuple[int, ...]]:
        """The places of the box's cells, in index order."""
        return itertools.product(*[range(length) for length in self.lengths])

    def is_inside(self, place: Sequence[int]) -> bool:
        """Is the cell in the shape?"""
        return all(bound.is_met(place) for bound in self.bounds)

    def tile_of(self, place: Sequence[int]) -> Tuple[int, ...]:
        """The place of a cell's tile."""
        return tuple(component // dimension.tile for component, dimension in zip(place, self.dimensions))

    def tiles(self) -> List[Tuple[int, ...]]:
        """The places of the tiles that hold a cell, in the order of their numbers."""
        return sorted({self.tile_of(place) for place in self.places() if self.is_inside(place)})

    def processor_of(self, tile: Sequence[int]) -> int:
        """The processor of a tile: each spread component modulo its count, the first counting most."""
        number = 0
        for component, dimension in zip(tile, self.dimensions):
            if dimension.processors:
                number = number * dimension.processors + component % dimension.processors
        return number

    def encoded(self) -> bytes:
        """Its bytes, by the proved writer, which refuses what the reader would refuse."""
        fields = writer.Fields()
        for dimension in self.dimensions:
            fields.dimension(*dimension)
        for bound in self.bounds:
            (fields.at_most if bound.side else fields.at_least)(*bound[1:])
        for distance in self.distances:
            fields.distance(distance.step, distance.weight)
        return fields.close(self.shift, self.boundary)


def records_of(encoded: bytes) -> List[bytes]:
    """The records, the last one shorter where the recipe is ragged."""
    return [encoded[at:at + RECORD] for at in range(0, len(encoded), RECORD)]


def _distance(record: bytes) -> Distance:
    if record[0] == DISTANCE:
        return Distance(tuple(record[2:6]), struct.unpack_from('<H', record, 6)[0], False)
    *step, weight = struct.unpack_from('<5H', record, 2)
    return Distance(tuple(step), weight, True)


def parts_of(encoded: bytes) -> Parts:
    """What the records say, in whatever order they stand; those of no kind are left out."""
    records = [record for record in records_of(encoded) if len(record) == RECORD]
    close = [record for record in records if record[0] == CLOSE]
    return Parts(
        [Dimension(*struct.unpack_from('<3H', record, 2)) for record in records if record[0] == DIMENSION],
        [Bound(*struct.unpack_from('<3Bbxh', record, 1)) for record in records if record[0] == BOUND],
        [_distance(record) for record in records if record[0] in (DISTANCE, WIDE_DISTANCE)],
        close[-1][1] if close else 0, struct.unpack_from('<I', close[-1], 4)[0] if close else 0)
