"""Recipes, made by the proved writer."""

from __future__ import annotations

import copy
import struct
from typing import Iterable, List, SupportsIndex, Tuple

from . import calls
from .hints import BytesLike
from .kinds import whole
from .words import octets

RECORD = 16
COMPONENTS = 4

# where a dimension's record has its length, and its kind
_LENGTH_AT, _DIMENSION = 2, 1

_LOWER, _UPPER = 0, 1


class Fields:
    """The fields of a recipe, put together one by one: the dimensions, the bounds, the distances, then `close`."""

    def __init__(self) -> None:
        self.lengths: List[int] = []
        self.tiling: List[int] = []
        self.counts: List[int] = []
        self.components: List[int] = []
        self.weights: List[int] = []
        self.bounds: List[Tuple[int, int, int, int, int]] = []

    def __copy__(self) -> Fields:
        # the lists are the copy's own
        return copy.deepcopy(self)

    def dimension(self, length: SupportsIndex, tile: SupportsIndex, processors: SupportsIndex = 0) -> Fields:
        """Adds a dimension: its length, its tile length, and its processor count, 0 where it is not spread."""
        numbers = whole('length', 'u16', length), whole('tile', 'u16', tile), whole('processors', 'u16', processors)
        for field, number in zip((self.lengths, self.tiling, self.counts), numbers):
            field.append(number)
        return self

    def distance(self, components: Iterable[SupportsIndex], weight: SupportsIndex = 1) -> Fields:
        """Adds a distance; components that are not given are 0."""
        numbers, weighed = [whole('components', 'u16', component) for component in components], whole('weight', 'u16', weight)
        self.components += numbers + [0] * (COMPONENTS - len(numbers))
        self.weights.append(weighed)
        return self

    def _bound(self, side: int, dimension: SupportsIndex, earlier: SupportsIndex, slope: SupportsIndex, offset: SupportsIndex) -> Fields:
        self.bounds.append((side, whole('dimension', 'u8', dimension), whole('earlier', 'u8', earlier), whole('slope', 'i8', slope),
                            whole('offset', 'i16', offset)))
        return self

    def at_least(self, dimension: SupportsIndex, earlier: SupportsIndex, slope: SupportsIndex, offset: SupportsIndex) -> Fields:
        """Adds a bound: the component of the dimension is at least slope times that of an earlier one, plus offset. Dimensions are
        counted from 0; a slope is -1, 0 or 1."""
        return self._bound(_LOWER, dimension, earlier, slope, offset)

    def at_most(self, dimension: SupportsIndex, earlier: SupportsIndex, slope: SupportsIndex, offset: SupportsIndex) -> Fields:
        """Adds a bound: the component is at most that."""
        return self._bound(_UPPER, dimension, earlier, slope, offset)

    @classmethod
    def read(cls, encoded: BytesLike) -> Tuple[Fields, int, int]:
        """The fields of a recipe, its shift and its boundary value, of which `close` makes the same bytes."""
        told, made = calls.EXPORTED['read'](encoded), cls()
        made.lengths, made.tiling, made.counts = (list(table[:told.dimensions]) for table in (told.lengths, told.tiling, told.counts))
        made.components, made.weights = list(told.components[:COMPONENTS * told.distances]), list(told.weights[:told.distances])
        made.bounds = list(zip(told.sides, told.bounded, told.earlier, told.slopes, told.offsets))[:told.bounds]
        return made, told.shift, told.boundary

    def close(self, shift: SupportsIndex = 0, boundary: SupportsIndex = 0) -> bytes:
        """Has the proved writer make the recipe's bytes; refused as reading it would be."""
        space = bytearray(RECORD * (len(self.lengths) + len(self.bounds) + len(self.weights) + 1))
        bounds = [[bound[field] for bound in self.bounds] for field in range(5)]
        calls.EXPORTED['write'](self.lengths, self.tiling, self.counts, self.components, self.weights, *bounds, shift, boundary, space)
        return bytes(space)


def lengths_of(encoded: bytes) -> Tuple[int, ...]:
    """The lengths of the dimensions of a recipe that the engine has accepted."""
    starts = [at for at in range(0, len(encoded), RECORD) if encoded[at] == _DIMENSION]
    return tuple(struct.unpack_from('<H', encoded, at + _LENGTH_AT)[0] for at in starts)


def dimensions(encoded: BytesLike) -> Tuple[int, ...]:
    """The lengths of a recipe's dimensions."""
    recipe = octets('encoded', encoded)
    calls.sizes(recipe)
    return lengths_of(recipe)
