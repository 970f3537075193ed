"""Refusals in the recipe's own numbers. The number comes from the engine; here is found which record led to it.

Dimensions, bounds and distances are counted from 1, as their tables stand in a file; bytes and components from 0.
"""

from __future__ import annotations

import math
from typing import Callable, Dict, List, Optional

from ..refusals import Refused
from .faults import Refusal
from .fields import (BOUND, CLOSE, DIMENSION, DISTANCE, LEAST_DIMENSIONS, MOST_BOUNDS, MOST_CELLS, MOST_DIMENSIONS, MOST_DISTANCES,
                     MOST_LENGTH, MOST_PROCESSORS, MOST_SHIFT, MOST_TILE, MOST_TILES, RECORD, UPPER, WIDE_DISTANCE, Bound, Parts, records_of)
from .texts import listed, many, of

_NAMES = {DIMENSION: 'dimension', BOUND: 'bound', DISTANCE: 'distance', WIDE_DISTANCE: 'distance', CLOSE: 'close'}

# the bytes of a record that say something
_NAMED_BYTES = {DIMENSION: {0, 2, 3, 4, 5, 6, 7}, DISTANCE: {0, 2, 3, 4, 5, 6, 7}, CLOSE: {0, 1, 4, 5, 6, 7},
                WIDE_DISTANCE: {0, *range(2, 12)}, BOUND: {0, 1, 2, 3, 4, 6, 7}}

# the order in which kinds stand
_ORDER = {DIMENSION: 0, BOUND: 1, DISTANCE: 2, WIDE_DISTANCE: 2, CLOSE: 3}

Found = Optional[str]


def _ragged(parts: Parts, encoded: bytes) -> Found:
    if not encoded:
        return 'the recipe is empty'
    return '%s are no multiple of %d' % (many(len(encoded), 'byte'), RECORD)


def _out_of_order(encoded: bytes) -> Found:
    before = DIMENSION
    for at, record in enumerate(records_of(encoded)):
        kind = record[0]
        if kind not in _NAMES:
            return 'the record at byte %d has kind %d, and kinds are 1 to 5' % (RECORD * at, kind)
        if before == CLOSE:
            return 'the record at byte %d stands behind the close' % (RECORD * at)
        if _ORDER[kind] < _ORDER[before]:
            return 'the record at byte %d is a %s, and stands behind a %s' % (RECORD * at, _NAMES[kind], _NAMES[before])
        before = kind
    return None if before == CLOSE else 'the recipe has no close'


def _wrong_count(parts: Parts) -> Found:
    for name, number, least, most in (('dimension', len(parts.dimensions), LEAST_DIMENSIONS, MOST_DIMENSIONS),
                                      ('bound', len(parts.bounds), 0, MOST_BOUNDS),
                                      ('distance', len(parts.distances), 1, MOST_DISTANCES)):
        if not least <= number <= most:
            return 'the recipe has %s, and may have %d to %d' % (many(number, name), least, most)
    return None


def _unnamed_byte(encoded: bytes) -> Found:
    met: Dict[str, int] = {}
    for start, record in enumerate(records_of(encoded)):
        name = _NAMES[record[0]]
        met[name] = met.get(name, 0) + 1
        which = 'the close' if record[0] == CLOSE else '%s %d' % (name, met[name])
        for at, byte in enumerate(record):
            if byte and at not in _NAMED_BYTES[record[0]]:
                return '%s has %d in byte %d, which must be 0 (byte %d of the recipe)' % (which, byte, at, RECORD * start + at)
    return None


def _faulty_bound(which: int, bound: Bound, dimensions: int) -> Found:
    name = 'bound %d' % (which + 1)
    if bound.side > UPPER:
        return '%s has side %d, and sides are 0, lower, and 1, upper' % (name, bound.side)
    if bound.dimension >= dimensions:
        return '%s is for dimension %d, and the recipe has %d' % (name, bound.dimension + 1, dimensions)
    if bound.dimension == 0:
        return '%s is for dimension 1, which has no earlier one' % name
    if bound.earlier >= bound.dimension:
        return '%s is for dimension %d, and dimension %d is no earlier one' % (name, bound.dimension + 1, bound.earlier + 1)
    if bound.slope not in (-1, 0, 1):
        return '%s has slope %d, and slopes are -1, 0 and 1' % (name, bound.slope)
    return None


def _stray(parts: Parts, encoded: bytes) -> Found:
    found = (_out_of_order(encoded) if encoded else None) or _wrong_count(parts) or (_unnamed_byte(encoded) if encoded else None)
    for which, bound in enumerate(parts.bounds):
        found = found or _faulty_bound(which, bound, len(parts.dimensions))
    if not found and parts.shift > MOST_SHIFT:
        found = 'the shift is %d, above %d' % (parts.shift, MOST_SHIFT)
    return found


def _size(what: str, number: int, most: int) -> Found:
    """What is wrong with a length, if it is wrong."""
    if number == 0:
        return '%s 0' % what
    return '%s %d, above %d' % (what, number, most) if number > most else None


def _length(parts: Parts, encoded: bytes) -> Found:
    for j, dimension in enumerate(parts.dimensions):
        wrong = _size('length', dimension.length, MOST_LENGTH)
        if wrong:
            return 'dimension %d has %s' % (j + 1, wrong)
    return None


def _product(numbers: List[int], what: str, most: int) -> str:
    factors = ' × '.join(map(str, numbers)) + ' = ' if len(numbers) > 1 else ''
    return '%s%d %s, above %d' % (factors, math.prod(numbers), what, most)


def _too_large(parts: Parts, encoded: bytes) -> Found:
    return _product(parts.lengths, 'cells', MOST_CELLS)


def _too_wide(parts: Parts, encoded: bytes) -> Found:
    for e, distance in enumerate(parts.distances):
        if distance.wide and max(distance.step) < 256:
            return 'distance %d is of kind 4, and its components %s all fit a byte' % (e + 1, listed(distance.step))
    return None


def _empty(parts: Parts, encoded: bytes) -> Found:
    for e, bound in enumerate(parts.bounds):
        if not any(bound.is_met(place) for place in parts.places()):
            return 'bound %d, %s, leaves no cell of %s' % (e + 1, bound, ' × '.join(map(str, parts.lengths)))
    return 'no cell of %s meets all bounds: %s' % (' × '.join(map(str, parts.lengths)), listed(parts.bounds))


def _distance(parts: Parts, encoded: bytes) -> Found:
    dimensions, steps = len(parts.dimensions), [distance.step for distance in parts.distances]
    for e, step in enumerate(steps):
        if not any(step):
            return 'distance %d has components that are all 0' % (e + 1)
        if step in steps[:e]:
            return 'distance %d has the components %s, which distance %d has too' % (e + 1, listed(step[:dimensions]), steps.index(step) + 1)
        for j in range(dimensions, len(step)):
            if step[j]:
                return 'distance %d steps %d in dimension %d, and the recipe has %d' % (e + 1, step[j], j + 1, dimensions)
    return None


def _tile(parts: Parts, encoded: bytes) -> Found:
    for j, dimension in enumerate(parts.dimensions):
        wrong = _size('tile', dimension.tile, MOST_TILE)
        if wrong:
            return 'dimension %d has %s' % (j + 1, wrong)
        for e, distance in enumerate(parts.distances):
            if distance.step[j] > dimension.tile:
                return 'dimension %d has tile %d, distance %d steps %d there' % (j + 1, dimension.tile, e + 1, distance.step[j])
    return None


def _spread_order(parts: Parts, encoded: bytes) -> Found:
    if not parts.dimensions[0].processors:
        return 'dimension 1 has 0 processors, and must be spread'
    for j in range(1, len(parts.dimensions)):
        if parts.dimensions[j].processors and not parts.dimensions[j - 1].processors:
            return 'dimension %d has %s, and dimension %d before it has 0' % (
                j + 1, many(parts.dimensions[j].processors, 'processor'), j)
    return None


def _last_spread(parts: Parts, encoded: bytes) -> Found:
    return 'dimension %d, the last, has %s, and must have 0' % (
        len(parts.dimensions), many(parts.dimensions[-1].processors, 'processor'))


def _boards(parts: Parts, encoded: bytes) -> Found:
    return _product([d.processors for d in parts.dimensions if d.processors], 'processors', MOST_PROCESSORS)


def _tiles(parts: Parts, encoded: bytes) -> Found:
    if parts.bounds:
        return '%d tiles hold a cell, above %d' % (len(parts.tiles()), MOST_TILES)
    return _product([-(-d.length // d.tile) for d in parts.dimensions], 'tiles', MOST_TILES)


def _direct_only(parts: Parts, encoded: bytes) -> Found:
    return 'the recipe has %s, and indirect passing is for recipes without' % many(len(parts.bounds), 'bound')


def _no_chart(parts: Parts, encoded: bytes) -> Found:
    return 'the recipe has %d dimensions, and a chart has 2' % len(parts.dimensions) if len(parts.dimensions) != 2 else None


_BY_NUMBER: Dict[int, Callable[[Parts, bytes], Found]] = {
    1: _ragged, 2: _stray, 3: _length, 4: _too_large, 18: _too_wide, 20: _empty, 5: _distance, 6: _tile, 16: _spread_order,
    17: _last_spread, 7: _boards, 8: _tiles, 21: _direct_only, 23: _no_chart}


def explained(number: int, parts: Parts, encoded: bytes = b'') -> Found:
    """Which record led to the number, and by which numbers; without bytes the parts are those of a text."""
    explain = _BY_NUMBER.get(number)
    return explain(parts, encoded) if explain else None


def refusal(name: str, refused: Refused, parts: Parts, encoded: bytes = b'') -> Refusal:
    """A refused recipe as it is told."""
    why = explained(refused.number, parts, encoded) or refused.reason
    return Refusal(of(name, 'refused %d, %s: %s' % (refused.number, refused.term, why)))
