"""A recipe in words."""

from __future__ import annotations

from typing import List, Sequence

from .nest import Nest

ORDINALS = ('first', 'second', 'third', 'fourth')


def _by(numbers: Sequence[int]) -> str:
    return ' by '.join(map(str, numbers))


def _limit(earlier: int, slope: int, offset: int) -> str:
    """The right side of a bound."""
    if slope == 0:
        return str(offset)
    told = ('' if slope == 1 else 'minus ') + 'the %s component' % ORDINALS[earlier]
    if offset:
        told += ' %s %d' % ('plus' if offset > 0 else 'less', abs(offset))
    return told


def sentences_of(nest: Nest) -> List[str]:
    """The recipe's sentences, in the order of its records."""
    told = ['A grid of %s cells, cut into tiles of %s.' % (_by(nest.lengths), _by(nest.tiling))]
    spread = ['the %s dimension over %d processor%s' % (ORDINALS[e], c, 's' * (c != 1)) for e, c in enumerate(nest.counts) if c]
    told.append('Chains of tiles are dealt to processors that share no memory: %s.' % ', '.join(spread))
    for side, dimension, earlier, slope, offset in nest.bounds:
        told.append('A shape is cut out: the %s component is at %s %s.' % (
            ORDINALS[dimension], ('least', 'most')[side], _limit(earlier, slope, offset)))
    reads = []
    for step, weight in nest.distances:
        back = ['%d back in the %s' % (x, ORDINALS[e]) for e, x in enumerate(step) if x]
        reads.append('(%s), %s dimension, with weight %d' % (', '.join(map(str, step)), ' and '.join(back), weight))
    told.append('A cell reads %d earlier cell%s: %s.' % (len(reads), 's' * (len(reads) != 1), '; '.join(reads)))
    divided = '; the sum is divided by %d and rounded down' % 2 ** nest.shift if nest.shift else ''
    told.append('To its source it adds weight times value of each%s.' % divided)
    told.append('Outside the %s stands %d.' % ('shape' if nest.bounds else 'box', nest.boundary))
    return told
