"""What the tests share: the package and the model on their paths, drawn recipes, and how answers are compared."""

import os
import sys
import unittest

HERE = os.path.dirname(os.path.abspath(__file__))
sys.path.insert(0, os.path.join(HERE, '..', '..', '..', 'tools'))
if not os.environ.get('ROLWYDDAC_INSTALLED'):
    sys.path.insert(0, os.path.join(HERE, '..'))

import model  # noqa: E402
import rolwyddac  # noqa: E402
from rolwyddac import calls  # noqa: E402

RECIPES = 150
RUNS = 40

ROW_D = model.encode([4, 1], [2, 1], [2, 0], [[1, 0, 0, 0]])


class Draw:
    """Numbers that look random and are the same at every run and in every version of Python."""

    def __init__(self, seed):
        self.x = seed

    def below(self, bound):
        self.x = (self.x * 6364136223846793005 + 1442695040888963407) % 2 ** 64
        return (self.x >> 33) % bound

    def word(self):
        return self.below(2 ** 16) * 2 ** 16 + self.below(2 ** 16)


def recipe_of(draw):
    """The values of a small recipe, mostly one that is accepted."""
    n = 2 + draw.below(3)
    spread = 1 + draw.below(n - 1)
    most = {2: 9, 3: 5, 4: 3}[n]
    distances = []
    for _ in range(1 + draw.below(3)):
        d = [draw.below(3) if j < n else 0 for j in range(4)]
        if any(d) and d not in distances:
            distances.append(d)
    distances = distances or [[1, 0, 0, 0]]
    return dict(lengths=[1 + draw.below(most) for _ in range(n)],
                tiling=[max(1 + draw.below(3), max(d[j] for d in distances)) for j in range(n)],
                counts=[1 + draw.below(3) if j < spread else 0 for j in range(n)],
                distances=distances, weights=[draw.below(5) for _ in distances], shift=draw.below(3), boundary=draw.below(9))


def fields_of(values):
    fields = rolwyddac.Fields()
    for dimension in zip(values['lengths'], values['tiling'], values['counts']):
        fields.dimension(*dimension)
    for d, weight in zip(values['distances'], values['weights']):
        fields.distance(d, weight)
    return fields


def number_of(call, *words):
    """The number that a call of the package gives."""
    try:
        call(*words)
    except rolwyddac.Refused as refusal:
        return refusal.number
    return 0


def flat(grid):
    """The words of a grid, whether it is an array or lists."""
    return list(calls.flattened(grid.tolist() if hasattr(grid, 'tolist') else grid))


def records(progress):
    return [word for record in progress for word in (record.finished, record.stage, record.sent)]


class Case(unittest.TestCase):

    def same(self, areas, wanted, *more):
        self.assertEqual(list(areas.memories), wanted.memories, more)
        self.assertEqual(list(areas.buffer), wanted.buffer, more)
        self.assertEqual(records(areas.progress), wanted.progress, more)
        self.assertEqual(list(areas.status), wanted.status, more)
