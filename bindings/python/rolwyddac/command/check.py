"""`rolwyddac check`: runs in random orders, each held to the sweep of one processor."""

from __future__ import annotations

import argparse
import array
import random
from typing import Any, Callable, List, NamedTuple, Optional, Sequence

from .. import grids, plan
from ..areas import IN_FLIGHT
from ..boards import PartBoard
from ..kinds import DIRECT
from ..refusals import Finished, NoMail, Waiting
from ..run import Run
from . import files
from .depths import flat
from .faults import DONE, REFUSED
from .fields import parts_of
from .options import ROUTES, add_recipe, whole, word
from .texts import Bar, many, tell
from .toml import Recipe, recipe_of

HELP = 'run a recipe in random orders and compare each grid with the sweep'
MORE = '''Each order has a random source. It is run on both routes, or on the direct one alone where the recipe has bounds: on shared areas,
which are kept and taken up again on the way; and on boards that share nothing, each restarted on the way from its areas, with mail late and
repeated. It is run by rounds too. Every grid is held to the sweep of one processor. Status 1 at a difference.'''
EXAMPLE = 'rolwyddac check data/harbour/basin.toml --orders 3 --seed 1'

_ORDERS = 10

# so many times in a run, more or less, it stops, and goes on from its areas by another object
_STOPS = 8

# of what arrives at boards that share nothing, one in so many arrives again
_REPEATS = 4


class Order(NamedTuple):
    """One order: its number, its source, and the dice for its events."""

    number: int
    source: List[int]
    dice: random.Random


class Kind(NamedTuple):
    """A way to run, and its name."""

    name: str
    made: Callable[[bytes, Order], Sequence[int]]


def declare(parser: argparse.ArgumentParser) -> None:
    """Its options."""
    add_recipe(parser)
    parser.add_argument('--orders', metavar='N', type=whole(1, 10 ** 6), default=_ORDERS, help='how many orders; %d where not given' % _ORDERS)
    parser.add_argument('--seed', metavar='NUMBER', type=word, help='what the orders are made from; a new number where not given')


class _Shared:
    """A run on shared areas, and what can be done next: who may have a turn, which messages are in flight."""

    def __init__(self, encoded: bytes, route: int, order: Order) -> None:
        self.run = Run(encoded, route, order.source)
        self.rows = plan.messages(encoded, route)
        processors = range(self.run.plan.processors)
        # each processor's messages, the next to be sent at the end: they are sent in the order of their numbers
        self.unsent = [[m for m, row in enumerate(self.rows) if row.sending_processor == processor][::-1] for processor in processors]
        self.able: List[int] = list(processors)
        self.flying: List[int] = []

    def turn(self, at: int) -> None:
        """A turn of one that may be able to; who is not waits for a delivery."""
        processor = self.able[at]
        try:
            self.run.turn(processor)
        except (Waiting, Finished):
            _drop(self.able, at)
            return
        unsent = self.unsent[processor]
        if unsent and self.run._areas.status[unsent[-1]] == IN_FLIGHT:
            self.flying.append(unsent.pop())

    def deliver(self, at: int) -> None:
        """A delivery, after which the taker may be able to go on."""
        message = self.flying[at]
        self.run.deliver(message)
        _drop(self.flying, at)
        if self.rows[message].taking_processor not in self.able:
            self.able.append(self.rows[message].taking_processor)


def _drop(found: List[Any], at: int) -> None:
    """Takes one out, whose place the last one gets."""
    found[at] = found[-1]
    found.pop()


def _shared(route: int, encoded: bytes, order: Order) -> Sequence[int]:
    """Turns and deliveries on shared areas, in a random order."""
    rig = _Shared(encoded, route, order)
    while rig.able or rig.flying:
        if order.dice.randrange(rig.run.plan.steps) < _STOPS:
            rig.run = Run.resume(encoded, route, order.source, rig.run.areas)
        at = order.dice.randrange(len(rig.able) + len(rig.flying))
        if at < len(rig.able):
            rig.turn(at)
        else:
            rig.deliver(at - len(rig.able))
    return flat(rig.run.collect())


class _Apart:
    """Boards that share nothing, and the mail between them."""

    def __init__(self, encoded: bytes, route: int, order: Order) -> None:
        self.dice = order.dice
        self.boards = [PartBoard(encoded, route, plan.part_source(encoded, order.source, processor), processor)
                       for processor in range(plan.summary(encoded, route).processors)]
        self.able = set(range(len(self.boards)))
        self.post: List[Any] = []

    def restart(self) -> None:
        """A board ends, and another goes on from its areas."""
        at = self.dice.randrange(len(self.boards))
        board = self.boards[at]
        kept = board.__getstate__()
        self.boards[at] = PartBoard.__new__(PartBoard)
        self.boards[at].__setstate__(kept)

    def arrive(self, at: int) -> None:
        """A letter arrives; some arrive again later, and are turned away."""
        taker, message, words, again = self.post[at]
        if again or self.dice.randrange(_REPEATS):
            _drop(self.post, at)
        else:
            self.post[at] = taker, message, words, True
        try:
            self.boards[taker].arrive(message, words)
        except NoMail:
            # it was there before
            return
        self.able.add(taker)

    def turn(self, processor: int) -> None:
        """A board's turn, and what it sends is posted."""
        board = self.boards[processor]
        try:
            board.turn()
        except (Waiting, Finished):
            self.able.remove(processor)
        for message in board.in_flight():
            taker, words = board.post(message)
            self.post.append((taker, message, words, False))


def _apart(route: int, encoded: bytes, order: Order) -> Sequence[int]:
    """Boards that share nothing, in a random order of turns and arrivals."""
    rig = _Apart(encoded, route, order)
    # outside the shape no board writes, and every grid has the boundary value there
    grid = array.array('I', [parts_of(encoded).boundary] * len(order.source))
    steps = plan.summary(encoded, route).steps
    while rig.able or rig.post:
        if order.dice.randrange(steps) < _STOPS:
            rig.restart()
        at = order.dice.randrange(len(rig.able) + len(rig.post))
        if at < len(rig.able):
            rig.turn(sorted(rig.able)[at])
        else:
            rig.arrive(at - len(rig.able))
    for board in rig.boards:
        board.collect(grid)
    return grid


def _by_rounds(encoded: bytes, order: Order) -> Sequence[int]:
    return flat(Run.by_rounds(encoded, order.source)[0].collect())


def _kind(name: str, made: Callable[[int, bytes, Order], Sequence[int]], route: int) -> Kind:
    return Kind(name, lambda encoded, order: made(route, encoded, order))


def kinds_of(recipe: Recipe) -> List[Kind]:
    """The ways in which a recipe can be run."""
    routes = {name: route for name, route in ROUTES.items() if route == DIRECT or not recipe.parts.bounds}
    shared = [_kind('%s route' % name, _shared, route) for name, route in routes.items()]
    return [*shared, Kind('by rounds', _by_rounds), *(_kind('boards, %s route' % name, _apart, route) for name, route in routes.items())]


def _difference(got: Sequence[int], wanted: Sequence[int]) -> Optional[str]:
    """The first cell that differs, and how many do."""
    cells = [c for c, (one, other) in enumerate(zip(got, wanted)) if one != other]
    if not cells:
        return None
    return 'cell %d has %d, the sweep has %d; %s' % (cells[0], got[cells[0]], wanted[cells[0]], many(len(cells), 'cell differs', 'cells differ'))


def run(words: argparse.Namespace) -> int:
    """Does what the words say."""
    recipe = recipe_of(words.recipe)
    seed = random.SystemRandom().randrange(2 ** 32) if words.seed is None else words.seed
    kinds, cells, different = kinds_of(recipe), plan.summary(recipe.encoded).cells, 0
    with Bar('checking', words.orders * len(kinds)) as bar:
        for number in range(words.orders):
            dice = random.Random('%d %d' % (seed, number))
            source = [dice.getrandbits(32) for _ in range(cells)]
            swept = flat(grids.sweep(recipe.encoded, source))
            for at, kind in enumerate(kinds):
                wrong = _difference(kind.made(recipe.encoded, Order(number, source, dice)), swept)
                if wrong:
                    different += 1
                    tell('order %d of seed %d, %s: %s' % (number, seed, kind.name, wrong))
                bar.at(number * len(kinds) + at + 1)
    files.say('%s by %s (%s), seed %d: %s\n' % (
        many(words.orders, 'order'), many(len(kinds), 'way'), '; '.join(kind.name for kind in kinds), seed,
        '%s from the sweep' % many(different, 'differs', 'differ') if different else 'all equal to the sweep'))
    return REFUSED if different else DONE
