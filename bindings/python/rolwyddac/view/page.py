"""The page: what the script shows, as JSON, and the parts that make it one file."""

from __future__ import annotations

import array
import base64
import hashlib
import html
import itertools
import json
import os
import re
import struct
from typing import Any, Dict, Iterable, List, NamedTuple, Optional, Sequence, Tuple

from .. import plan
from ..calls import EXPORTED
from ..hints import Words
from ..kinds import DIRECT, INDIRECT
from ..library import term, text, version
from . import apart, offices
from .differs import hold
from .live import Session
from .nest import OUTSIDE, Nest
from .recording import REACH, Recording, record
from .routes import Route
from .sentences import sentences_of
from .states import EARLY, FINISHED, NO_MAIL, WAITING

ENGAGED, CLOSED = 19, 24

PARTS = os.path.join(os.path.dirname(os.path.abspath(__file__)), 'parts')

# in the order in which they stand in the page: each uses what those before it define
SCRIPTS = ('words', 'recipe', 'replay', 'sheet', 'grids', 'cell', 'map', 'tile', 'rounds', 'strip', 'event', 'memories', 'swaps', 'header', 'choices',
           'checks', 'scene', 'offices', 'apart', 'input', 'start')

# what only a page that is served has
LIVE = 'live'

# an event's kind stands above its processor or message
_KIND_AT = 14


class Check(NamedTuple):
    """What was held to the engine: how many things of what."""

    what: str
    number: int
    things: str


def _packed(kind: str, numbers: Iterable[int]) -> str:
    return base64.b64encode(array.array(kind, numbers).tobytes()).decode()


def _many(count: int, thing: str) -> str:
    return '{:,} {}{}'.format(count, thing, '' if count == 1 else 's')


def _route_checks(route: Route, run: Recording, cells: int) -> List[Check]:
    about = 'On the %s route ' % route.name
    elements = cells * route.processors + len(route.cells) + 3 * route.processors + len(route.rows)
    return [
        Check(about + 'the cells that the engine puts into a message are those that its definition names', len(route.rows), 'messages'),
        Check(about + "the state that this page shows behind a call of the recorded run has the engine's %s in memories, buffer, progress and "
              'status' % _many(elements, 'element'), len(run.events), 'calls'),
        Check(about + 'neighbouring calls that may be swapped leave the same elements in both orders', run.pairs(), 'pairs'),
        Check(about + 'so do up to %d neighbouring calls, in every other order in which they can be taken' % (REACH + 1), len(run.others) - run.pairs(),
              'more states'),
        Check(about + "the grid collected at the end of the recorded run is the sequential sweep's", cells, 'words')]


def _route_data(route: Route, run: Recording, cells: int) -> Dict[str, Any]:
    rows = route.rows
    return {
        'route': route.name, 'summary': list(route.summary), 'rows': _packed('H', itertools.chain(*(row[:4] for row in rows))),
        'words': _packed('I', (row.words for row in rows)), 'cells': _packed('H', route.cells), 'hops': route.hops,
        'readers': _packed('B', itertools.chain(*route.readers)), 'directions': [''.join(map(str, v)) for v in route.directions],
        'events': _packed('H', (kind << _KIND_AT | which for kind, which in run.events)), 'numbers': _packed('B', run.numbers),
        'sums': _packed('I', run.sums), 'others': _packed('I', itertools.chain(*run.others)),
        'areas': [cells * route.processors, len(route.cells), 3 * route.processors, len(rows)]}


def _swept(encoded: bytes, source: Sequence[int]) -> Words:
    grid = array.array('I', bytes(4 * len(source)))
    EXPORTED['sweep'](encoded, source, grid)
    return grid


def _hold_cells(encoded: bytes, nest: Nest, source: Sequence[int], grid: Words) -> List[Check]:
    """Values and owners."""
    cells, processors = len(nest.places), plan.summary(encoded).processors
    hold(nest.swept(source) == list(grid), 'the value of a cell')
    owners = [processors if t == OUTSIDE else nest.processor_of[t] for t in nest.tile_of]
    hold(list(plan._owners(encoded)) == owners, 'the processor of a cell')
    return [Check('The sum written out at a cell, worked out here, is the value in the sequential sweep', cells, 'cells'),
            Check('The processor shown for a cell is the one that the engine tells', cells, 'cells')]


def _sum_of(words: Sequence[int]) -> str:
    return hashlib.sha256(struct.pack('<%dI' % len(words), *words)).hexdigest()


class Shown(NamedTuple):
    """What the page tells besides: its title, where the source is from, and of each limit its name, what the recipe has and what it may have."""

    name: str
    told: str
    limits: Sequence[Tuple[str, int, int]]
    # a second office's source, a table of hours, boards apart: what is shown where it is given
    second: Optional[Sequence[int]] = None
    hours: Optional[Words] = None
    boards: bool = False


def _scenes(encoded: bytes, source: Sequence[int], grid: Words, seed: int, shown: Shown, tiles_on: Sequence[Sequence[int]]) -> Dict[str, Any]:
    """Runs beside the recorded one: of offices, by hours, on boards apart."""
    found: Dict[str, Any] = {}
    if shown.second is not None or shown.hours is not None:
        sources = [source] if shown.second is None else [source, shown.second]
        found['offices'] = offices.scene_of(encoded, sources, shown.hours, tiles_on, seed)
    if shown.boards:
        found['apart'] = apart.scene_of(encoded, source, grid, tiles_on, seed)
    return found


def _scene_checks(found: Dict[str, Any], cells: int) -> List[Check]:
    checks = []
    if 'offices' in found:
        count = found['offices']['offices']
        checks.append(Check("The grid that %s at the end is the sequential sweep of its own source" % (
            'each of two offices collects' if count == 2 else 'the run by hours collects'), count * cells, 'words'))
    if 'apart' in found:
        checks.append(Check('The grid that boards apart collect, with packets lost and repeated and boards that crash, is the sequential sweep\'s',
                            cells, 'words'))
    return checks


def data_of(encoded: bytes, source: Sequence[int], seed: int, shown: Shown) -> Dict[str, Any]:
    """All that the page shows."""
    nest, rounds, grid = Nest(encoded), plan.rounds_of(encoded), _swept(encoded, array.array('I', source))
    checks = _hold_cells(encoded, nest, source, grid)
    routes: List[Dict[str, Any]] = []
    for word in (DIRECT,) if nest.bounds else (DIRECT, INDIRECT):
        route = Route(encoded, nest, word, source)
        if word == DIRECT:
            route.hold_rounds(nest, rounds)
            checks.append(Check("A tile's round is one more than the latest among its processor's previous tile and the tiles that mail to it",
                                len(rounds), 'tiles'))
            scenes = _scenes(encoded, source, grid, seed, shown, route.tiles_on)
        run = record(encoded, route, source, grid, seed)
        checks += _route_checks(route, run, len(grid))
        routes.append(_route_data(route, run, len(grid)))
    checks += _scene_checks(scenes, len(grid))
    return {
        **scenes,
        'name': shown.name, 'reach': REACH, 'version': version(), 'seed': seed, 'told': shown.told,
        'sha': [hashlib.sha256(encoded).hexdigest(), _sum_of(source), _sum_of(grid)],
        'recipe': encoded.hex(), 'sentences': sentences_of(nest), 'lengths': nest.lengths, 'tiling': nest.tiling, 'counts': nest.counts,
        'spread': nest.spread, 'distances': nest.distances, 'shift': nest.shift, 'boundary': nest.boundary, 'bounds': nest.bounds,
        'limits': shown.limits,
        'source': _packed('I', source), 'grid': _packed('I', grid), 'tile': _packed('H', nest.tile_of), 'places': nest.tiles,
        'on': nest.processor_of, 'rounds': rounds, 'plans': routes, 'checks': checks,
        'numbers': {number: [term(number), text(number)] for number in (WAITING, FINISHED, NO_MAIL, EARLY, ENGAGED, CLOSED)}}


def _part(name: str) -> str:
    with open(os.path.join(PARTS, name), encoding='utf-8') as part:
        return part.read()


def joined(data: Dict[str, Any], scripts: Sequence[str] = SCRIPTS) -> str:
    """The page with its data: one file, which fetches nothing."""
    # in a script's text no tag may begin
    shown = json.dumps(data, separators=(',', ':')).replace('<', '\\u003c')
    parts = {'NAME': html.escape(data['name']), 'STYLE': _part('style.css'), 'DATA': shown, 'SCRIPT': '\n'.join(_part(name + '.js') for name in scripts)}
    # in one pass: what is put in is not searched again
    return re.sub(r'\{\{(\w+)\}\}', lambda found: str(parts[found[1]]), _part('page.html'))


def page_of(encoded: bytes, source: Sequence[int], seed: int, shown: Shown) -> bytes:
    """The page of a recipe, its source, and a run in an order drawn with the seed."""
    return joined(data_of(encoded, source, seed, shown)).encode('utf-8', 'backslashreplace')


def served(encoded: bytes, source: Sequence[int], seed: int, shown: Shown) -> Tuple[bytes, Session]:
    """The same page to be served, with boards apart that are driven by hand, and what answers it."""
    data = data_of(encoded, source, seed, shown)
    session = Session(encoded, source, array.array('I', base64.b64decode(data['grid'])))
    data['apart'] = {**session.data(), 'live': True}
    return joined(data, (*SCRIPTS, LIVE)).encode('utf-8', 'backslashreplace'), session
