"""`rolwyddac plan`: what a recipe's run takes."""

from __future__ import annotations

import argparse
import json
from typing import Any, Dict, List

from .. import plan
from ..calls import sizes
from ..lending import Sizes
from ..refusals import Refused
from . import files
from .faults import DONE
from .fields import (MOST_BOUNDS, MOST_CELLS, MOST_DIMENSIONS, MOST_DISTANCES, MOST_LENGTH, MOST_MESSAGES, MOST_PROCESSORS, MOST_SHIFT, MOST_TILE,
                     MOST_TILES, MOST_WORDS, Parts)
from .options import ROUTES, add_recipe, add_route
from .texts import table
from .toml import Recipe, recipe_of

HELP = "a recipe's figures, areas, messages and limits"
MORE = '''A message's line has its number, the sending and the taking tile, the sending and the taking processor, and its words. A processor's
own part is what it needs that shares no memory with the others.'''
EXAMPLE = 'rolwyddac plan data/harbour/basin.toml'

# bytes of an area's element
_BYTES = {'source': 4, 'memories': 4, 'buffer': 4, 'progress': 12, 'status': 1, 'grid': 4, 'engaged': 4}
_WORD, _RECORD, _MARK = 4, 12, 1


def declare(parser: argparse.ArgumentParser) -> None:
    """Its options."""
    add_recipe(parser)
    add_route(parser)
    parser.add_argument('--json', action='store_true', help='write one JSON object; docs/COMMAND.md has its keys')


def _limits(parts: Parts, figures: Dict[str, int]) -> List[Dict[str, Any]]:
    used = [
        ('dimensions', len(parts.dimensions), MOST_DIMENSIONS), ('bounds', len(parts.bounds), MOST_BOUNDS),
        ('distances', len(parts.distances), MOST_DISTANCES), ('longest dimension', max(parts.lengths), MOST_LENGTH),
        ('longest tile', max(d.tile for d in parts.dimensions), MOST_TILE), ('shift', parts.shift, MOST_SHIFT),
        ('cells', figures['cells'], MOST_CELLS), ('processors', figures['processors'], MOST_PROCESSORS),
        ('tiles', figures['tiles'], MOST_TILES), ('messages', figures['messages'], MOST_MESSAGES), ('words', figures['words'], MOST_WORDS)]
    return [{'name': name, 'used': number, 'most': most, 'percent': round(100 * number / most, 1)} for name, number, most in used]


def _part(encoded: bytes, route: int, processor: int) -> Dict[str, int]:
    """What a processor needs that is lent its own part alone."""
    own = plan.part_sizes(encoded, route, processor)
    taken = _WORD * (own.source + own.memory + own.mail) + _RECORD + _MARK * own.messages
    return {'processor': processor, **own._asdict(), 'bytes': taken}


def planned(recipe: Recipe, route: str) -> Dict[str, Any]:
    """All that is told, by the keys that `--json` has."""
    encoded, word = recipe.encoded, ROUTES[route]
    try:
        figures = dict(plan.summary(encoded, word)._asdict())
    except Refused as refused:
        raise recipe.refused(refused) from None
    owners = plan._owners(encoded)
    figures['cells in the shape'] = sum(owner < figures['processors'] for owner in owners)
    figures['rounds'] = max(plan.rounds_of(encoded))
    found = sizes(encoded, word)
    return {
        'route': route, 'dimensions': [dimension._asdict() for dimension in recipe.parts.dimensions],
        'figures': {name.replace(' ', '_'): number for name, number in figures.items()},
        'areas': {name: {'elements': getattr(found, name), 'bytes': getattr(found, name) * _BYTES[name]} for name in Sizes.AREAS},
        'parts': [_part(encoded, word, processor) for processor in range(figures['processors'])],
        'limits': _limits(recipe.parts, figures),
        'messages': [{'message': m, **dict(list(row._asdict().items())[:5])} for m, row in enumerate(plan.messages(encoded, word))]}


def _text(found: Dict[str, Any]) -> str:
    by = ' by '.join(str(dimension['length']) for dimension in found['dimensions'])
    tiles = ' by '.join(str(dimension['tile']) for dimension in found['dimensions'])
    text = '%s cells in tiles of %s, %s route\n' % (by, tiles, found['route'])
    text += '\nfigures\n' + table((name.replace('_', ' '), number) for name, number in found['figures'].items())
    text += '\nareas\n' + table([('', 'elements', 'bytes'), *((name, area['elements'], area['bytes']) for name, area in found['areas'].items())])
    names = list(found['parts'][0])
    text += '\na processor\'s own part\n' + table([names, *([part[name] for name in names] for part in found['parts'])])
    text += '\nlimits\n' + table([('', 'used', 'at most', '%'), *(
        (limit['name'], limit['used'], limit['most'], limit['percent']) for limit in found['limits'])])
    if not found['messages']:
        return text + '\nno messages\n'
    names = list(found['messages'][0])
    return text + '\nmessages\n' + table([[name.replace('_', ' ') for name in names], *([m[name] for name in names] for m in found['messages'])])


def run(words: argparse.Namespace) -> int:
    """Does what the words say."""
    found = planned(recipe_of(words.recipe), words.route)
    files.say(json.dumps(found, indent=1) + '\n' if words.json else _text(found))
    return DONE
