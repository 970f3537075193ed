"""Recipes as TOML, and read from a file that has TOML or bytes.

    shift = 2
    boundary = 4000

    [[dimension]]
    length = 60
    tile = 10
    processors = 6       # 0 where it is left out: not spread

    [[bound]]            # component 2 is at least component 1 - 40; dimensions are counted from 1, components from 0
    side = "lower"       # or "upper"
    dimension = 2
    earlier = 1
    slope = 1            # -1, 0 or 1; 0 where it is left out
    offset = -40         # 0 where it is left out

    [[distance]]
    step = [1, 0]        # one component a dimension
    weight = 1           # 1 where it is left out
"""

from __future__ import annotations

import difflib
import importlib
from typing import Any, Dict, List, NamedTuple, Optional, Tuple

from ..calls import sizes
from ..recipe import COMPONENTS
from ..refusals import Refused
from . import files
from .explained import refusal
from .faults import Refusal, Usage
from .fields import LOWER, UPPER, Bound, Dimension, Distance, Parts, parts_of
from .texts import listed, of, shown

# bytes of a file that is still read as a recipe: text may have comments
_RECIPE_MOST = 2 ** 20

_SIDES = {'lower': LOWER, 'upper': UPPER}

# the keys of each table, and what stands where one is left out; None: it is needed
_KEYS: Dict[str, Dict[str, Any]] = {
    'dimension': {'length': None, 'tile': None, 'processors': 0},
    'bound': {'side': None, 'dimension': None, 'earlier': 1, 'slope': 0, 'offset': 0},
    'distance': {'step': None, 'weight': 1}}
_TOP: Dict[str, Any] = {'shift': 0, 'boundary': 0}

# what a field of the bytes can hold; whether a recipe may have it is the engine's to say
_HALF, _WORD = (0, 2 ** 16 - 1), (0, 2 ** 32 - 1)
_RANGES: Dict[str, Tuple[int, int]] = {
    'length': _HALF, 'tile': _HALF, 'processors': _HALF, 'dimension': (1, 256), 'earlier': (1, 256), 'slope': (-128, 127),
    'offset': (-2 ** 15, 2 ** 15 - 1), 'step': _HALF, 'weight': _HALF, 'shift': (0, 255), 'boundary': _WORD}

_UTF_8_MARK = b'\xef\xbb\xbf'


class Recipe(NamedTuple):
    """A recipe that the engine accepts, with the name of its file."""

    name: str
    encoded: bytes
    parts: Parts

    def refused(self, refused: Refused) -> Refusal:
        """A later refusal, by a route or a chart, as it is told."""
        return refusal(self.name, refused, self.parts, self.encoded)


def toml_module() -> Any:
    """The module that reads TOML: Python's own from 3.11 on, else tomli."""
    for name in ('tomllib', 'tomli'):
        try:
            return importlib.import_module(name)
        except ImportError:
            continue
    raise Usage('recipes as TOML need Python 3.11, or the module tomli: pip install tomli (the extra `toml`)')


def _known(where: str, table: Dict[str, Any], keys: List[str]) -> None:
    """No key but these: one that is misspelt would be left out silently."""
    for key in table:
        if key not in keys:
            near = difflib.get_close_matches(key, keys, 1)
            raise Refusal('unknown key `%s` in %s; %s' % (
                shown(key), where, 'is `%s` meant?' % near[0] if near else 'known are %s' % listed(keys)))


def _whole(where: str, key: str, value: Any) -> int:
    if not isinstance(value, int) or isinstance(value, bool):
        raise Refusal('%s: %s must be a whole number' % (where, key))
    least, most = _RANGES[key]
    if not least <= value <= most:
        told = str(value) if abs(value) < 2 ** 64 else 'too large'
        raise Refusal('%s: %s is %s, and not from %d to %d' % (where, key, told, least, most))
    return value


def _tables(content: Dict[str, Any], kind: str) -> List[Dict[str, Any]]:
    """The tables of a kind, with all their keys."""
    found = content.get(kind, [])
    if not isinstance(found, list) or not all(isinstance(table, dict) for table in found):
        raise Refusal('`%s` must be tables: [[%s]] for each' % (kind, kind))
    whole = []
    for at, table in enumerate(found):
        where = '%s %d' % (kind, at + 1)
        _known(where, table, list(_KEYS[kind]))
        for key, otherwise in _KEYS[kind].items():
            if otherwise is None and key not in table:
                raise Refusal('%s: %s is missing' % (where, key))
        whole.append({**_KEYS[kind], **table})
    return whole


def _bound(where: str, table: Dict[str, Any]) -> Bound:
    if table['side'] not in list(_SIDES):
        raise Refusal('%s: side must be "lower" or "upper"' % where)
    dimension, earlier, slope, offset = (_whole(where, key, table[key]) for key in ('dimension', 'earlier', 'slope', 'offset'))
    return Bound(_SIDES[table['side']], dimension - 1, earlier - 1, slope, offset)


def _distance(where: str, table: Dict[str, Any], dimensions: int) -> Distance:
    step = table['step']
    if not isinstance(step, list):
        raise Refusal('%s: step must be a list, one component a dimension' % where)
    whole = [_whole(where, 'step', component) for component in step]
    if len(whole) != dimensions and dimensions <= COMPONENTS:
        raise Refusal('%s: step has %d components, and the recipe has %d dimensions' % (where, len(whole), dimensions))
    four = (whole + [0] * COMPONENTS)[:COMPONENTS]
    return Distance(tuple(four), _whole(where, 'weight', table['weight']), max(four) > 255)


def parts_of_text(text: str) -> Parts:
    """What a recipe as TOML says."""
    parser = toml_module()
    try:
        content = parser.loads(text)
    except ValueError as error:
        # the parser's own fault is one, and so is a number of thousands of digits
        raise Refusal('no TOML: %s' % shown(str(error))) from None
    except RecursionError:
        raise Refusal('no recipe: lists or tables within each other too deeply') from None
    _known('the recipe', content, list(_TOP) + list(_KEYS))
    found = {kind: [('%s %d' % (kind, at + 1), table) for at, table in enumerate(_tables(content, kind))] for kind in _KEYS}
    return Parts(
        [Dimension(*(_whole(where, key, table[key]) for key in _KEYS['dimension'])) for where, table in found['dimension']],
        [_bound(where, table) for where, table in found['bound']],
        [_distance(where, table, len(found['dimension'])) for where, table in found['distance']],
        *(_whole('the recipe', key, content.get(key, otherwise)) for key, otherwise in _TOP.items()))


def text_of(parts: Parts) -> str:
    """A recipe as TOML; it reads back to the same parts."""
    lines = ['shift = %d' % parts.shift, 'boundary = %d' % parts.boundary]
    for dimension in parts.dimensions:
        lines += ['', '[[dimension]]', 'length = %d' % dimension.length, 'tile = %d' % dimension.tile]
        lines += ['processors = %d' % dimension.processors] if dimension.processors else []
    for bound in parts.bounds:
        lines += ['', '# %s; dimensions are counted from 1, components from 0' % str(bound), '[[bound]]']
        lines += ['side = "%s"' % ('lower' if bound.side == LOWER else 'upper'), 'dimension = %d' % (bound.dimension + 1)]
        lines += ['earlier = %d' % (bound.earlier + 1), 'slope = %d' % bound.slope, 'offset = %d' % bound.offset]
    for distance in parts.distances:
        lines += ['', '[[distance]]', 'step = [%s]' % ', '.join(map(str, distance.step[:len(parts.dimensions)]))]
        lines += ['weight = %d' % distance.weight]
    return ''.join(line + '\n' for line in lines)


def _decoded(content: bytes) -> Optional[str]:
    """A file's text, None where it has a recipe's bytes: their zeros stand in no text. The name says nothing."""
    if files.is_utf_16(content):
        raise Refusal('text of two bytes a character (UTF-16); TOML is UTF-8')
    if not files.is_text(content):
        return None
    try:
        return content[len(_UTF_8_MARK) * content.startswith(_UTF_8_MARK):].decode()
    except UnicodeDecodeError as error:
        line = content[:error.start].count(b'\n') + 1
        raise Refusal('no TOML: line %d is not in UTF-8' % line) from None


def recipe_of(name: str) -> Recipe:
    """The recipe of a file that has TOML or bytes, accepted by the engine."""
    content = files.read(name, _RECIPE_MOST)
    try:
        text = _decoded(content)
        parts = parts_of(content) if text is None else parts_of_text(text)
    except Refusal as fault:
        raise Refusal(of(name, fault)) from None
    try:
        if text is not None:
            return Recipe(name, parts.encoded(), parts)
        sizes(content)
    except Refused as refused:
        raise refusal(name, refused, parts, b'' if text is not None else content) from None
    return Recipe(name, content, parts)
