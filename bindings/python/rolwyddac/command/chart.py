"""`rolwyddac chart`: depths in, the grid by a run on all processors out, as a chart."""

from __future__ import annotations

import argparse
import os
from typing import Any, Dict, List, Optional, Sequence, Set

from .. import grids
from ..refusals import Refused
from ..run import Run
from . import drawings, files
from .depths import add_depths, flat, outside_of, source_of
from .faults import DONE, Refusal, Usage
from .options import add_place, add_recipe, layout_of
from .texts import first_of, many, of, shown, tell
from .toml import Recipe, recipe_of

HELP = 'make a chart from soundings'
MORE = '''Finds the soundings that count, runs the recipe on all its processors, holds the grid to the sweep of one, and writes it. An .asc is an Esri
ASCII grid, by the proved call; .tif and .nc are written by GDAL from the same grid; a .prj stands beside an .asc where a CRS is given. All
files are made before the first is written, and each is written whole or not at all.'''
EXAMPLE = '''rolwyddac chart data/harbour/basin.toml --value 3000 --cell 10 --out harbour.asc \\
    --soundings data/harbour/spring.csv data/harbour/autumn.csv'''

_TEXTS = ('', '.asc')


def declare(parser: argparse.ArgumentParser) -> None:
    """Its options."""
    add_recipe(parser)
    choice = parser.add_mutually_exclusive_group(required=True)
    add_depths(parser, choice)
    add_place(parser, needed=False)
    add_outputs(parser, needed=True)


def add_outputs(parser: argparse.ArgumentParser, needed: bool) -> None:
    """--out, --crs and --png."""
    parser.add_argument('--out', metavar='FILE', action='append', required=needed, default=None if needed else [],
                        help='the chart, by its ending .asc, .tif or .nc; - is standard output, as .asc; may be given again')
    parser.add_argument('--crs', metavar='EPSG:N', help='the coordinate reference system; needs the extra gdal')
    parser.add_argument('--png', metavar='FILE', help='draw a picture too; needs the extra png')


def unsigned_words(grid: Sequence[int], outside: Set[int], columns: int) -> Optional[str]:
    """What is told of words of 2^31 or more: how many, and the first of them by number and place."""
    found = [(cell, word) for cell, word in enumerate(grid) if word >= drawings.SIGN and cell not in outside]
    if not found:
        return None
    lines = ['cell %d (row %d, column %d) has %d' % (cell, *divmod(cell, columns), word) for cell, word in found]
    return '%s of 2147483648 or more; GDAL reads them in .asc as negative numbers, and 4294957297 as a missing cell: %s' % (
        many(len(found), 'cell has a word', 'cells have words'), ', '.join(first_of(lines, len(found))))


def hold_outputs(words: argparse.Namespace, *others: str) -> None:
    """What can't be written is told before anything is read; others are written too."""
    if words.crs and not words.out:
        raise Usage('--crs goes with --out')
    for name in words.out:
        if not drawings.is_raster(name) and drawings.ending(name) not in _TEXTS:
            hint = '--png draws a picture' if drawings.ending(name) == '.png' else 'charts are .asc, .tif or .nc'
            raise Usage('--out: %s: %s' % (shown(name), hint))
    if words.crs and words.out and all(_is_plain(name) for name in words.out):
        raise Usage('--crs: a text on standard output has no place for it')
    outputs = [*words.out, words.png, *others, *(_prj(name) for name in words.out if words.crs and _is_text(name))]
    inputs = [words.recipe, words.source, *(words.soundings or [])]
    files.hold_apart([name for name in outputs if name], [name for name in inputs if name])


def _is_text(name: str) -> bool:
    return drawings.ending(name) == '.asc'


def _is_plain(name: str) -> bool:
    """A text that no .prj can stand beside."""
    return not _is_text(name) and not drawings.is_raster(name)


def _prj(name: str) -> str:
    return os.path.splitext(name)[0] + '.prj'


def grid_of(recipe: Recipe, source: Sequence[int]) -> List[int]:
    """The grid by a run on all processors, held to the sweep of one."""
    run, _ = Run.by_rounds(recipe.encoded, source)
    grid = flat(run.collect())
    if grid != flat(grids.sweep(recipe.encoded, source)):
        raise Refusal(of(recipe.name, 'the grid differs from the sweep: the library is damaged'))
    return grid


def text_of(recipe: Recipe, grid: Sequence[int], words: argparse.Namespace) -> bytes:
    """The chart's text, by the proved call."""
    layout = (*words.corner, words.cell or 1)
    try:
        return grids.chart(recipe.encoded, grid, *layout).encode()
    except Refused as refused:
        raise recipe.refused(refused) from None


def contents_of(recipe: Recipe, grid: Sequence[int], words: argparse.Namespace) -> Dict[str, bytes]:
    """What each file gets."""
    text, layout, outside = text_of(recipe, grid, words), layout_of(recipe, words), outside_of(recipe)
    crs: Any = drawings.reference(words.crs) if words.crs else None
    made: Dict[str, bytes] = {}
    for name in words.out:
        if drawings.is_raster(name):
            made[name] = drawings.raster(drawings.ending(name), grid, outside, layout, crs)
        else:
            made[name] = text
            if words.crs and _is_text(name):
                made[_prj(name)] = drawings.prj(words.crs)
    if words.png:
        made[words.png] = drawings.picture(grid, outside, layout, os.path.basename(recipe.name))
    return made


def write_charts(recipe: Recipe, grid: Sequence[int], words: argparse.Namespace) -> None:
    """Makes all files, then writes them."""
    for name, content in contents_of(recipe, grid, words).items():
        files.write(name, content)
    # of a text alone: in the other formats every word is as it is
    found = unsigned_words(grid, outside_of(recipe), recipe.parts.lengths[-1])
    if found and not all(drawings.is_raster(name) for name in words.out):
        tell(found)


def run(words: argparse.Namespace) -> int:
    """Does what the words say."""
    hold_outputs(words)
    recipe = recipe_of(words.recipe)
    # what has no chart is told before the soundings are read
    text_of(recipe, [0] * len(list(recipe.parts.places())), words)
    write_charts(recipe, grid_of(recipe, source_of(recipe, words)), words)
    return DONE
