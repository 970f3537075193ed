"""`rolwyddac view`: one page that shows a recipe, its messages and a recorded run."""

from __future__ import annotations

import argparse
import os
from typing import List, Tuple

from .. import plan
from ..view import Differs, Shown, page_of, served
from . import files
from .depths import add_depths, source_of, words_of
from .faults import DONE, Refusal, Usage
from .hours import hours_of
from .options import add_place, add_recipe, whole, word
from .plan import planned
from .serve import serve
from .texts import listed, of, shown
from .toml import Recipe, recipe_of

HELP = 'write a page that shows a recipe, its messages and a run'
MORE = '''The page is one HTML file for a browser, which fetches nothing: the recipe in words, source and result with each cell's sum, the cells
and readers of each message, rounds, and a recorded run to be rewound. Its orders are drawn with the seed; the same words make the same bytes. All
that it shows is held to the engine before it is written. Without --soundings and --source the source is 100, 101, 102 and so on. With --serve the
page is not written: it is shown at an address of this machine alone, which is told, until Ctrl-C. There boards are driven by hand: each turn,
delivery, loss and crash is chosen, and the engine answers.'''
EXAMPLE = '''rolwyddac view data/harbour/basin.toml --value 3000 --cell 10 --out harbour.html \\
    --soundings data/harbour/spring.csv data/harbour/autumn.csv'''

_SEED, _FIRST_WORD = 1, 100


def declare(parser: argparse.ArgumentParser) -> None:
    """Its options."""
    add_recipe(parser)
    add_depths(parser, parser.add_mutually_exclusive_group())
    add_place(parser, needed=False)
    parser.add_argument('--seed', metavar='NUMBER', type=word, default=_SEED, help='what the order of the run is drawn with; %d where not given' % _SEED)
    parser.add_argument('--name', metavar='NAME', help="the page's title; the recipe's file name where not given")
    parser.add_argument('--second', metavar='FILE', help="show two offices that share the processors: the second one's source, a word a cell")
    parser.add_argument('--hours', metavar='FILE', help='show a run by hours: when processors are open, as TOML; docs/VIEW.md has its keys')
    parser.add_argument('--boards', action='store_true', help='show boards that share no memory: packets late, lost and repeated, crashes')
    ends = parser.add_mutually_exclusive_group(required=True)
    ends.add_argument('-o', '--out', metavar='FILE', help='the page; - is standard output')
    ends.add_argument('--serve', action='store_true', help='show it at an address of this machine, and let boards be driven by hand')
    parser.add_argument('--port', metavar='NUMBER', type=whole(0, 65535), help='the port of --serve; a free one where not given')


def _base(name: str) -> str:
    return 'standard input' if name == files.STANDARD else shown(os.path.basename(name))


def _source(recipe: Recipe, words: argparse.Namespace) -> Tuple[List[int], str]:
    """The source, and how the page tells where it is from."""
    if words.soundings:
        return source_of(recipe, words), 'the soundings %s; %d where there is none' % (listed([_base(name) for name in words.soundings]), words.value or 0)
    if words.source:
        return source_of(recipe, words), 'the file %s' % _base(words.source)
    if words.value is not None:
        raise Usage('--value goes with --soundings')
    cells = plan.summary(recipe.encoded).cells
    return list(range(_FIRST_WORD, _FIRST_WORD + cells)), 'the words 100, 101, 102 and so on'


def run(words: argparse.Namespace) -> int:
    """Does what the words say."""
    if words.port is not None and not words.serve:
        raise Usage('--port goes with --serve')
    read = [words.recipe, *(words.soundings or []), *(name for name in (words.source, words.second, words.hours) if name)]
    files.hold_apart([words.out] if words.out else [], read)
    recipe = recipe_of(words.recipe)
    source, told = _source(recipe, words)
    limits = [(limit['name'], limit['used'], limit['most']) for limit in planned(recipe, 'direct')['limits']]
    name = shown(words.name) if words.name else _base(words.recipe)
    figures = plan.summary(recipe.encoded)
    second = words_of(words.second, figures.cells) if words.second else None
    hours = hours_of(words.hours, figures.processors) if words.hours else None
    about = Shown(name, told, limits, second, hours, words.boards and not words.serve)
    try:
        if words.serve:
            serve(*served(recipe.encoded, source, words.seed, about), words.port or 0)
            return DONE
        page = page_of(recipe.encoded, source, words.seed, about)
    except Differs as differs:
        raise Refusal(of(words.recipe, differs)) from None
    files.write(words.out, page)
    if words.out != files.STANDARD:
        files.say('%s: %d bytes\n' % (shown(words.out), len(page)))
    return DONE
