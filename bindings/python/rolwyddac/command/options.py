"""Options that several subcommands have, and what they stand for."""

from __future__ import annotations

import argparse
import functools
from typing import Callable, Dict

from ..kinds import DIRECT, INDIRECT, KINDS
from .exact import WORD_MOST, day_of, number_of
from .faults import Usage
from .points import NAMES, NEEDED, SEPARATORS, Layout, Reading
from .texts import shown
from .toml import Recipe

ROUTES = {'direct': DIRECT, 'indirect': INDIRECT}

# a cell's edge in a chart's text
_CELL_LEAST, _CELL_MOST = 1, 65535

_CORNER = KINDS['i32']


def whole(least: int, most: int) -> Callable[[str], int]:
    """A type of option: a whole number from least to most."""
    return functools.partial(_whole, least, most)


def _whole(least: int, most: int, text: str) -> int:
    digits = text[text.startswith(('-', '+')):]
    if not (digits.isascii() and digits.isdigit()) or len(digits) > 20 or not least <= int(text) <= most:
        raise argparse.ArgumentTypeError('`%s` is no whole number from %d to %d' % (shown(text), least, most))
    return int(text)


word = whole(0, WORD_MOST)


def add_recipe(parser: argparse.ArgumentParser) -> None:
    """RECIPE."""
    parser.add_argument('recipe', metavar='RECIPE', help='the recipe: TOML or bytes; - is standard input')


def add_route(parser: argparse.ArgumentParser) -> None:
    """--route."""
    parser.add_argument('--route', choices=list(ROUTES), default='direct', help='how messages travel; direct where not given')


def add_place(parser: argparse.ArgumentParser, needed: bool) -> None:
    """--corner and --cell."""
    parser.add_argument('--corner', nargs=2, metavar=('X', 'Y'), type=whole(_CORNER.least, _CORNER.most), default=None if needed else [0, 0],
                        required=needed, help='lower left corner of the chart, whole numbers%s' % ('' if needed else '; 0 0 where not given'))
    parser.add_argument('--cell', metavar='SIZE', type=whole(_CELL_LEAST, _CELL_MOST), required=needed,
                        help="a cell's edge, %d to %d%s" % (_CELL_LEAST, _CELL_MOST, '' if needed else '; 1 where not given'))


def add_reading(parser: argparse.ArgumentParser) -> None:
    """How points are read."""
    group = parser.add_argument_group('soundings as CSV or XYZ')
    for column, names in NAMES.items():
        group.add_argument('--' + column, metavar='COLUMN', help='its name, or its number counted from 1; where not given: %s%s' % (
            ' or '.join(names[:3]), '' if column in NEEDED else '; none: there is none'))
    group.add_argument('--separator', choices=list(SEPARATORS), help='what sets columns apart; found in the first line where not given')
    group.add_argument('--scale', metavar='NUMBER', default='1',
                       help='words for one unit of depth: 1000 keeps millimetres of metres; below 0 for heights; 1 where not given')
    group.add_argument('--round', action='store_true', help='round depths to whole numbers; else digits that would be lost are refused')
    group.add_argument('--default-day', metavar='DAY', help='day of points without one: a whole number, or a date as 2026-04-27')
    group.add_argument('--default-survey', metavar='NUMBER', type=word, default=0, help='survey of points without one; 0 where not given')


def reading_of(words: argparse.Namespace) -> Reading:
    """What the options say of points."""
    scale = number_of(words.scale)
    if scale is None or scale.digits == 0:
        raise Usage('--scale: `%s` is no number but 0' % shown(words.scale))
    day = None if words.default_day is None else day_of(words.default_day)
    if words.default_day is not None and day is None:
        raise Usage('--default-day: `%s` is neither a whole number nor a date like 2026-04-27' % shown(words.default_day))
    columns: Dict[str, str] = {name: getattr(words, name) for name in NAMES if getattr(words, name) is not None}
    return Reading(columns, SEPARATORS.get(words.separator or ''), scale, words.round, None if day is None else day[0], words.default_survey)


def layout_of(recipe: Recipe, words: argparse.Namespace) -> Layout:
    """Where the cells of a recipe of two dimensions lie."""
    (rows, columns), (x, y) = recipe.parts.lengths, words.corner
    return Layout(rows, columns, x, y, words.cell or _CELL_LEAST)
