"""`rolwyddac rounds`: the schedule of a run by rounds, processors down, rounds across, tile numbers in the boxes.

A tile's round is what the library tells; its processor is found from the tile's place, as docs/RECIPE.md says.
"""

from __future__ import annotations

import argparse
from typing import List, Optional

from ..plan import rounds_of, summary
from . import files
from .faults import DONE
from .options import add_recipe
from .toml import Recipe, recipe_of

HELP = 'draw the schedule of a run by rounds'
MORE = '''In a round every processor that can does one whole tile, and then all mail is delivered. With --svg - the picture alone goes to
standard output.'''
EXAMPLE = 'rolwyddac rounds data/harbour/basin.toml --svg rounds.svg'

# of the picture, in pixels
_WIDE, _HIGH, _LEFT, _TOP, _MARGIN, _BASE = 40, 28, 104, 44, 12, 19

_STYLE = ('<style>text { font: 13px sans-serif } .tile { fill: #cfe2f3; stroke: #24507a } '
          '.idle { fill: none; stroke: #d0d0d0 }</style>')


def declare(parser: argparse.ArgumentParser) -> None:
    """Its options."""
    add_recipe(parser)
    parser.add_argument('--svg', metavar='FILE', help='write the drawing to this file too, as a picture')


class Schedule:
    """For each processor the tile of each round, if it has one."""

    def __init__(self, recipe: Recipe) -> None:
        rounds = rounds_of(recipe.encoded)
        self.tiles, self.rounds = len(rounds), max(rounds)
        self.rows: List[List[Optional[int]]] = [[None] * self.rounds for _ in range(summary(recipe.encoded).processors)]
        for tile, (place, taken) in enumerate(zip(recipe.parts.tiles(), rounds)):
            self.rows[recipe.parts.processor_of(place)][taken - 1] = tile

    def title(self) -> str:
        """Its figures."""
        return '%d rounds, %d tiles, %d processors' % (self.rounds, self.tiles, len(self.rows))

    def text(self) -> str:
        """As text."""
        wide, digits = max(len(str(self.rounds)), len(str(self.tiles - 1))), len(str(len(self.rows) - 1))

        def boxes(words: List[str]) -> str:
            return ''.join(' %*s |' % (wide, word) for word in words)

        text = '%s\n%*s |%s\n' % (self.title(), len('processor ') + digits, 'round', boxes([str(at + 1) for at in range(self.rounds)]))
        for processor, row in enumerate(self.rows):
            text += 'processor %*d |%s\n' % (digits, processor, boxes(['' if tile is None else str(tile) for tile in row]))
        return text

    def picture(self) -> str:
        """As SVG."""
        width, height = _LEFT + _WIDE * self.rounds + _MARGIN, _TOP + _HIGH * len(self.rows) + _MARGIN
        lines = ['<svg xmlns="http://www.w3.org/2000/svg" width="%d" height="%d" viewBox="0 0 %d %d">' % (width, height, width, height),
                 '<title>%s</title>' % self.title(), _STYLE, '<rect width="100%" height="100%" fill="white"/>',
                 '<text x="%d" y="20">%s</text>' % (_MARGIN, self.title())]

        def centred(at: int, y: int, number: int) -> str:
            return '<text x="%d" y="%d" text-anchor="middle">%d</text>' % (_LEFT + _WIDE * at + _WIDE // 2, y, number)

        lines += [centred(at, _TOP - 6, at + 1) for at in range(self.rounds)]
        for processor, row in enumerate(self.rows):
            top = _TOP + _HIGH * processor
            lines.append('<text x="%d" y="%d">processor %d</text>' % (_MARGIN, top + _BASE, processor))
            for at, tile in enumerate(row):
                lines.append('<rect class="%s" x="%d" y="%d" width="%d" height="%d"/>' % (
                    'idle' if tile is None else 'tile', _LEFT + _WIDE * at + 1, top + 1, _WIDE - 2, _HIGH - 2))
                lines += [] if tile is None else [centred(at, top + _BASE, tile)]
        return ''.join(line + '\n' for line in [*lines, '</svg>'])


def run(words: argparse.Namespace) -> int:
    """Does what the words say."""
    schedule = Schedule(recipe_of(words.recipe))
    if words.svg is not None:
        files.write(words.svg, schedule.picture().encode())
    if words.svg != files.STANDARD:
        files.say(schedule.text())
    return DONE
