"""`rolwyddac numbers`: what a number means, and the shortest way to get it."""

from __future__ import annotations

import argparse

from ..library import term, text
from . import files
from .examples import SHORTEST, calls_in, recipe_in
from .explained import explained
from .faults import DONE, Usage
from .fields import RECORD, parts_of, records_of
from .options import whole

HELP = 'what a number of the engine means, and the shortest way to get it'
MORE = '''A call gives the number of the first line of the table that is true of what it was given. With -o the bytes of the
shortest example's recipe are written to a file, to try it.'''
EXAMPLE = 'rolwyddac numbers 6'


def declare(parser: argparse.ArgumentParser) -> None:
    """Its options."""
    parser.add_argument('number', metavar='N', nargs='?', type=whole(0, 2 ** 32 - 1), help='the number; all of them where not given')
    parser.add_argument('-o', '--out', metavar='FILE', help="write the bytes of the example's recipe to this file")


def _all() -> str:
    return ''.join('%2d  %-12s  %s\n' % (number, term(number), text(number)) for number in (0, *SHORTEST))


def _one(number: int) -> str:
    """A number with its example."""
    found = '%d, %s: %s\n' % (number, term(number), text(number))
    if number == 0:
        return found
    encoded, made = recipe_in(SHORTEST[number]), calls_in(SHORTEST[number])
    found += '\nThe shortest way to get it%s\n' % (', a recipe of %d bytes:' % len(encoded) if encoded else ' is an empty recipe.')
    for at, record in enumerate(records_of(encoded)):
        found += '    %3d  %s\n' % (RECORD * at, ' '.join('%02x' % byte for byte in record))
    if made:
        return found + '\nand these calls, over a source of ones; the last gives the number:\n    %s\n' % made
    return found + '\nHere: %s\n' % explained(number, parts_of(encoded), encoded)


def run(words: argparse.Namespace) -> int:
    """Does what the words say."""
    if words.number is not None and words.number and words.number not in SHORTEST:
        raise Usage('%d is no number of the engine; rolwyddac numbers lists them' % words.number)
    if words.out is not None:
        if not words.number:
            raise Usage('-o goes with a number other than 0')
        files.write(words.out, recipe_in(SHORTEST[words.number]))
        return DONE
    files.say(_all() if words.number is None else _one(words.number))
    return DONE
