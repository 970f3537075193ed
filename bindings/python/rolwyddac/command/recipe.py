"""`rolwyddac recipe`: bytes from TOML, and the other way round."""

from __future__ import annotations

import argparse
import sys

from . import files
from .faults import DONE, Usage
from .options import add_recipe
from .toml import recipe_of, text_of

HELP = "write a recipe's bytes, or show them as TOML"
MORE = 'The engine accepts what is written. A recipe that it refuses is told with the record that is at fault.'
EXAMPLE = 'rolwyddac recipe data/harbour/basin.toml -o basin.recipe'


def declare(parser: argparse.ArgumentParser) -> None:
    """Its options."""
    add_recipe(parser)
    form = parser.add_mutually_exclusive_group()
    form.add_argument('--show', action='store_true', help='write the recipe as TOML, not as bytes')
    form.add_argument('--list', action='store_true', help="write the bytes as a list for the prover's definitions")
    parser.add_argument('-o', '--out', metavar='FILE', help='the file to write; standard output where not given')


def run(words: argparse.Namespace) -> int:
    """Does what the words say."""
    recipe = recipe_of(words.recipe)
    if words.show or words.list:
        text = text_of(recipe.parts) if words.show else ' ∷ '.join([*map(str, recipe.encoded), '[]']) + '\n'
        files.write(words.out or files.STANDARD, text.encode())
        return DONE
    if words.out is None and sys.stdout is not None and sys.stdout.isatty():
        raise Usage('bytes would go to a terminal; -o FILE names a file, --show writes TOML')
    files.write(words.out or files.STANDARD, recipe.encoded)
    return DONE
