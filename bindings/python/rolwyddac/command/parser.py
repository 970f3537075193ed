"""The command's words. Help, man page, completion and docs/COMMAND.md come from this parser."""

from __future__ import annotations

import argparse
import sys
import textwrap
from typing import Any, Dict, List, NoReturn, Optional

from ..calls import VERSION
from ..library import version
from . import boards, chart, check, files, numbers, pages, plan, recipe, rounds, soundings, view
from .faults import DONE, USAGE, Fault
from .texts import shown, tell

NAME = 'rolwyddac'

ABOUT = '''Computes depth grids by a recipe, on processors that share no memory, with a proved engine: each cell is its source depth plus a
weighted sum of cells already computed, divided by a power of two.'''

STATUSES = '''Statuses: 0 done; 1 refused, or a difference was found; 2 the words of the command; 3 a file can't be read or written.'''

SUBCOMMANDS: Dict[str, Any] = {'recipe': recipe, 'plan': plan, 'check': check, 'soundings': soundings, 'chart': chart, 'rounds': rounds,
                               'boards': boards, 'view': view, 'numbers': numbers}

_WIDTH = 100


class Parser(argparse.ArgumentParser):
    """A parser whose words can neither steer a terminal nor get lost on a full disk."""

    def __init__(self, **more: Any) -> None:
        super().__init__(formatter_class=argparse.RawDescriptionHelpFormatter, allow_abbrev=False, **more)
        for action in self._actions:
            if isinstance(action, argparse._HelpAction):
                action.help = 'write this help, and end'

    def error(self, message: str) -> NoReturn:
        tell('%s: %s' % (self.prog, shown(message)))
        tell('%s --help tells more' % self.prog)
        sys.exit(USAGE)

    def _print_message(self, message: str, file: Any = None) -> None:
        if file is sys.stderr:
            tell(message.rstrip('\n'))
        else:
            written(message)


def written(text: str) -> None:
    """Writes to standard output, or ends with the status of what went wrong."""
    try:
        files.say(text)
    except Fault as fault:
        tell(str(fault))
        sys.exit(fault.status)


class _Page(argparse.Action):
    """An option that writes a page made from the parser, and ends."""

    def __call__(self, parser: argparse.ArgumentParser, namespace: argparse.Namespace, values: Any, option: Optional[str] = None) -> NoReturn:
        pages_of = {'man': pages.man, 'bash': pages.bash}
        written(pages_of[values or self.dest](parser_of()))
        sys.exit(DONE)


def _filled(text: str) -> str:
    return textwrap.fill(' '.join(text.split()), _WIDTH - 2)


def parser_of() -> Parser:
    """The parser of the whole command."""
    parser = Parser(prog=NAME, description=_filled(ABOUT), epilog=_filled(STATUSES))
    told: List[str] = [NAME, VERSION, '(library %s)' % version()]
    parser.add_argument('--version', action='version', version=' '.join(told), help='write the version, and end')
    parser.add_argument('--man', action=_Page, nargs=0, help='write the man page, and end')
    parser.add_argument('--completion', action=_Page, choices=['bash'], help='write a completion for this shell, and end')
    choice = parser.add_subparsers(metavar='SUBCOMMAND', dest='subcommand', required=True, title='subcommands')
    for name, module in SUBCOMMANDS.items():
        made = choice.add_parser(name, help=module.HELP, description=_filled(module.HELP[0].upper() + module.HELP[1:] + '. ' + module.MORE),
                                 epilog='example:\n  %s' % module.EXAMPLE)
        module.declare(made)
        made.set_defaults(run=module.run)
    return parser
