"""`rolwyddac boards`: a run by the program boards, one process a board, soundings and chart included."""

from __future__ import annotations

import argparse
import array
import os
import re
import shlex
import shutil
import signal
import subprocess
import sys
import tempfile
from typing import List

from ..calls import sizes
from ..refusals import Refused
from . import files
from .chart import add_outputs, hold_outputs, text_of, write_charts
from .depths import add_depths, source_of
from .faults import DONE, FILE, REFUSED, USAGE, Ended, Fault, FileFault, Usage
from .fields import MOST_CELLS
from .options import ROUTES, add_place, add_recipe, add_route, word
from .texts import tell
from .toml import Recipe, recipe_of

HELP = 'run a recipe on processes that share no memory'
MORE = '''One process a board, on this machine or where a hosts file says: bindings/boards/MANUAL.md. Boards that die are started again, and lost mail is
posted again. With --mpi they are started by mpirun, on the machines that it is told of; the first of them has to be this one, whose files are read and
written. The grid is held to the sweep of one processor before anything is written. In a clone the program is built first; else it is looked for as
rolwyddac-boards, or as ROLWYDDAC_BOARDS names it (with --mpi rolwyddac-boards-mpi, ROLWYDDAC_BOARDS_MPI). A run that fails, as one in which no board
comes further, has status 1.'''
EXAMPLE = 'rolwyddac boards data/harbour/basin.toml --seed 1'

_ROOT = os.path.normpath(os.path.join(os.path.dirname(os.path.abspath(__file__)), '..', '..', '..', '..'))
# by transport: the program's name in the clone, its name where it is installed, the variable that may name another
_PROGRAMS = {'sockets': ('boards', 'rolwyddac-boards', 'ROLWYDDAC_BOARDS'), 'mpi': ('boards_mpi', 'rolwyddac-boards-mpi', 'ROLWYDDAC_BOARDS_MPI')}
_MPIRUN = 'mpirun'
_MPICC = 'mpicc'

# the program's statuses that are not this command's: what they mean stands in its manual, and it has told what happened
_STATUSES = {0: DONE, 2: USAGE, 7: FILE}
_PATIENCE = 5.0

_COUNTS = re.compile(rb'; posted .*')

# bytes of the largest grid
_GRID_MOST = 4 * MOST_CELLS


def declare(parser: argparse.ArgumentParser) -> None:
    """Its options."""
    add_recipe(parser)
    choice = parser.add_mutually_exclusive_group(required=True)
    add_depths(parser, choice)
    choice.add_argument('--seed', metavar='NUMBER', type=word, help='a source made from this number')
    add_place(parser, needed=False)
    add_outputs(parser, needed=False)
    add_route(parser)
    parser.add_argument('--grid', metavar='FILE', help='the grid as words of 4 bytes, the low byte first')
    parser.add_argument('--hosts', metavar='FILE', help='where coordinator and boards are; all on this machine where not given')
    parser.add_argument('--key', metavar='FILE', help='the secret by which packets are signed; needed beyond this machine')
    parser.add_argument('--timeout', metavar='SECONDS', help='how long no board may come further; 10 where not given')
    parser.add_argument('--times', action='store_true', help='write how long the run and the sweep took')
    parser.add_argument('--mpi', action='store_true', help='over MPI: the boards are started by mpirun, one process a board')
    parser.add_argument('--mpirun', metavar='COMMAND', help='how --mpi starts them, as "mpirun --hostfile hosts"; mpirun where not given')


def _program(transport: str) -> str:
    """The program: named, built in the clone, or installed."""
    built, installed, variable = _PROGRAMS[transport]
    named, build = os.environ.get(variable), os.path.join(_ROOT, 'bindings', 'boards', 'build')
    if named:
        return named
    if os.access(build, os.X_OK):
        if transport == 'mpi' and not shutil.which(_MPICC):
            raise Usage('--mpi needs OpenMPI: there is no mpicc in PATH')
        out = os.path.join(_ROOT, 'target', 'boards')
        if subprocess.run([build, out, 'plain', transport], stdin=subprocess.DEVNULL, stdout=2).returncode:
            raise Usage('the program boards can\'t be built here')
        return os.path.join(out, built)
    found = shutil.which(installed) or shutil.which(installed, path=os.path.join(sys.prefix, 'bin'))
    if not found:
        has = 'the Debian package has it' if transport == 'sockets' else 'bindings/boards/build makes boards_mpi in a clone'
        raise Usage('the program %s is not in PATH; %s, and %s may name one' % (installed, has, variable))
    return found


def _start(words: argparse.Namespace, processors: int) -> List[str]:
    """The words that start the program: over MPI as many processes as the recipe has processors."""
    if not words.mpi:
        return [_program('sockets')]
    try:
        start = shlex.split(_MPIRUN if words.mpirun is None else words.mpirun)
    except ValueError as error:
        raise Usage('--mpirun %s: %s' % (words.mpirun, error)) from None
    if not start or not shutil.which(start[0]):
        raise Usage('--mpi needs OpenMPI: there is no %s in PATH' % (start[0] if start else _MPIRUN))
    return [*start, '-n', str(processors), _program('mpi')]


def _ran(command: List[str]) -> bytes:
    """What the program wrote; where it failed, its status as this command has them."""
    try:
        child = subprocess.Popen(command, stdout=subprocess.PIPE)
    except OSError as error:
        raise FileFault('%s: %s' % (command[0], error.strerror)) from None
    try:
        told = child.communicate()[0]
    except BaseException:
        # it ends its boards on its own
        child.terminate()
        child.communicate(timeout=_PATIENCE)
        raise
    if -child.returncode in (signal.SIGINT, signal.SIGTERM, signal.SIGHUP):
        raise Ended(-child.returncode)
    status = _STATUSES.get(child.returncode, REFUSED)
    if child.returncode not in (*_STATUSES, 1):
        tell('the program boards ended with status %d: bindings/boards/MANUAL.md says what it means' % child.returncode)
    if status:
        raise _Ended(status)
    return told


class _Ended(Fault):
    """The program has told what went wrong."""

    def __init__(self, status: int) -> None:
        super().__init__('the run on boards failed, and no file was written')
        self.status = status


def _swept(recipe: Recipe, words: argparse.Namespace, processors: int, folder: str) -> bytes:
    """Runs the program in a folder of its own; the grid's bytes."""
    encoded, grid = os.path.join(folder, 'recipe'), os.path.join(folder, 'grid')
    files.write(encoded, recipe.encoded)
    command = [*_start(words, processors), encoded, '--grid', grid, '--route', words.route]
    if words.seed is None:
        source = os.path.join(folder, 'source')
        files.write(source, array.array('I', source_of(recipe, words)).tobytes())
        command += ['--source', source]
    else:
        command += ['--seed', str(words.seed)]
    for option, value in (('--hosts', words.hosts), ('--key', words.key), ('--timeout', words.timeout)):
        command += [option, value] if value is not None else []
    command += ['--times'] if words.times else []
    # what is told of packets is the program's own, and not the same in two runs
    told = _COUNTS.sub(b'', _ran(command).replace((', grid in %s' % grid).encode(), b''))
    if files.STANDARD in (*words.out, words.grid, words.png):
        tell(told.decode(errors='replace').rstrip('\n'))
    else:
        files.put(told)
    return files.read(grid, _GRID_MOST)


def run(words: argparse.Namespace) -> int:
    """Does what the words say."""
    if words.seed is not None and words.value is not None:
        raise Usage('--value goes with --soundings')
    if words.mpirun is not None and not words.mpi:
        raise Usage('--mpirun goes with --mpi')
    hold_outputs(words, words.grid)
    recipe = recipe_of(words.recipe)
    try:
        processors = sizes(recipe.encoded, ROUTES[words.route]).progress
    except Refused as refused:
        raise recipe.refused(refused) from None
    if words.out or words.png:
        text_of(recipe, [0] * len(list(recipe.parts.places())), words)
    with tempfile.TemporaryDirectory(prefix='rolwyddac-') as folder:
        content = _swept(recipe, words, processors, folder)
    if words.grid:
        files.write(words.grid, content)
    if words.out or words.png:
        write_charts(recipe, list(array.array('I', content)), words)
    return DONE

