"""Where a run's depths come from: soundings as records or points, or a plain source of words."""

from __future__ import annotations

import argparse
import array
from typing import Any, List, Sequence, Set, Tuple

from .. import grids, plan
from ..calls import flattened
from ..refusals import Refused
from . import files
from .faults import Refusal, Usage
from .options import add_reading, layout_of, reading_of, word
from .points import RECORD_WORDS, Layout, Reading, Report, take_points
from .texts import many, of, tell
from .toml import Recipe

# bytes of all files of soundings together: they are held in memory
SOUNDINGS_MOST = 2 ** 28

_WORD = 4


def add_depths(parser: argparse.ArgumentParser, choice: argparse._MutuallyExclusiveGroup) -> None:
    """--soundings, --source and --value."""
    choice.add_argument('--soundings', metavar='FILE', nargs='+', help='soundings: records of 16 bytes, or x, y, depth, day and survey as CSV or XYZ')
    choice.add_argument('--source', metavar='FILE', help='one word of 4 bytes a cell, the low byte first')
    parser.add_argument('--value', metavar='DEPTH', type=word,
                        help='depth of cells without a sounding, as a whole number that --scale does not change; 0 where not given')
    add_reading(parser)


def flat(grid: Any) -> List[int]:
    """A grid's words, whether it is an array or lists."""
    return list(flattened(grid.tolist() if hasattr(grid, 'tolist') else grid))


def outside_of(recipe: Recipe) -> Set[int]:
    """The cells that are not in the shape."""
    owners = plan._owners(recipe.encoded)
    processors = plan.summary(recipe.encoded).processors
    return {cell for cell, owner in enumerate(owners) if owner == processors}


def _records_of(recipe: Recipe, name: str, content: bytes, words: argparse.Namespace) -> Tuple[bytes, int]:
    """A file's records, and how many points it has; of points, what is to be told of them is told."""
    if not files.is_text(content):
        return content, 0
    if words.cell is None:
        raise Usage(of(name, 'these are points with x and y, and --cell has to say how large a cell is'))
    report = report_of_points(recipe, [(name, content)], words)
    return bytes(report.records), report.points


def two_dimensions(recipe: Recipe) -> None:
    """Points have a place in a recipe of two dimensions alone."""
    if len(recipe.parts.dimensions) != 2:
        raise Refusal(of(recipe.name, 'it has %d dimensions, and points with x and y have a place in 2' % len(recipe.parts.dimensions)))


def hold_some(points: int, records: int) -> None:
    """Where all points are off the box, their place is wrong."""
    if points and not records:
        raise Refusal('no point is on the box: are --corner and --cell those of the chart?')


def told(report: Report, layout: Layout, reading: Reading, outside: Set[int]) -> List[str]:
    """What is to be told of points, a line each; outside has the cells that are not in the shape."""
    lines = []
    if report.number['off']:
        lines.append('%s off the box (%s) and left out:' % (many(report.number['off'], 'point is', 'points are'), layout))
        lines += ['  ' + line for line in report.noted('off')]
    land = sum(number for cell, number in report.cells.items() if cell in outside)
    if land:
        lines.append('%s in cells outside the shape, where no value is computed' % many(land, 'point is', 'points are'))
    if report.edges:
        lines.append('%s on an edge of a cell, and counted for the cell to the right or below' % many(report.edges, 'point is', 'points are'))
    if report.number['no day'] and reading.default_day is None:
        lines.append('%s no day, and day 0 instead, so that any other is later; --default-day gives one; the first is %s' % (
            many(report.number['no day'], 'point has', 'points have'), report.first['no day'][0]))
    if report.number['time']:
        lines.append('%s a time of the day, which is left out; the first is %s' % (
            many(report.number['time'], 'point has', 'points have'), report.first['time'][0]))
    if report.number['rounded']:
        lines.append('%s rounded to whole numbers: %s' % (
            many(report.number['rounded'], 'depth is', 'depths are'), ', '.join(report.noted('rounded'))))
    return lines


def report_of_points(recipe: Recipe, contents: Sequence[Tuple[str, bytes]], words: argparse.Namespace) -> Report:
    """The points of several files; what is to be told of them is told."""
    two_dimensions(recipe)
    layout, reading, report = layout_of(recipe, words), reading_of(words), Report()
    for name, content in contents:
        take_points(name, content, layout, reading, report)
    for line in told(report, layout, reading, outside_of(recipe)):
        tell(line)
    return report


def _explained(refused: Refused, records: bytes, cells: int) -> str:
    """Which record led to the refusal of a file."""
    if len(records) % RECORD_WORDS.size:
        return 'refused %d, %s: %d bytes are no multiple of %d' % (refused.number, refused.term, len(records), RECORD_WORDS.size)
    for at, (cell, *_) in enumerate(RECORD_WORDS.iter_unpack(records)):
        if cell >= cells:
            return 'refused %d, %s: the record at byte %d names cell %d, and the box has %d' % (
                refused.number, refused.term, RECORD_WORDS.size * at, cell, cells)
    return str(refused)


def _tell_unsounded(recipe: Recipe, records: bytes) -> None:
    """A depth of 0 that nobody measured and nobody asked for is told."""
    sounded = {cell for cell, *_ in RECORD_WORDS.iter_unpack(records)} | outside_of(recipe)
    missing = plan.summary(recipe.encoded).cells - len(sounded)
    if missing:
        tell('%s no sounding, and depth 0; --value gives another' % many(missing, 'cell of the shape has', 'cells of the shape have'))


def _sounded(recipe: Recipe, words: argparse.Namespace) -> List[int]:
    left, every, points, value = SOUNDINGS_MOST, b'', 0, words.value or 0
    for name in words.soundings:
        content = files.read(name, left)
        left -= len(content)
        records, more = _records_of(recipe, name, content, words)
        points += more
        try:
            # alone first: what is wrong with it is told with its name
            grids.soundings(recipe.encoded, records, value)
        except Refused as refused:
            raise Refusal(of(name, _explained(refused, records, plan.summary(recipe.encoded).cells))) from None
        every += records
    hold_some(points, len(every))
    if words.value is None:
        _tell_unsounded(recipe, every)
    return flat(grids.soundings(recipe.encoded, every, value))


def source_of(recipe: Recipe, words: argparse.Namespace) -> List[int]:
    """One word a cell, from the files that were named."""
    if words.soundings:
        return _sounded(recipe, words)
    if words.value is not None:
        raise Usage('--value goes with --soundings')
    return words_of(words.source, plan.summary(recipe.encoded).cells)


def words_of(name: str, cells: int) -> List[int]:
    """One word a cell, as a file has them."""
    content = files.read(name, SOUNDINGS_MOST)
    if len(content) != _WORD * cells:
        raise Refusal(of(name, '%d bytes, and %d are needed, %d a cell' % (len(content), _WORD * cells, _WORD)))
    return list(array.array('I', content))
