"""`rolwyddac soundings`: points as boats bring them, to the engine's records by cell number."""

from __future__ import annotations

import argparse
import collections
import csv
import io
from typing import Counter

from . import files
from .depths import SOUNDINGS_MOST, hold_some, report_of_points
from .faults import DONE, Refusal
from .options import add_place, add_reading
from .points import Report
from .texts import many, of, table, tell
from .toml import recipe_of

HELP = 'make records by cell number from CSV or XYZ'
MORE = '''Reads x, y, depth, day and survey, a point a line; # begins a comment, and a first line that has no number names the columns. The corner
is the lower left one of the chart; a point where two cells meet counts for the cell to the right or below. Of a cell's soundings the one with the
greatest day counts, then the greatest survey, then the latest. A date is counted in days since 1970-01-01.'''
EXAMPLE = '''rolwyddac soundings data/harbour/spring.csv data/harbour/autumn.csv -o harbour.soundings \\
    --recipe data/harbour/basin.toml --corner 0 0 --cell 10'''


def declare(parser: argparse.ArgumentParser) -> None:
    """Its options."""
    parser.add_argument('points', metavar='IN', nargs='+', help='files of points; - is standard input')
    parser.add_argument('-o', '--out', metavar='FILE', required=True, help='the records: cell, day, survey and depth, 4 bytes each; - is standard output')
    parser.add_argument('--recipe', metavar='RECIPE', required=True, help='the recipe, of two dimensions: TOML or bytes')
    add_place(parser, needed=True)
    parser.add_argument('--cells', metavar='FILE', help='write how many points fell on which cell: cell, row, column and points as CSV')
    parser.add_argument('--off', metavar='FILE', help='write which points are off the box: file, line, x and y as CSV')
    add_reading(parser)


def _off(report: Report) -> str:
    text = io.StringIO()
    writer = csv.writer(text, lineterminator='\n')
    writer.writerows([('file', 'line', 'x', 'y'), *report.off])
    return text.getvalue()


def _cells(report: Report, columns: int) -> str:
    lines = ['cell,row,column,points']
    lines += ['%d,%d,%d,%d' % (cell, *divmod(cell, columns), number) for cell, number in sorted(report.cells.items())]
    return ''.join(line + '\n' for line in lines)


def _summary(report: Report, cells: int, columns: int) -> str:
    """How many points fell on how many cells."""
    text = '%s on %d of %d cells\n' % (many(sum(report.cells.values()), 'point'), len(report.cells), cells)
    if report.cells:
        most, number = max(report.cells.items(), key=lambda item: (item[1], -item[0]))
        text += 'most on one cell: %d, cell %d (row %d, column %d)\n' % (number, most, *divmod(most, columns))
        counts: Counter[int] = collections.Counter(report.cells.values())
        text += table([('points on a cell', 'cells'), *sorted(counts.items())])
    return text


def run(words: argparse.Namespace) -> int:
    """Does what the words say."""
    outputs = [name for name in (words.out, words.cells, words.off) if name]
    files.hold_apart(outputs, [*words.points, words.recipe])
    recipe, left, contents = recipe_of(words.recipe), SOUNDINGS_MOST, []
    for name in words.points:
        content = files.read(name, left)
        left -= len(content)
        if content and not files.is_text(content):
            raise Refusal(of(name, 'no text; records of 16 bytes are soundings already'))
        contents.append((name, content))
    report = report_of_points(recipe, contents, words)
    hold_some(report.points, len(report.records))
    files.write(words.out, bytes(report.records))
    rows, columns = recipe.parts.lengths
    if words.cells:
        files.write(words.cells, _cells(report, columns).encode())
    if words.off:
        files.write(words.off, _off(report).encode('utf-8', 'surrogateescape'))
    summary = _summary(report, rows * columns, columns)
    if files.STANDARD in outputs:
        tell(summary.rstrip('\n'))
    else:
        files.say(summary)
    return DONE
