"""Soundings as boats bring them, points with x, y and depth in CSV or XYZ, as the engine's records by cell number.

The corner is the lower left one of the chart, as in its text: column 0 begins at the corner's x, and the last row ends at its y. A point
where two cells meet is in the cell to the right of it, or below it, as GDAL has it; one on the box's own right or lower edge is in the
last column or row.
"""

from __future__ import annotations

import collections
import csv
import io
import itertools
import struct
from typing import Counter, Dict, Iterable, Iterator, List, NamedTuple, Optional, Sequence, Tuple

from .exact import WORD_MOST, Exact, day_of, number_of, word_of
from .faults import Refusal
from .files import is_utf_16
from .texts import NAMED_MOST, Bar, first_of, listed, of, shown

RECORD_WORDS = struct.Struct('<4I')

# what a column is called where no option names it; without a header they stand in this order
NAMES: Dict[str, Tuple[str, ...]] = {
    'x': ('x', 'easting', 'east'), 'y': ('y', 'northing', 'north'), 'depth': ('depth', 'z'),
    'day': ('day', 'date', 'time', 'datetime', 'timestamp'), 'survey': ('survey',)}
NEEDED = ('x', 'y', 'depth')
NO_COLUMN = 'none'

SEPARATORS = {'comma': ',', 'semicolon': ';', 'tab': '\t', 'space': ' '}

# lines between two looks at the clock
_LINES_A_LOOK = 4096

# what DOS puts at the end of a text
_END_OF_FILE = '\x1a'


class Layout(NamedTuple):
    """Where the cells of a chart lie."""

    rows: int
    columns: int
    x: int
    y: int
    size: int

    def cell_of(self, x: Exact, y: Exact) -> Tuple[Optional[int], bool]:
        """The cell of a point, None where it is off the box, and whether the point lies on an edge."""
        column, on_column = x.cells_from(self.x, self.size)
        up, on_row = y.cells_from(self.y, self.size)
        # rows are counted from the top; a point on an edge is in the row below it
        row = self.rows - 1 - up + on_row
        if on_column and column == self.columns:
            column -= 1
        if on_row and row == self.rows:
            row -= 1
        if not (0 <= column < self.columns and 0 <= row < self.rows):
            return None, False
        return row * self.columns + column, on_column or on_row

    def __str__(self) -> str:
        return 'x %d to %d, y %d to %d' % (
            self.x, self.x + self.columns * self.size, self.y, self.y + self.rows * self.size)


class Reading(NamedTuple):
    """How points are read."""

    # the column of each name that an option gives: a name, or a number counted from 1
    columns: Dict[str, str]
    separator: Optional[str]
    # words for one unit of depth
    scale: Exact
    rounds: bool
    default_day: Optional[int]
    default_survey: int


class Report:
    """What was found: records, and what is told of them."""

    def __init__(self) -> None:
        self.records = bytearray()
        self.cells: Counter[int] = collections.Counter()
        self.points = self.edges = 0
        # file, line, x and y of each point that is off the box
        self.off: List[Tuple[str, int, str, str]] = []
        # of each kind of finding how many, and the first of them in words
        self.number: Counter[str] = collections.Counter()
        self.first: Dict[str, List[str]] = {}

    def note(self, kind: str, line: _Line, what: str = '') -> None:
        """One more of a kind, with its line."""
        self.number[kind] += 1
        found = self.first.setdefault(kind, [])
        if len(found) < NAMED_MOST:
            found.append('%s: %s' % (line.where, what) if what else line.where)

    def noted(self, kind: str) -> List[str]:
        """The first of a kind, and how many more."""
        return first_of(self.first.get(kind, []), self.number[kind])


def _separator(line: str) -> str:
    """What sets the first line's fields apart."""
    return next((mark for mark in ';\t,' if mark in line), ' ')


def _lines(opened: io.BytesIO) -> Iterator[str]:
    """Lines that name their columns or have a point; others are empty, so that the numbers of lines stay right. They end with LF, CR LF or CR."""
    # spreadsheets write UTF-16 too
    encoding = 'utf-16' if is_utf_16(opened.getvalue()[:2]) else 'utf-8-sig'
    for line in io.TextIOWrapper(opened, encoding, 'surrogateescape' if encoding == 'utf-8-sig' else 'replace'):
        yield '' if line.lstrip().startswith('#') else line.rstrip('\n' + _END_OF_FILE)


def _rows(lines: Iterable[str], separator: str) -> Iterator[Tuple[int, List[str]]]:
    """Line number and fields of each line that has any."""
    if separator == ' ':
        for at, line in enumerate(lines):
            if line.split():
                yield at + 1, line.split()
        return
    reader = csv.reader(lines, delimiter=separator, skipinitialspace=True)
    while True:
        try:
            fields = next(reader)
        except StopIteration:
            return
        except csv.Error as error:
            raise Refusal('line %d: %s' % (reader.line_num, error)) from None
        fields = [field.strip() for field in fields]
        if any(fields):
            yield reader.line_num, fields


def _named(wanted: str, names: List[str], option: str) -> int:
    """The place of a column that an option names."""
    if wanted.isascii() and wanted.isdigit() and wanted.lower() not in names:
        at = int(wanted[:9]) - 1
        if 0 <= at < len(names):
            return at
        raise Refusal('--%s: there is no column %s, for the first line has %d' % (option, wanted[:9], len(names)))
    if wanted.lower() in names:
        return names.index(wanted.lower())
    raise Refusal('--%s: no column is called `%s`; the first line has %s' % (option, shown(wanted), shown(listed(names))))


def _places(first: Sequence[str], has_header: bool, asked: Dict[str, str]) -> Dict[str, int]:
    """The place of each column that is there."""
    names, found = [field.lower() for field in first], {}
    for at, (column, known) in enumerate(NAMES.items()):
        wanted = asked.get(column)
        if wanted == NO_COLUMN:
            continue
        if wanted is not None:
            found[column] = _named(wanted, names, column)
        elif has_header:
            found.update({column: names.index(name) for name in known[::-1] if name in names})
        elif at < len(first) and (column in NEEDED or not asked) and at not in found.values():
            found[column] = at
    for column in NEEDED:
        if column not in found:
            raise Refusal('no column for %s; the first line has %s; --%s NAME or NUMBER says which it is' % (
                column, shown(listed(list(first))), column))
    return found


class _Line(NamedTuple):
    """One line's point; what is wrong with it is a Refusal."""

    name: str
    number_of_line: int
    fields: List[str]
    places: Dict[str, int]
    # is a comma in a number a decimal one? So it is where columns are set apart by something else
    comma: bool

    @property
    def where(self) -> str:
        return of(self.name, 'line %d' % self.number_of_line)

    def text(self, column: str) -> str:
        at = self.places.get(column)
        return self.fields[at] if at is not None and at < len(self.fields) else ''

    def number(self, column: str) -> Exact:
        text = self.text(column)
        found = number_of(text.replace(',', '.') if self.comma else text)
        if found is None:
            raise Refusal('%s `%s` is no number' % (column, shown(text)) if text else '%s is missing' % column)
        return found

    def depth(self, reading: Reading, report: Report) -> int:
        measured = self.number('depth')
        scaled = measured.times(reading.scale)
        word = scaled.nearest()
        if not scaled.is_whole and not reading.rounds:
            raise Refusal('depth %s times %s is %s, and depths are whole numbers: give a larger --scale, or --round' % (
                measured, reading.scale, scaled))
        if not 0 <= word <= WORD_MOST:
            hint = '; --scale -%s turns heights into depths' % str(reading.scale) if word < 0 < reading.scale.digits else ''
            raise Refusal('depth %s gives %d, and depths are 0 to %d%s' % (measured, word, WORD_MOST, hint))
        if not scaled.is_whole:
            report.note('rounded', self, '%s became %d' % (scaled, word))
        return word

    def day(self, reading: Reading, report: Report) -> int:
        text = self.text('day')
        if not text:
            report.note('no day', self)
            return reading.default_day or 0
        found = day_of(text)
        if found is None:
            raise Refusal('day `%s` is neither a whole number nor a date like 2026-04-27; --day names another column, or none' % shown(text))
        if found[1]:
            report.note('time', self)
        return found[0]

    def survey(self, reading: Reading) -> int:
        text = self.text('survey')
        found = word_of(text) if text else reading.default_survey
        if found is None:
            raise Refusal('survey `%s` is no whole number from 0 to %d; --survey names another column, or none' % (shown(text), WORD_MOST))
        return found


def _take(line: _Line, layout: Layout, reading: Reading, report: Report) -> None:
    """One point more."""
    x, y = line.number('x'), line.number('y')
    cell, on_edge = layout.cell_of(x, y)
    depth, day, survey = line.depth(reading, report), line.day(reading, report), line.survey(reading)
    report.points += 1
    if cell is None:
        report.note('off', line, 'x %s, y %s' % (x, y))
        report.off.append((line.name, line.number_of_line, str(x), str(y)))
        return
    report.edges += on_edge
    report.cells[cell] += 1
    report.records += RECORD_WORDS.pack(cell, day, survey, depth)


def take_points(name: str, content: bytes, layout: Layout, reading: Reading, report: Report) -> None:
    """Adds the points of a file to a report; what is wrong with it is told line by line."""
    opened, wrong = io.BytesIO(content), Report()
    lines, begun = _lines(opened), []
    for line in lines:
        begun.append(line)
        if line.strip():
            break
    separator = reading.separator or _separator(begun[-1] if begun else '')
    places: Dict[str, int] = {}
    try:
        with Bar('reading %s' % shown(name), len(content)) as bar:
            for number, fields in _rows(itertools.chain(begun, lines), separator):
                if number % _LINES_A_LOOK == 0:
                    bar.at(opened.tell())
                if not places:
                    has_header = not all(_is_value(field, separator != ',') for field in fields if field)
                    places = _places(fields, has_header, reading.columns)
                    if has_header:
                        continue
                line_read = _Line(name, number, fields, places, separator != ',')
                try:
                    _take(line_read, layout, reading, report)
                except Refusal as fault:
                    wrong.note('wrong', line_read, str(fault))
    except Refusal as fault:
        raise Refusal(of(name, fault)) from None
    if wrong.number:
        raise Refusal('\n'.join(wrong.noted('wrong')))


def _is_value(field: str, comma: bool) -> bool:
    return number_of(field.replace(',', '.') if comma else field) is not None or day_of(field) is not None
