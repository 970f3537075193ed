"""Grids without a run: the sweep of one processor, sources from soundings, the text for the charting desk."""

from __future__ import annotations

from typing import Any, Iterable, NamedTuple, Sequence, SupportsIndex, Union

from . import calls
from .calls import sizes
from .hints import BytesLike, Grid, Numbers
from .kinds import unmasked, view_of
from .recipe import lengths_of
from .words import gathered, laid, octets, shaped, zeros


class Sounding(NamedTuple):
    """One record of a file of soundings."""

    cell: int
    day: int
    survey: int
    depth: int


def sweep(encoded: BytesLike, source: Numbers) -> Grid:
    """The grid that one processor makes, in index order."""
    recipe = octets('encoded', encoded)
    grid, lengths = zeros(sizes(recipe).grid), lengths_of(recipe)
    calls.EXPORTED['sweep'](recipe, laid('source', source, lengths), grid)
    return shaped(grid, lengths)


def _file_of(records: Any) -> bytes:
    """The bytes of a file of soundings; a file's own bytes as they are."""
    unmasked('records', records)
    view = view_of(records)
    if view is not None and view.itemsize == 1:
        return octets('records', view)
    known = view is not None or isinstance(records, str) or hasattr(records, '__array__')
    shape, words = gathered('records', records if known else list(records))
    if shape != (0,) and (len(shape) != 2 or shape[1] != len(Sounding._fields)):
        raise ValueError('records: each has a cell, a day, a survey and a depth; the shape is %s' % (shape,))
    # words are stored low byte first, as the file has them
    return words.tobytes()


def soundings(encoded: BytesLike, records: Union[BytesLike, Iterable[Sequence[SupportsIndex]]], value: SupportsIndex) -> Grid:
    """A source filled from soundings, `Sounding`s or their bytes; a cell that no record names gets the value."""
    recipe = octets('encoded', encoded)
    source = zeros(sizes(recipe).source)
    calls.EXPORTED['soundings'](recipe, _file_of(records), value, source)
    return shaped(source, lengths_of(recipe))


def chart(encoded: BytesLike, grid: Numbers, x: SupportsIndex = 0, y: SupportsIndex = 0, cell_size: SupportsIndex = 1) -> str:
    """The text of a grid of two dimensions for the charting desk, an Esri ASCII grid. The corner and the cell size are whole numbers."""
    recipe = octets('encoded', encoded)
    sizes(recipe)
    words = laid('grid', grid, lengths_of(recipe))
    space = bytearray(calls.EXPORTED['chart_length'](recipe, words, x, y, cell_size).length)
    calls.EXPORTED['chart'](recipe, words, x, y, cell_size, space)
    return space.decode('ascii')
