"""Words that callers give, copied for the calls, and grids as callers get them."""

from __future__ import annotations

import array
import ctypes
from collections import abc
from typing import Any, Sequence, Tuple

from .hints import BytesLike, Grid, Numbers, Words
from .kinds import SIGNED, UNSIGNED, bytes_view, format_of, held, item_size, numpy, unmasked, view_of, whole
from .lending import WORD

Shape = Tuple[int, ...]

# the array module's letters of whole numbers, with and without a sign, by the bytes of one
_CODES = {1: 'bB', 2: 'hH', 4: 'iI', 8: 'qQ'}

# a processor's hours: pairs of open and close
PAIRS, PAIR = 14, 2


def zeros(count: int) -> Words:
    """So many words, all zero."""
    return array.array('I', bytes(WORD * count))


def octets(name: str, value: BytesLike) -> bytes:
    """A copy of what a bytes-like object has."""
    return bytes_view(name, value).tobytes()


def _of_buffer(name: str, view: memoryview) -> Words:
    """A buffer's whole numbers, whatever their length and order of bytes."""
    (swapped, letter), size = format_of(view), item_size(view, WORD)
    if letter not in SIGNED + UNSIGNED or size not in _CODES:
        raise TypeError('%s: whole numbers are needed, not elements of format %r' % (name, view.format))
    numbers = array.array(_CODES[size][letter in UNSIGNED])
    numbers.frombytes(view.tobytes())
    if swapped:
        numbers.byteswap()
    if numbers.typecode == 'I':
        return numbers
    for number in (min(numbers), max(numbers)) if numbers else ():
        held(name, 'u32', number)
    return array.array('I', numbers)


def _is_row(value: Any) -> bool:
    """Is it several numbers? A string is none, and numpy's single numbers have a shape without a dimension."""
    if isinstance(value, (str, bytes, bytearray)):
        return False
    return isinstance(value, (abc.Sequence, array.array, memoryview, ctypes.Array)) or getattr(value, 'shape', ()) != ()


def _of_rows(name: str, rows: Sequence[Any]) -> Tuple[Shape, Words]:
    """The shape and the words of a list of numbers, or of rows."""
    words, shapes = array.array('I'), set()
    for row in rows:
        shape: Shape = ()
        if _is_row(row):
            shape, more = gathered(name, row)
            words.extend(more)
        else:
            words.append(whole(name, 'u32', row))
        shapes.add(shape)
    if len(shapes) > 1:
        raise ValueError('%s: rows of different lengths' % name)
    return (len(rows), *(shapes.pop() if shapes else ())), words


def gathered(name: str, values: Numbers) -> Tuple[Shape, Words]:
    """The shape of what a caller gives, and its words, always a copy: what the caller does with the array changes no run."""
    unmasked(name, values)
    if isinstance(values, (str, bytes, bytearray)):
        raise TypeError('%s: whole numbers are needed, not %s' % (name, type(values).__name__))
    if numpy is not None and hasattr(values, '__array__') and not isinstance(values, numpy.ndarray):
        # asarray would lose the mask of what it makes
        return gathered(name, numpy.asanyarray(values))
    if isinstance(values, (list, tuple)):
        return _of_rows(name, values)
    view = view_of(values)
    if view is not None:
        return tuple(view.shape or ()), _of_buffer(name, view)
    if not isinstance(values, abc.Sequence):
        raise TypeError('%s: whole numbers are needed, not %s' % (name, type(values).__name__))
    return _of_rows(name, values)


def shape_of(area: Any) -> Shape:
    """The shape of an area; what has no buffer is refused where it is lent."""
    view = view_of(area)
    return (0,) if view is None else tuple(view.shape or ())


def shape_held(name: str, shape: Shape, *wanted: Shape) -> None:
    """A shape is one of those wanted; what is flat has its length tested by the engine."""
    if len(shape) != 1 and shape not in wanted:
        raise ValueError('%s: its shape is %s, and not %s' % (name, shape, ' or '.join(str(each) for each in (*wanted, 'flat'))))


def laid(name: str, values: Numbers, *wanted: Shape) -> Words:
    """The words of what a caller gives, flat or in one of these shapes."""
    shape, words = gathered(name, values)
    shape_held(name, shape, *wanted)
    return words


def timetable(hours: Numbers, processors: int) -> Words:
    """The words of a table of hours: pairs for each processor, or these in one row, or all pairs in one column, or all in one row."""
    return laid('hours', hours, (processors, PAIRS, PAIR), (processors, PAIRS * PAIR), (processors * PAIRS, PAIR))


def shaped(words: Words, lengths: Shape) -> Grid:
    """Words as a grid of the dimensions: a numpy array, or lists of lists."""
    if numpy is not None:
        return numpy.frombuffer(words, dtype=numpy.uint32).reshape(lengths)
    rows: Any = list(words)
    for length in reversed(lengths[1:]):
        rows = [rows[at:at + length] for at in range(0, len(rows), length)]
    return rows
