"""The C types of the calls' numbers and elements, and numbers held to them."""

from __future__ import annotations

import ctypes
import importlib
import operator
from typing import Any, Dict, NamedTuple, Optional, SupportsIndex, Tuple

from .hints import BytesLike


def _installed(name: str) -> Any:
    try:
        return importlib.import_module(name)
    except ImportError:
        return None


# None where it is not there: nothing here needs it
numpy: Any = _installed('numpy')


class Kind(NamedTuple):
    """A C type of whole numbers."""

    ctype: Any
    # the array module's letter of it
    code: str
    least: int
    most: int


def _unsigned(ctype: Any, code: str) -> Kind:
    return Kind(ctype, code, 0, 2 ** (8 * ctypes.sizeof(ctype)) - 1)


def _signed(ctype: Any, code: str) -> Kind:
    half = 2 ** (8 * ctypes.sizeof(ctype) - 1)
    return Kind(ctype, code, -half, half - 1)


KINDS: Dict[str, Kind] = {
    'u8': _unsigned(ctypes.c_uint8, 'B'), 'u16': _unsigned(ctypes.c_uint16, 'H'), 'u32': _unsigned(ctypes.c_uint32, 'I'),
    'u64': _unsigned(ctypes.c_uint64, 'Q'),
    'i8': _signed(ctypes.c_int8, 'b'), 'i16': _signed(ctypes.c_int16, 'h'), 'i32': _signed(ctypes.c_int32, 'i')}

# the routes
DIRECT, INDIRECT = 0, 1

# how buffers name whole numbers; how long one is says the buffer, for ctypes has its own lengths
SIGNED, UNSIGNED = tuple('bhilqn'), tuple('BHILQN')

# numbers of more bits are not printed: Python has a limit there, and so have readers
_PRINTED_BITS = 64


def unmasked(name: str, value: Any) -> None:
    """A masked array is refused: its buffer has the words below the mask too, as if they were measured."""
    if numpy is not None and isinstance(value, numpy.ma.MaskedArray):
        raise TypeError('%s: a masked array, whose mask would be lost; give .filled(value)' % name)


def held(name: str, kind: str, number: int) -> int:
    """The number, if the kind can hold it; ctypes would cut it."""
    _, _, least, most = KINDS[kind]
    if not least <= number <= most:
        told = str(number) if number.bit_length() <= _PRINTED_BITS else 'a number of %d bits' % number.bit_length()
        raise OverflowError('%s: %s is not from %d to %d' % (name, told, least, most))
    return number


def whole(name: str, kind: str, value: SupportsIndex) -> int:
    """A whole number that the kind can hold."""
    unmasked(name, value)
    try:
        number = operator.index(value)
    except TypeError:
        raise TypeError('%s: a whole number is needed, not %s' % (name, type(value).__name__)) from None
    return held(name, kind, number)


def route_of(route: SupportsIndex) -> int:
    """A route's word. The engine takes any but 0 for the indirect route; here another is a fault, such as parameters in another order."""
    word = whole('route', 'u32', route)
    if word not in (DIRECT, INDIRECT):
        raise ValueError('route: %d is neither 0, direct, nor 1, indirect' % word)
    return word


def item_size(view: memoryview, wanted: int) -> int:
    """The bytes of a buffer's element; as wanted where there is none, for Python 3.8 and 3.9 have 0 for an empty array of ctypes."""
    return view.itemsize or wanted


def format_of(view: memoryview) -> Tuple[bool, str]:
    """A buffer's format: whether its elements have their high byte first, and their letter or letters."""
    order = view.format[:1]
    return order in ('>', '!'), view.format[1:] if order in tuple('@=<>!|') else view.format


def view_of(value: Any) -> Optional[memoryview]:
    """An object's buffer, None where it has none. What is closed or released says so itself."""
    try:
        return memoryview(value)
    except TypeError:
        return None
    except ValueError:
        # numpy's, of elements that no buffer has, as dates
        if numpy is not None and isinstance(value, (numpy.ndarray, numpy.generic)):
            return None
        raise


def bytes_view(name: str, value: BytesLike) -> memoryview:
    """A look at a bytes-like object. `bytes` would take far more: a number for so many zeros, a list for its numbers."""
    unmasked(name, value)
    view = view_of(value)
    if view is None:
        raise TypeError('%s: a bytes-like object is needed, not %s' % (name, type(value).__name__))
    if format_of(view)[1] not in ('B', 'c'):
        raise TypeError('%s: a bytes-like object is needed, not elements of format %r' % (name, view.format))
    return view
