"""The types that hints name. Where Python 3.8 can't read one when it runs, it is plainer then."""

from __future__ import annotations

import array
import ctypes
from typing import TYPE_CHECKING, Any, Sequence, Union

__all__ = ['BytesLike', 'Grid', 'Numbers', 'Records', 'Words', 'Writable']

if TYPE_CHECKING:
    from _typeshed import ReadableBuffer as BytesLike, WriteableBuffer as Writable

    from .lending import Progress
    Words = array.array[int]
    Records = ctypes.Array[Progress]
else:
    BytesLike = Writable = Any
    Words = array.array
    Records = ctypes.Array

# what whole numbers are taken from: lists and tuples, nested ones too, and whatever has a buffer of them
Numbers = Union[Sequence[Any], BytesLike, Any]

# a numpy array of the recipe's dimensions, or lists of lists: Any, since only the reader of a grid knows whether numpy is there
Grid = Any
