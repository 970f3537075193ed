"""Areas as a call is lent them: where they begin, and how many elements they have."""

from __future__ import annotations

import array
import ctypes
import itertools
import re
from typing import Any, Iterable, Iterator, List, NamedTuple

from .hints import Words
from .kinds import KINDS, SIGNED, UNSIGNED, bytes_view, format_of, item_size, unmasked, view_of, whole

WORD = 4
PROGRESS = 'Progress'


class Progress(ctypes.Structure):
    """How far a processor is: tiles finished, stage (0 gather, 1 calculate, 2 send), messages of the current tile sent."""

    finished: int
    stage: int
    sent: int
    _fields_ = [('finished', ctypes.c_uint32), ('stage', ctypes.c_uint32), ('sent', ctypes.c_uint32)]

    def __eq__(self, other: object) -> bool:
        return isinstance(other, Progress) and bytes(self) == bytes(other)

    def __repr__(self) -> str:
        return 'Progress(finished=%d, stage=%d, sent=%d)' % (self.finished, self.stage, self.sent)


class Sizes(ctypes.Structure):
    """How many elements each area has."""

    AREAS = ('source', 'memories', 'buffer', 'progress', 'status', 'grid', 'engaged')
    source: int
    memories: int
    buffer: int
    progress: int
    status: int
    grid: int
    engaged: int
    _fields_ = [(name, ctypes.c_size_t) for name in AREAS]

    def __eq__(self, other: object) -> bool:
        return isinstance(other, Sizes) and bytes(self) == bytes(other)

    def __repr__(self) -> str:
        return 'Sizes(%s)' % ', '.join('%s=%d' % (name, getattr(self, name)) for name in self.AREAS)


class Lent(NamedTuple):
    """An area as a call is lent it."""

    name: str
    write: bool
    address: int
    elements: int
    # its bytes
    extent: int
    # what must be there until the call is done
    kept: Any


def type_of(kind: str) -> Any:
    """The C type of a kind of number or element."""
    return Progress if kind == PROGRESS else KINDS[kind].ctype


# parameters that are bytes, and no list of numbers
BYTES_LIKE = ('encoded', 'file', 'packet')

# how buffers name a record of three words
_RECORD = re.compile(r'T\{(?:[@=<]?[IL]:[^:]*:){3}\}')


def listed(name: str, kind: str, values: Iterable[Any]) -> Words:
    """A list as an array of the kind; a nested one is taken row after row."""
    return array.array(KINDS[kind].code, [whole(name, kind, value) for value in flattened(values)])


def flattened(values: Iterable[Any]) -> Iterator[Any]:
    """The numbers of a list, of lists of lists too."""
    for value in values:
        if isinstance(value, (list, tuple)):
            yield from flattened(value)
        else:
            yield value


def _fits(kind: str, view: memoryview) -> bool:
    """Has the buffer the kind's elements? A record is also three words, one behind the other."""
    swapped, letter = format_of(view)
    if kind == PROGRESS and _RECORD.fullmatch(letter):
        return item_size(view, ctypes.sizeof(Progress)) == ctypes.sizeof(Progress)
    if kind == PROGRESS and view.ndim > 1 and view.shape is not None and view.shape[-1] != len(Progress._fields_):
        return False
    signed = kind != PROGRESS and KINDS[kind].least < 0
    size = WORD if kind == PROGRESS else ctypes.sizeof(type_of(kind))
    return not swapped and letter in (SIGNED if signed else UNSIGNED) and item_size(view, size) == size


def _viewed(name: str, kind: str, area: Any) -> memoryview:
    """An area's buffer; told plainly where it has not the kind's elements."""
    if name in BYTES_LIKE:
        return bytes_view(name, area)
    unmasked(name, area)
    view = view_of(area)
    if view is None:
        raise TypeError('%s: %s has no buffer of elements' % (name, type(area).__name__))
    if not _fits(kind, view):
        wanted = 'words of a record' if kind == PROGRESS else '%s bytes each' % ctypes.sizeof(type_of(kind))
        sign = 'signed' if kind != PROGRESS and KINDS[kind].least < 0 else 'unsigned'
        raise TypeError('%s: elements must be %s, %s, not %r' % (name, sign, wanted, view.format))
    return view


# what the pointer of an area without elements points to
_SPARE = Progress()


def lent(name: str, kind: str, area: Any, write: bool) -> Lent:
    """An area for one call; it is copied where it can only be read."""
    if not write and isinstance(area, (list, tuple)) and kind != PROGRESS and name not in BYTES_LIKE:
        area = listed(name, kind, area)
    view, size = _viewed(name, kind, area), ctypes.sizeof(type_of(kind))
    if write and view.readonly:
        raise TypeError('%s: the area is written, and can only be read' % name)
    if not view.c_contiguous:
        raise ValueError('%s: the elements must lie side by side' % name)
    if view.nbytes % size:
        raise ValueError('%s: %d bytes are no whole number of elements' % (name, view.nbytes))
    if view.nbytes == 0:
        return Lent(name, write, ctypes.addressof(_SPARE), 0, 0, area)
    octets = ctypes.c_uint8 * view.nbytes
    # ctypes points into nothing that can only be read
    kept = octets.from_buffer_copy(view.tobytes()) if view.readonly else octets.from_buffer(view)
    address = ctypes.addressof(kept)
    if address % min(size, WORD):
        raise ValueError('%s: the elements are not aligned' % name)
    return Lent(name, write, address, view.nbytes // size, view.nbytes, kept)


def hold_apart(areas: List[Lent]) -> None:
    """No area that is written shares memory with another: the engine's proof takes that for granted, and no call can test it."""
    for first, second in itertools.combinations(areas, 2):
        if (first.write or second.write) and first.address < second.address + second.extent and second.address < first.address + first.extent:
            raise ValueError('%s and %s overlap, and one of them is written' % (first.name, second.name))
