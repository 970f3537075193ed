"""The areas that runs change, with their right sizes. Copies of them share nothing, and pickles have their elements."""

from __future__ import annotations

import array
import ctypes
from typing import Any, ClassVar, Dict, Iterator, List, TypeVar

from .hints import Records, Words
from .lending import PROGRESS, Progress, Sizes, lent
from .plan import PartSizes
from .words import zeros

# the status of a message, and its mark
UNSENT, IN_FLIGHT = 0, 1

Set = TypeVar('Set', bound='AreaSet')


def _made_of(kind: str, content: bytes) -> Any:
    """A new area of the kind with these bytes."""
    if kind == PROGRESS:
        return (Progress * (len(content) // ctypes.sizeof(Progress))).from_buffer_copy(content)
    return bytearray(content) if kind == 'u8' else array.array('I', content)


class AreaSet:
    """The areas that a run changes, in the order in which calls are lent them."""

    KINDS: ClassVar[Dict[str, str]]

    def __iter__(self) -> Iterator[Any]:
        return iter([getattr(self, name) for name in self.KINDS])

    def __getstate__(self) -> Dict[str, bytes]:
        areas = [lent(name, kind, getattr(self, name), False) for name, kind in self.KINDS.items()]
        return {area.name: ctypes.string_at(area.address, area.extent) for area in areas}

    def __setstate__(self, state: Dict[str, bytes]) -> None:
        for name, kind in self.KINDS.items():
            setattr(self, name, _made_of(kind, state[name]))

    def copy(self: Set) -> Set:
        """Areas with the same elements, which share nothing with these."""
        made = type(self).__new__(type(self))
        made.__setstate__(self.__getstate__())
        return made

    def __copy__(self: Set) -> Set:
        return self.copy()

    def __deepcopy__(self: Set, memo: Dict[int, Any]) -> Set:
        return self.copy()

    def __eq__(self, other: object) -> bool:
        return isinstance(other, type(self)) and self.__getstate__() == other.__getstate__()


class Areas(AreaSet):
    """The four areas that a run changes, with the sizes that a plan asks for."""

    KINDS = {'memories': 'u32', 'buffer': 'u32', 'progress': PROGRESS, 'status': 'u8'}
    memories: Words
    buffer: Words
    progress: Records
    status: bytearray

    def __init__(self, wanted: Sizes) -> None:
        self.memories = zeros(wanted.memories)
        self.buffer = zeros(wanted.buffer)
        self.progress = (Progress * wanted.progress)()
        self.status = bytearray(wanted.status)

    def in_flight(self) -> List[int]:
        """The messages in flight, by number."""
        return [m for m, status in enumerate(self.status) if status == IN_FLIGHT]


class PartAreas(AreaSet):
    """The four areas of a processor's own part that a run changes, with the sizes that the part asks for."""

    KINDS = {'memory': 'u32', 'mail': 'u32', 'progress': PROGRESS, 'marks': 'u8'}
    memory: Words
    mail: Words
    progress: Records
    marks: bytearray

    def __init__(self, wanted: PartSizes) -> None:
        self.memory = zeros(wanted.memory)
        self.mail = zeros(wanted.mail)
        self.progress = (Progress * 1)()
        self.marks = bytearray(wanted.messages)
