"""The exported calls, one Python function each, by ctypes over the shared object librolwyddac.so.

An area is anything with a buffer of the right elements: a numpy array, array.array, a ctypes array, a memoryview. What a
call only reads may also be a list or a tuple; a recipe and a file of soundings are bytes-like. A call that is refused raises a
`Refused`, and no lent element has changed. What a call tells by value it returns, as a structure with the fields of rolwyddac.h.

An area that is written overlaps no other of the call, else it is a ValueError. An area is lent to one call at a time: other threads may
run during a call, and no lock is held here.
"""

from __future__ import annotations

import ctypes
import inspect
import re
from typing import Any, Dict, List, NamedTuple, SupportsIndex, Tuple

from .hints import BytesLike
from .kinds import DIRECT, route_of, whole
from .lending import Lent, Progress, Sizes, flattened, hold_apart, lent, listed, type_of
from .library import LOADED, term, text, version
from .refusals import REFUSALS, Refused, refused

__all__ = ['CALLS', 'EXPORTED', 'LONGEST_PACKET', 'PACKET_WORDS', 'REFUSALS', 'STRUCTURES', 'TOLD', 'VERSION', 'Progress', 'Refused', 'Sizes', 'Told', 'flattened', 'listed', 'refused',
           'sizes', 'term', 'text', 'version']

VERSION = '1.0.0'

# bytes of the longest packet, and its words
LONGEST_PACKET, PACKET_WORDS = 1200, 285

# As crates/calls_c exports them; tools/header.py holds this list to the sources.
CALLS = '''
rolwyddac_fresh(encoded: &[u8], route: u32, source: &[u32], memories: &mut [u32], buffer: &mut [u32], progress: &mut [Progress],
    status: &mut [u8])
rolwyddac_turn(encoded: &[u8], route: u32, source: &[u32], memories: &mut [u32], buffer: &mut [u32], progress: &mut [Progress],
    status: &mut [u8], processor: u32)
rolwyddac_turn_at(encoded: &[u8], route: u32, source: &[u32], memories: &mut [u32], buffer: &mut [u32], progress: &mut [Progress],
    status: &mut [u8], hours: &[u32], minute: u32, processor: u32)
rolwyddac_deliver(encoded: &[u8], route: u32, source: &[u32], memories: &[u32], buffer: &[u32], progress: &[Progress],
    status: &mut [u8], message: u32)
rolwyddac_collect(encoded: &[u8], route: u32, source: &[u32], memories: &[u32], buffer: &[u32], progress: &[Progress],
    status: &[u8], grid: &mut [u32])
rolwyddac_sweep(encoded: &[u8], source: &[u32], grid: &mut [u32])
rolwyddac_rounds(encoded: &[u8], source: &[u32], memories: &mut [u32], buffer: &mut [u32], progress: &mut [Progress],
    status: &mut [u8]) -> Driven
rolwyddac_rounds_of(encoded: &[u8], rounds: &mut [u32])
rolwyddac_summary(encoded: &[u8], route: u32) -> Figures
rolwyddac_message(encoded: &[u8], route: u32, message: u32) -> MessageLine
rolwyddac_hops(encoded: &[u8], message: u32) -> HopCount
rolwyddac_fresh_both(encoded: &[u8], route: u32, first_source: &[u32], first_memories: &mut [u32], first_buffer: &mut [u32],
    first_progress: &mut [Progress], first_status: &mut [u8], second_source: &[u32], second_memories: &mut [u32],
    second_buffer: &mut [u32], second_progress: &mut [Progress], second_status: &mut [u8], engaged: &mut [u32])
rolwyddac_tenant_turn(encoded: &[u8], route: u32, source: &[u32], memories: &mut [u32], buffer: &mut [u32],
    progress: &mut [Progress], status: &mut [u8], engaged: &mut [u32], other: &[Progress], tenant: u32, processor: u32)
rolwyddac_tenant_turn_at(encoded: &[u8], route: u32, source: &[u32], memories: &mut [u32], buffer: &mut [u32],
    progress: &mut [Progress], status: &mut [u8], engaged: &mut [u32], other: &[Progress], hours: &[u32], minute: u32,
    tenant: u32, processor: u32)
rolwyddac_opens(encoded: &[u8], hours: &[u32], minute: u32, processor: u32) -> Opening
rolwyddac_tenant_deliver(encoded: &[u8], route: u32, source: &[u32], memories: &[u32], buffer: &[u32], progress: &[Progress],
    status: &mut [u8], engaged: &[u32], other: &[Progress], tenant: u32, message: u32)
rolwyddac_tenant_collect(encoded: &[u8], route: u32, source: &[u32], memories: &[u32], buffer: &[u32], progress: &[Progress],
    status: &[u8], engaged: &[u32], other: &[Progress], tenant: u32, grid: &mut [u32])
rolwyddac_view(encoded: &[u8], first: &[u32], second: &[u32], tenant: u32, processor: u32) -> Viewed
rolwyddac_chart(encoded: &[u8], grid: &[u32], x: i32, y: i32, cell_size: u32, space: &mut [u8]) -> ChartText
rolwyddac_chart_length(encoded: &[u8], grid: &[u32], x: i32, y: i32, cell_size: u32) -> ChartText
rolwyddac_soundings(encoded: &[u8], file: &[u8], value: u32, source: &mut [u32])
rolwyddac_messages(encoded: &[u8], route: u32, out: &mut [u32])
rolwyddac_owners(encoded: &[u8], out: &mut [u32])
rolwyddac_awaited(encoded: &[u8], route: u32, progress: &[Progress], status: &[u8], processor: u32,
    marks: &mut [u8]) -> Waiting
rolwyddac_take_in(encoded: &[u8], route: u32, source: &[u32], memories: &[u32], buffer: &mut [u32], progress: &[Progress],
    status: &mut [u8], processor: u32, message: u32, words: &[u32])
rolwyddac_fingerprint(encoded: &[u8], route: u32) -> Mark
rolwyddac_packet(fingerprint: u64, run: u64, life: u64, kind: u32, sender: u32, taker: u32, item: u32, chunk: u32, words: &[u32],
    space: &mut [u8]) -> Written
rolwyddac_packet_read(fingerprint: u64, run: u64, packet: &[u8], words: &mut [u32]) -> PacketLine
rolwyddac_chunk(chunk: u32, chunks: u32, words: &[u32], area: &mut [u32], mask: u64) -> Taken
rolwyddac_send(encoded: &[u8], route: u32, run: u64, life: u64, buffer: &[u32], status: &[u8], processor: u32, message: u32,
    chunk: u32, space: &mut [u8]) -> Written
rolwyddac_receive(encoded: &[u8], route: u32, run: u64, source: &[u32], memories: &[u32], buffer: &mut [u32],
    progress: &[Progress], status: &mut [u8], processor: u32, packet: &[u8], parts: &mut [u32], masks: &mut [u64]) -> Received
rolwyddac_part_sizes(encoded: &[u8], route: u32, processor: u32) -> PartLengths
rolwyddac_part_messages(encoded: &[u8], route: u32, processor: u32, out: &mut [u32])
rolwyddac_part_fresh(encoded: &[u8], route: u32, memory: &mut [u32], mail: &mut [u32], progress: &mut [Progress], marks: &mut [u8],
    processor: u32)
rolwyddac_part_turn(encoded: &[u8], route: u32, source: &[u32], memory: &mut [u32], mail: &mut [u32], progress: &mut [Progress],
    marks: &mut [u8], processor: u32)
rolwyddac_part_post(encoded: &[u8], route: u32, memory: &[u32], mail: &[u32], progress: &[Progress], marks: &mut [u8], processor: u32,
    message: u32)
rolwyddac_part_arrive(encoded: &[u8], route: u32, memory: &[u32], mail: &mut [u32], progress: &[Progress], marks: &mut [u8],
    processor: u32, message: u32, words: &[u32])
rolwyddac_part_collect(encoded: &[u8], route: u32, memory: &[u32], progress: &[Progress], processor: u32, grid: &mut [u32])
rolwyddac_read(encoded: &[u8]) -> Fields
rolwyddac_write(lengths: &[u16], tiling: &[u16], counts: &[u16], components: &[u16], weights: &[u16], sides: &[u8],
    bounded: &[u8], earlier: &[u8], slopes: &[i8], offsets: &[i16], shift: u8, boundary: u32, space: &mut [u8])
'''

# What calls tell by value, held to the sources likewise.
TOLD = '''
Figures { number: u32, tiles: u32, messages: u32, words: u32, steps: u32 }
MessageLine { number: u32, sender: u32, taker: u32, from: u32, to: u32, words: u32 }
HopCount { number: u32, hops: u32 }
Driven { number: u32, rounds: u32 }
Opening { number: u32, opens: u32, minutes: u32 }
Viewed { number: u32, begin: u32, length: u32 }
ChartText { number: u32, length: u32 }
Waiting { number: u32, tile: u32 }
Mark { number: u32, fingerprint: u64 }
Written { number: u32, length: u32 }
PacketLine { number: u32, kind: u32, sender: u32, taker: u32, item: u32, chunk: u32, chunks: u32, count: u32, life: u64 }
Taken { number: u32, whole: u32, mask: u64 }
Received { number: u32, whole: u32, message: u32 }
PartLengths { number: u32, cells: u32, kept: u32, words: u32, messages: u32 }
Fields { number: u32, dimensions: u32, distances: u32, bounds: u32, boundary: u32, lengths: [u16; 4], tiling: [u16; 4], counts: [u16; 4],
    components: [u16; 32], weights: [u16; 8], offsets: [i16; 4], sides: [u8; 4], bounded: [u8; 4], earlier: [u8; 4], slopes: [i8; 4],
    shift: u8 }
'''


if version().split('.')[0] != VERSION.split('.')[0]:
    raise ImportError('librolwyddac is version %s, this package is for %s' % (version(), VERSION))


class Parameter(NamedTuple):
    """A parameter of an exported call."""

    name: str
    kind: str
    area: bool
    write: bool


def _parameter(declared: str) -> Parameter:
    name, kind = declared.strip().split(': ')
    area = re.fullmatch(r'&(mut )?\[(\w+)\]', kind)
    return Parameter(name, area[2] if area else kind, bool(area), bool(area and area[1]))


class Told(ctypes.Structure):
    """What a call tells by value: its number, then fields that are all zero where it refuses."""

    number: int

    def told(self) -> List[Any]:
        """The fields behind the number, in their order."""
        return [getattr(self, field[0]) for field in self._fields_[1:]]


def _field(declared: str) -> Tuple[str, Any]:
    name, kind = declared.strip().split(': ')
    table = re.fullmatch(r'\[(\w+); (\d+)\]', kind)
    return name, type_of(table[1]) * int(table[2]) if table else type_of(kind)


STRUCTURES: Dict[str, Any] = {
    name: type(name, (Told,), {'_fields_': [_field(declared) for declared in inside.split(',')]})
    for name, inside in re.findall(r'^(\w+) \{(.*?)\}', TOLD, flags=re.M | re.S)}


class Call:
    """An exported call, with the parameters that it has in CALLS; it raises `Refused`, and returns what the call tells by value."""

    def __init__(self, exported: str, parameters: List[Parameter], told: str) -> None:
        self.__name__ = self.__qualname__ = exported[len('rolwyddac_'):]
        self.__doc__ = '%s of rolwyddac.h; raises Refused.' % exported
        self.__signature__ = inspect.Signature([inspect.Parameter(each.name, inspect.Parameter.POSITIONAL_OR_KEYWORD) for each in parameters])
        self.parameters = parameters
        self._function = getattr(LOADED, exported)
        self._function.restype = STRUCTURES[told] if told else ctypes.c_uint32
        self._function.argtypes = [argument for each in parameters
                                   for argument in ([ctypes.c_void_p, ctypes.c_size_t] if each.area else [type_of(each.kind)])]

    def answer(self, *words: Any, **named: Any) -> Any:
        """What the call returns, a refusal too: its number, or the structure that begins with it."""
        values = self.__signature__.bind(*words, **named).arguments
        given: List[int] = []
        # areas are kept until the call is done
        areas: List[Lent] = []
        for name, kind, area, write in self.parameters:
            if area:
                areas.append(lent(name, kind, values[name], write))
                given += [areas[-1].address, areas[-1].elements]
            else:
                given.append(whole(name, kind, values[name]))
        hold_apart(areas)
        return self._function(*given)

    def __call__(self, *words: Any, **named: Any) -> Any:
        answer = self.answer(*words, **named)
        told = answer if isinstance(answer, Told) else None
        number = answer if told is None else told.number
        if number != 0:
            raise refused(number)
        return told

    def __repr__(self) -> str:
        return '<call %s%s>' % (self.__name__, self.__signature__)


EXPORTED: Dict[str, Call] = {}
for _exported, _inside, _told in re.findall(r'(\w+)\((.*?)\)(?: -> (\w+))?', CALLS, flags=re.S):
    _call = Call(_exported, [_parameter(declared) for declared in _inside.split(',')], _told)
    EXPORTED[_call.__name__] = _call

LOADED.rolwyddac_sizes.restype = ctypes.c_uint32
LOADED.rolwyddac_sizes.argtypes = [ctypes.c_void_p, ctypes.c_size_t, ctypes.c_uint32, ctypes.POINTER(Sizes)]


def sizes(encoded: BytesLike, route: SupportsIndex = DIRECT) -> Sizes:
    """How many elements each area of a recipe's plan on a route has."""
    found, area = Sizes(), lent('encoded', 'u8', encoded, False)
    number = LOADED.rolwyddac_sizes(area.address, area.elements, route_of(route), ctypes.byref(found))
    if number != 0:
        raise refused(number)
    return found
