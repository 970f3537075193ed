"""What a recipe's plan has: totals, messages, owners of cells, rounds, and the part of one processor."""

from __future__ import annotations

import array
from typing import Any, List, NamedTuple, Optional, SupportsIndex

from . import calls
from .calls import sizes
from .hints import BytesLike, Grid, Numbers, Words
from .kinds import DIRECT, route_of, whole
from .recipe import lengths_of
from .words import laid, octets, shaped, timetable, zeros

# numbers of refusals
AREA = 9


class Summary(NamedTuple):
    """The totals of a plan."""

    cells: int
    processors: int
    tiles: int
    messages: int
    words: int
    steps: int


class Message(NamedTuple):
    """The line of one message."""

    sending_tile: int
    taking_tile: int
    sending_processor: int
    taking_processor: int
    words: int


class Row(NamedTuple):
    """One message's line, and where its words begin in the buffer."""

    sending_tile: int
    taking_tile: int
    sending_processor: int
    taking_processor: int
    words: int
    offset: int


class PartRow(NamedTuple):
    """A message that a processor handles: its number, its line, and where its words begin in the processor's mail."""

    message: int
    sending_tile: int
    taking_tile: int
    sending_processor: int
    taking_processor: int
    words: int
    place: int


class PartSizes(NamedTuple):
    """How long the areas of a processor's own part are: words of source, memory and mail, and its messages."""

    source: int
    memory: int
    mail: int
    messages: int


class Awaited(NamedTuple):
    """What a processor waits for: its tile, and the messages due there that are not delivered."""

    tile: int
    messages: List[int]


def summary(encoded: BytesLike, route: SupportsIndex = DIRECT) -> Summary:
    """The totals of a recipe's plan on a route."""
    recipe, word = octets('encoded', encoded), route_of(route)
    areas = sizes(recipe, word)
    return Summary(areas.source, areas.progress, *calls.EXPORTED['summary'](recipe, word).told())


def message(encoded: BytesLike, route: SupportsIndex, message: SupportsIndex) -> Message:
    """The line of a message of a recipe's plan on a route."""
    return Message(*calls.EXPORTED['message'](encoded, route_of(route), message).told())


def messages(encoded: BytesLike, route: SupportsIndex = DIRECT) -> List[Row]:
    """The rows of all messages of a recipe's plan on a route, in the order of their numbers."""
    recipe, word, width = octets('encoded', encoded), route_of(route), len(Row._fields)
    out = zeros(width * sizes(recipe, word).status)
    calls.EXPORTED['messages'](recipe, word, out)
    return [Row(*out[at:at + width]) for at in range(0, len(out), width)]


def _owners(recipe: bytes) -> Words:
    out = zeros(sizes(recipe).source)
    calls.EXPORTED['owners'](recipe, out)
    return out


def owners(encoded: BytesLike) -> Grid:
    """The processor of each cell's tile, as a grid; outside the shape the number of processors."""
    recipe = octets('encoded', encoded)
    return shaped(_owners(recipe), lengths_of(recipe))


def awaited(encoded: BytesLike, route: SupportsIndex, progress: Any, status: Any, processor: SupportsIndex) -> Awaited:
    """What a processor waits for; no messages where it can go on."""
    marks = bytearray(len(status))
    stands = calls.EXPORTED['awaited'](encoded, route_of(route), progress, status, processor, marks)
    return Awaited(stands.tile, [m for m, mark in enumerate(marks) if mark])


def part_sizes(encoded: BytesLike, route: SupportsIndex, processor: SupportsIndex) -> PartSizes:
    """How long the areas of a processor's own part are."""
    return PartSizes(*calls.EXPORTED['part_sizes'](encoded, route_of(route), processor).told())


def part_messages(encoded: BytesLike, route: SupportsIndex, processor: SupportsIndex) -> List[PartRow]:
    """The rows of the messages that a processor handles, in the order of their numbers."""
    recipe, word, width = octets('encoded', encoded), route_of(route), len(PartRow._fields)
    out = zeros(width * part_sizes(recipe, word, processor).messages)
    calls.EXPORTED['part_messages'](recipe, word, processor, out)
    return [PartRow(*out[at:at + width]) for at in range(0, len(out), width)]


def part_source(encoded: BytesLike, source: Numbers, processor: SupportsIndex) -> Words:
    """The words that a source of all cells has at the cells of a processor's tiles: what a `PartBoard` is given."""
    recipe, own = octets('encoded', encoded), whole('processor', 'u32', processor)
    part_sizes(recipe, DIRECT, own)
    words, out = laid('source', source, lengths_of(recipe)), _owners(recipe)
    if len(words) != len(out):
        raise calls.refused(AREA)
    return array.array('I', [word for word, owner in zip(words, out) if owner == own])


def hops(encoded: BytesLike, message: SupportsIndex) -> int:
    """The hops that a message of the direct route makes on the indirect one."""
    told: int = calls.EXPORTED['hops'](encoded, message).hops
    return told


def opens(encoded: BytesLike, hours: Numbers, minute: SupportsIndex, processor: SupportsIndex) -> Optional[int]:
    """The minutes until a processor opens, 0 while it is open; None where it never does."""
    recipe = octets('encoded', encoded)
    opening = calls.EXPORTED['opens'](recipe, timetable(hours, sizes(recipe).progress), minute, processor)
    minutes: int = opening.minutes
    return minutes if opening.opens else None


def rounds_of(encoded: BytesLike) -> List[int]:
    """The round of each tile."""
    recipe = octets('encoded', encoded)
    found = zeros(summary(recipe).tiles)
    calls.EXPORTED['rounds_of'](recipe, found)
    return list(found)
