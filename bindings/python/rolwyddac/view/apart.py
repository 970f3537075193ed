"""A run on boards that share no memory, whose packets may be late, lost or repeated, and which may crash and start again with nothing.

The boards' calls are the engine's. What a packet meets on its way, and when a board crashes, is drawn here or chosen by hand.
"""

from __future__ import annotations

import array
from typing import Any, Dict, List, NamedTuple, Optional, Sequence, Set

from .. import plan
from ..boards import PartBoard
from ..hints import Words
from ..kinds import DIRECT
from .differs import hold
from .scene import Dice, Event, Scene, Told, number_of

# kinds of events: a turn of a board, a post of a message, a packet that arrives or is lost, a message posted again, a crash, a start, the collecting
TURN, POST, ARRIVE, LOSE, AGAIN, CRASH, START, COLLECT = range(8)

# what became of a packet
FLYING, ARRIVED, TURNED_AWAY, LOST = range(4)

IN_FLIGHT, DELIVERED = 1, 2
NO_MAIL = 14

# words that are told of a board: its starts, whether it is up, its record
_BOARD_WORDS = 5

# how often these are drawn
_LOSE, _REPEAT, _CRASH, _WAITING = 0.08, 0.06, 0.01, 0.06
_MOST_CRASHES = 3


class Packet(NamedTuple):
    """A message on its way: its number, and its words."""

    message: int
    words: Words


class Apart:
    """Boards, and the packets between them."""

    def __init__(self, encoded: bytes, source: Sequence[int]) -> None:
        self.encoded, self.source = encoded, source
        self.rows = plan.messages(encoded, DIRECT)
        self.processors = plan.summary(encoded).processors
        self.boards: List[Optional[PartBoard]] = [self._fresh(p) for p in range(self.processors)]
        self.starts = [1] * self.processors
        self.packets: List[Packet] = []
        self.fates: List[int] = []
        self._grid = array.array('I', bytes(4 * plan.summary(encoded).cells))
        # where a board has its mark of a message; what was sent and is not posted yet; what was posted
        self._places = [{row.message: place for place, row in enumerate(board._rows)} for board in self.boards if board]
        self.sent: Set[int] = set()
        self.posted: Set[int] = set()
        self.words = array.array('I', bytes(4 * (_BOARD_WORDS * self.processors + 2 * len(self.rows))))
        for p in range(self.processors):
            self.note(p)

    def _fresh(self, processor: int) -> PartBoard:
        return PartBoard(self.encoded, DIRECT, plan.part_source(self.encoded, self.source, processor), processor)

    def record(self, processor: int) -> List[int]:
        """Tiles finished, stage, messages sent; of a board that is down zeros."""
        board = self.boards[processor]
        if board is None:
            return [0, 0, 0]
        record = board._areas.progress[0]
        return [record.finished, record.stage, record.sent]

    def mark(self, processor: int, message: int) -> int:
        """The mark that a board has of a message that it handles."""
        board = self.boards[processor]
        if board is None:
            return 0
        return board._areas.marks[self._places[processor][message]]

    def note(self, processor: int) -> List[int]:
        """Puts a board's words where all are told: of each board its starts, whether it is up, and its record; of each message the mark at its
        sender and at its taker. Gives the places."""
        first = _BOARD_WORDS * processor
        places = list(range(first, first + _BOARD_WORDS))
        self.words[first:first + _BOARD_WORDS] = array.array('I', [self.starts[processor], int(self.boards[processor] is not None), *self.record(processor)])
        for m in self._places[processor]:
            sends, mark = self.rows[m].sending_processor == processor, self.mark(processor, m)
            places.append(_BOARD_WORDS * self.processors + 2 * m + (not sends))
            self.words[places[-1]] = mark
            if sends:
                (self.sent.add if mark == IN_FLIGHT else self.sent.discard)(m)
                (self.posted.add if mark == DELIVERED else self.posted.discard)(m)
        return places

    def board_of(self, kind: int, which: int) -> Optional[int]:
        """The board whose words an event may change."""
        if kind in (TURN, CRASH, START):
            return which
        if kind in (POST, AGAIN):
            return self.rows[which].sending_processor
        return self.rows[self.packets[which].message].taking_processor if kind in (ARRIVE, LOSE) else None

    def flying(self) -> List[int]:
        """The packets that are on their way."""
        return [k for k, fate in enumerate(self.fates) if fate == FLYING]

    def _send(self, message: int, words: Words) -> int:
        self.packets.append(Packet(message, words))
        self.fates.append(FLYING)
        return len(self.packets) - 1

    def can(self, kind: int, which: int) -> bool:
        """Is there such a thing, and is the board there that would do it?"""
        row = self.rows[which] if kind in (POST, AGAIN) and which < len(self.rows) else None
        if kind in (ARRIVE, LOSE):
            return which < len(self.fates) and self.fates[which] == FLYING
        if kind in (POST, AGAIN):
            up = row is not None and self.boards[row.sending_processor] is not None
            return up and (kind == POST or which in self.posted)
        if kind == COLLECT:
            return all(self.boards)
        return which < self.processors and (self.boards[which] is None) == (kind == START)

    def take(self, kind: int, which: int) -> Event:
        """An event: its kind, what it is of, the number where the engine was asked, and the packet that it begins or ends."""
        return [kind, which, *(self._turn, self._post, self._arrive, self._lose, self._again, self._crash, self._start, self._collect)[kind](which)]

    def _turn(self, processor: int) -> List[Optional[int]]:
        board = self.boards[processor]
        return [number_of(lambda: board.turn() if board else None), None]

    def _post(self, message: int) -> List[Optional[int]]:
        board, posted = self.boards[self.rows[message].sending_processor], []
        number = number_of(lambda: posted.append(board.post(message)) if board else None)
        return [number, self._send(message, posted[0][1]) if posted else None]

    def _arrive(self, packet: int) -> List[Optional[int]]:
        message, words = self.packets[packet]
        found = self.boards[self.rows[message].taking_processor]
        if found is None:
            # nobody is there
            self.fates[packet] = LOST
            return [None, packet]
        board = found
        number = number_of(lambda: board.arrive(message, words))
        hold(number in (0, NO_MAIL), 'the arrival of message %d' % message)
        self.fates[packet] = TURNED_AWAY if number else ARRIVED
        return [number, packet]

    def _lose(self, packet: int) -> List[Optional[int]]:
        self.fates[packet] = LOST
        return [None, packet]

    def _again(self, message: int) -> List[Optional[int]]:
        """The words are still in the sender's mail: no later call of the run writes there."""
        board = self.boards[self.rows[message].sending_processor]
        row = next(row for row in board._rows if row.message == message) if board else None
        return [None, self._send(message, board._areas.mail[row.place:row.place + row.words]) if board and row else None]

    def _crash(self, processor: int) -> List[Optional[int]]:
        self.boards[processor] = None
        return [None, None]

    def _start(self, processor: int) -> List[Optional[int]]:
        self.boards[processor] = self._fresh(processor)
        self.starts[processor] += 1
        return [None, None]

    def _collect(self, _: int) -> List[Optional[int]]:
        """Each board's part goes into the grid; the first number that is not 0."""
        numbers = [number_of(lambda board=board: board.collect(self._grid)) for board in self.boards if board]  # type: ignore[misc]
        return [next((number for number in numbers if number), 0), None]

    @property
    def grid(self) -> Words:
        """What was collected."""
        return self._grid


class Drawn:
    """Draws the next event."""

    def __init__(self, apart: Apart, tiles_on: Sequence[Sequence[int]], seed: int) -> None:
        self._apart, self._tiles_on, self._dice, self._crashes = apart, tiles_on, Dice(seed), 0
        self._taken_by: Dict[int, List[int]] = {}
        for m, row in enumerate(apart.rows):
            self._taken_by.setdefault(row.taking_tile, []).append(m)

    def _due(self, processor: int) -> List[int]:
        """The messages that a board waits for."""
        finished, stage, _ = self._apart.record(processor)
        if stage or finished == len(self._tiles_on[processor]):
            return []
        return [m for m in self._taken_by.get(self._tiles_on[processor][finished], ()) if self._apart.mark(processor, m) < DELIVERED]

    def _turns(self, waiting: bool) -> List[List[int]]:
        apart = self._apart
        return [[TURN, p] for p in range(apart.processors) if apart.boards[p] is not None
                and apart.record(p)[0] < len(self._tiles_on[p]) and bool(self._due(p)) == waiting]

    def _missing(self) -> List[int]:
        """Messages that a board waits for, that were posted, and of which no packet is on its way."""
        apart = self._apart
        flying = {apart.packets[k].message for k in apart.flying()}
        due = [m for p in range(apart.processors) if apart.boards[p] is not None for m in self._due(p)]
        return [m for m in due if m not in flying and apart.can(AGAIN, m)]

    def _odd(self, flying: List[int]) -> Optional[List[int]]:
        """What a transport or a board does amiss."""
        apart, dice = self._apart, self._dice
        if flying and dice.is_so(_LOSE):
            return [LOSE, dice.one(flying)]
        if apart.posted and dice.is_so(_REPEAT):
            return [AGAIN, dice.one(sorted(apart.posted))]
        # a board that has something to lose
        begun = [p for p in range(apart.processors) if apart.boards[p] is not None and apart.record(p)[0]]
        if begun and self._crashes < _MOST_CRASHES and dice.is_so(_CRASH * (3 if not self._crashes else 1)):
            self._crashes += 1
            return [CRASH, dice.one(begun)]
        waiting = self._turns(waiting=True)
        return dice.one(waiting) if waiting and dice.is_so(_WAITING) else None

    def next(self) -> List[int]:
        """The next event."""
        apart, dice, flying = self._apart, self._dice, self._apart.flying()
        if all(apart.boards) and all(apart.record(p)[0] == len(self._tiles_on[p]) for p in range(apart.processors)):
            return [COLLECT, 0]
        odd = self._odd(flying)
        if odd:
            return odd
        ready = self._turns(waiting=False) + [[ARRIVE, k] for k in flying]
        ready += [[POST, m] for m in sorted(apart.sent)]
        down = [[START, p] for p in range(apart.processors) if apart.boards[p] is None]
        ready += down
        missing = [] if ready and not dice.is_so(_WAITING) else self._missing()
        found: List[int] = dice.one([[AGAIN, m] for m in missing] or ready)
        return found


def told_by(apart: Apart, scene: Scene, kind: int, which: int) -> Told:
    """One event, and what it left."""
    event, board = apart.take(kind, which), apart.board_of(kind, which)
    return scene.add(event, apart.words, [] if board is None else apart.note(board))


def data_of(apart: Apart, scene: Scene) -> Dict[str, Any]:
    """For the page: the packets are told by their messages."""
    return {**scene.data(), 'packets': [packet.message for packet in apart.packets]}


def scene_of(encoded: bytes, source: Sequence[int], grid: Words, tiles_on: Sequence[Sequence[int]], seed: int) -> Dict[str, Any]:
    """A run in a drawn order to its end; what is collected is the sweep's."""
    apart = Apart(encoded, source)
    drawn, scene = Drawn(apart, tiles_on, seed), Scene(apart.words)
    while not scene.events or scene.events[-1][0] != COLLECT:
        told_by(apart, scene, *drawn.next())
    hold(scene.events[-1][2] == 0 and apart.grid == grid, 'the grid that boards apart have collected')
    return data_of(apart, scene)
