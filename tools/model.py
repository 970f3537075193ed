"""A plain model of document 01 and of the requests W-201 to W-205 and W-207 to W-214, written from their text, read as
docs/DECISIONS.md says, and not from the engine.

Every set is made by trying all its candidates. It shares no code, no table and no closed form with
the engine, so that a test vector made from it tells whether the engine means what the paper says.
Comments name the section of document 01 that the code renders.

Run as a program it checks the rows and the single facts that the paper prints.
"""

import functools
import zlib
from itertools import product

WORD = 2 ** 32

# W-204: how messages travel; any other word is the indirect route too
DIRECT, INDIRECT = 0, 1


# "The recipe": records of 16 bytes

def word16(record, at):
    return record[at] + 256 * record[at + 1]


def word32(record, at):
    return word16(record, at) + 65536 * word16(record, at + 2)


def records_of(encoded):
    return [encoded[at:at + 16] for at in range(0, len(encoded), 16)]


def unnamed(kind):
    """The bytes of a record that carry nothing, and so are zero."""
    named = {1: [0, 2, 3, 4, 5, 6, 7], 2: [0, 2, 3, 4, 5, 6, 7], 3: [0, 1, 4, 5, 6, 7], 4: [0] + list(range(2, 12)),
             5: [0, 1, 2, 3, 4, 6, 7]}[kind]
    return [at for at in range(16) if at not in named]


def is_stray(encoded):
    """Line 2: kind, order, count, unnamed byte or shift not as the paper says."""
    records = records_of(encoded)
    # W-207: a distance is of kind 2 or 4, eight of both together at most
    kinds = [2 if record[0] == 4 else record[0] for record in records]
    # W-209: up to four bounds follow the dimensions
    in_order = any(
        kinds == [1] * n + [5] * bounds + [2] * distances + [3]
        for n in range(2, 5) for bounds in range(5) for distances in range(1, 9))
    if not in_order:
        return True
    if any(record[at] != 0 for record in records for at in unnamed(record[0])):
        return True
    if any(record[0] == 5 and is_faulty_bound(Bound(record), kinds.count(1)) for record in records):
        return True
    return records[-1][1] > 31


def signed(number, bits):
    return number - 2 ** bits if number >= 2 ** (bits - 1) else number


class Bound:
    """W-209: a record of kind 5."""

    def __init__(self, record):
        self.side, self.dimension, self.earlier = record[1], record[2], record[3]
        self.slope = signed(record[4], 8)
        self.offset = signed(word16(record, 6), 16)

    def is_met(self, place):
        """The component is at least, or at most, slope x the earlier component + offset."""
        limit = self.slope * place[self.earlier] + self.offset
        return place[self.dimension] >= limit if self.side == 0 else place[self.dimension] <= limit

    def values(self):
        return self.side, self.dimension, self.earlier, self.slope, self.offset


def is_faulty_bound(bound, n):
    return bound.side > 1 or bound.dimension >= n or bound.earlier >= bound.dimension or bound.slope not in (-1, 0, 1)


def components_of(record):
    if record[0] == 2:
        return list(record[2:6])
    return [word16(record, at) for at in (2, 4, 6, 8)]


class Nest:
    """What the records say, once lines 1 and 2 are false."""

    def __init__(self, encoded):
        records = records_of(encoded)
        dimensions = [record for record in records if record[0] == 1]
        distances = [record for record in records if record[0] in (2, 4)]
        self.bounds = [Bound(record) for record in records if record[0] == 5]
        self.lengths = [word16(record, 2) for record in dimensions]
        self.tiling = [word16(record, 4) for record in dimensions]
        self.counts = [word16(record, 6) for record in dimensions]
        self.components = [components_of(record) for record in distances]
        self.weights = [word16(record, 6 if record[0] == 2 else 10) for record in distances]
        self.wide = [record[0] == 4 for record in distances]
        self.shift = records[-1][1]
        self.boundary = word32(records[-1], 4)
        self.n = len(dimensions)

    def is_inside(self, place):
        """W-209: is a cell of the box in the shape?"""
        return all(bound.is_met(place) for bound in self.bounds)

    def shape(self):
        """The places of the shape's cells, in index order."""
        return [place for place in product(*[range(length) for length in self.lengths]) if self.is_inside(place)]


def all_product(numbers):
    result = 1
    for number in numbers:
        result *= number
    return result


def tile_count(nest):
    """The tiles that hold a cell; without bounds, those of each dimension by themselves."""
    if nest.bounds:
        return len(set(tuple(i // k for i, k in zip(place, nest.tiling)) for place in nest.shape()))
    return all_product(len(set(i // k for i in range(length))) for length, k in zip(nest.lengths, nest.tiling))


def is_needlessly_wide(nest):
    """Line 18 (W-207): all components of a kind 4 record fit a byte."""
    return any(wide and all(x < 256 for x in d) for wide, d in zip(nest.wide, nest.components))


def is_faulty_distance(nest):
    """Line 5."""
    for e, d in enumerate(nest.components):
        if all(x == 0 for x in d):
            return True
        if d in nest.components[:e]:
            return True
        if any(x != 0 for x in d[nest.n:]):
            return True
    return False


def is_faulty_tile(nest):
    """Line 6, as W-201 has it: a tile may be as long as a distance."""
    for j, k in enumerate(nest.tiling):
        if k == 0 or k > 1024:
            return True
        if any(k < d[j] for d in nest.components):
            return True
    return False


def is_out_of_order(nest):
    """Line 16 (W-203): dimension one isn't spread, or a spread dimension follows an unspread one."""
    spread = [p != 0 for p in nest.counts]
    return not spread[0] or any(spread[j] and not spread[i] for j in range(nest.n) for i in range(j))


def is_last_spread(nest):
    """Line 17 (W-203)."""
    return nest.counts[-1] != 0


def is_faulty_boards(nest):
    """Line 7, as W-205 leaves it: a product above 64."""
    return all_product(p for p in nest.counts if p != 0) > 64


def read(encoded):
    """The number of the first true line of those on the recipe, and the nest where there is none."""
    encoded = bytes(encoded)
    if len(encoded) == 0 or len(encoded) % 16 != 0:
        return 1, None
    if is_stray(encoded):
        return 2, None
    nest = Nest(encoded)
    if any(length == 0 or length > 1024 for length in nest.lengths):
        return 3, None
    if all_product(nest.lengths) > 16384:
        return 4, None
    if is_needlessly_wide(nest):
        return 18, None
    if nest.bounds and nest.shape() == []:
        return 20, None
    if is_faulty_distance(nest):
        return 5, None
    if is_faulty_tile(nest):
        return 6, None
    if is_out_of_order(nest):
        return 16, None
    if is_last_spread(nest):
        return 17, None
    if is_faulty_boards(nest):
        return 7, None
    if tile_count(nest) > 1024:
        return 8, None
    return 0, nest


# "Cells, tiles and boards" and "Messages"

class Message:
    """Direction is the step from the sending to the taking tile in the spread dimensions."""

    def __init__(self, sender, taker, direction, cells, offset):
        self.sender = sender
        self.taker = taker
        self.direction = direction
        self.cells = cells
        self.offset = offset


def direct_sets(place, m, held):
    """The directions and the sets of a tile's messages, each in lexicographic order; a set may be empty."""
    return [(v, held[place, v]) for v in product((0, 1), repeat=m) if any(v)]


def indirect_sets(place, m, held):
    """W-204: along each spread dimension, in their order, every cell of the messages (t', v) with a one there, t' being the tile less
    v's components before that dimension; each cell once, in index order."""
    found = []
    for q in range(m):
        cells = set()
        for v in product((0, 1), repeat=m):
            start = tuple(i - (v[j] if j < q else 0) for j, i in enumerate(place))
            if v[q] == 1 and (start, v) in held:
                cells |= set(held[start, v])
        found.append((tuple(int(j == q) for j in range(m)), sorted(cells)))
    return found


class Plan:
    """Cells, tiles, boards and messages by their numbers, each list made by trying all candidates."""

    def __init__(self, nest, route=DIRECT):
        self.nest = nest
        n = nest.n
        m = len([p for p in nest.counts if p != 0])
        # index order is lexicographic, the first dimension weighing most: product() counts so
        places = list(product(*[range(length) for length in nest.lengths]))
        self.places = places
        self.cell_number = {place: c for c, place in enumerate(places)}
        self.cells = len(places)
        # W-209: cell numbers are the box's; only cells of the shape are in a tile
        self.inside = [nest.is_inside(place) for place in places]
        # the tiles that hold a cell, in index order
        tile_place_of = [tuple(i // k for i, k in zip(place, nest.tiling)) for place in places]
        tile_places = sorted(set(tile_place_of[c] for c in range(self.cells) if self.inside[c]))
        tile_number = {place: t for t, place in enumerate(tile_places)}
        self.tiles = len(tile_places)
        self.tile_of = [tile_number[place] if inside else None for place, inside in zip(tile_place_of, self.inside)]
        self.cells_of = [[] for _ in range(self.tiles)]
        for c in range(self.cells):
            if self.inside[c]:
                self.cells_of[self.tile_of[c]].append(c)
        # boards, numbered in index order
        board_places = list(product(*[range(p) for p in nest.counts[:m]]))
        self.boards = len(board_places)
        board_number = {place: b for b, place in enumerate(board_places)}
        self.board_of = [
            board_number[tuple(place[j] % nest.counts[j] for j in range(m))] for place in tile_places]
        self.tiles_of = [
            [t for t in range(self.tiles) if self.board_of[t] == b] for b in range(self.boards)]
        # the messages, by tile, then in the route's order
        self.messages = []
        offset = 0
        held = {(place, v): [c for c in self.cells_of[t] if self.is_read_in(c, place, v, m, tile_place_of)]
                for t, place in enumerate(tile_places) for v in product((0, 1), repeat=m) if any(v)}
        for t, place in enumerate(tile_places):
            for v, cells in (direct_sets if route == DIRECT else indirect_sets)(place, m, held):
                if cells == []:
                    continue
                target = tuple(place[j] + (v[j] if j < m else 0) for j in range(n))
                # W-209: the first tile that exists at or after t + v in its column
                taker = tile_number.get(target)
                if taker is None:
                    taker = min(t for t, other in enumerate(tile_places) if other[:m] == target[:m] and other >= target)
                # W-205: the board that has the cells already is sent no message
                if self.board_of[taker] == self.board_of[t]:
                    continue
                self.messages.append(Message(t, taker, v, cells, offset))
                offset += len(cells)
        self.words = offset
        self.sends_of = [[] for _ in range(self.tiles)]
        self.due_at = [[] for _ in range(self.tiles)]
        for number, message in enumerate(self.messages):
            self.sends_of[message.sender].append(number)
            self.due_at[message.taker].append(number)
        self.steps = 2 * self.tiles + 2 * len(self.messages)

    def is_read_in(self, c, place, v, m, tile_place_of):
        """Some distance puts the cell inside the nest, which is the shape, in a tile that differs by exactly v in the spread
        dimensions."""
        for d in self.nest.components:
            reader = tuple(i + x for i, x in zip(self.places[c], d))
            if reader not in self.cell_number or not self.inside[self.cell_number[reader]]:
                continue
            tile = tile_place_of[self.cell_number[reader]]
            if all(tile[j] - place[j] == v[j] for j in range(m)):
                return True
        return False

    def value(self, source, memory, c):
        """"The sweep": the whole sum, divided by 2 to the shift, rounded down, modulo 2^32."""
        total = source[c]
        for d, weight in zip(self.nest.components, self.nest.weights):
            place = tuple(i - x for i, x in zip(self.places[c], d))
            if any(i < 0 for i in place) or not self.inside[self.cell_number[place]]:
                total += weight * self.nest.boundary
            else:
                total += weight * memory[self.cell_number[place]]
        assert total < 2 ** 64
        return total // 2 ** self.nest.shift % WORD

    def swept(self, source):
        values = [None] * self.cells
        for c in range(self.cells):
            values[c] = self.value(source, values, c) if self.inside[c] else self.nest.boundary
        return values


PLANS = {}


def plan_of(encoded, route=DIRECT):
    """The number of the lines on the recipe and the plan; kept, since every call is given the same bytes again. Line 21 (W-209) is last:
    indirect passing is wanted for a recipe with kind 5 records."""
    key = bytes(encoded), DIRECT if route == DIRECT else INDIRECT
    if key not in PLANS:
        number, nest = read(key[0])
        if number == 0 and nest.bounds and key[1] != DIRECT:
            number = 21
        PLANS[key] = (number, Plan(nest, key[1]) if number == 0 else None)
    return PLANS[key]


def hops(encoded, m):
    """W-204: the number of the call, and how many wires direct message m takes on the indirect route. W-205: there is no wire in a
    dimension with one board."""
    number, plan = plan_of(encoded)
    if number != 0:
        return number, 0
    if not m < len(plan.messages):
        return 11, 0
    return 0, len([j for j, one in enumerate(plan.messages[m].direction) if one == 1 and plan.nest.counts[j] > 1])


# "The machine"

class Areas:
    """The lent areas. A turn's three words a board stand flat in progress."""

    def __init__(self):
        self.source = []
        self.memories = []
        self.buffer = []
        self.progress = []
        self.status = []
        self.grid = []


def lengths_right(plan, areas):
    return (len(areas.source) == plan.cells
            and len(areas.memories) == plan.cells * plan.boards
            and len(areas.buffer) == plan.words
            and len(areas.progress) == 3 * plan.boards
            and len(areas.status) == len(plan.messages))


def is_fit_record(plan, progress, b):
    finished, stage, sent = progress[3 * b:3 * b + 3]
    tiles = plan.tiles_of[b]
    if finished > len(tiles):
        return False
    if finished == len(tiles):
        return stage == 0 and sent == 0
    if stage > 2:
        return False
    if stage == 2:
        return sent < len(plan.sends_of[tiles[finished]])
    return sent == 0


def is_fit(plan, areas):
    return (all(is_fit_record(plan, areas.progress, b) for b in range(plan.boards))
            and all(mark <= 3 for mark in areas.status))


class Rig:
    """W-208, what a call for an office is lent beside its own areas: a shared word a board, the other office's records; and the
    number of the office."""

    def __init__(self, engaged, other, office):
        self.engaged = engaged
        self.other = other
        self.office = office


# W-208: the shared word of a board that is engaged to no office
FREE = 2


def agrees(plan, areas, rig):
    """W-208's part of line 10: the other's records are fit; no shared word is above 2; the engaged office's stage is 1 or 2, every
    other is 0."""
    if not all(is_fit_record(plan, rig.other, b) for b in range(plan.boards)):
        return False
    for b in range(plan.boards):
        if rig.engaged[b] > FREE:
            return False
        for office, progress in ((rig.office, areas.progress), (1 - rig.office, rig.other)):
            stage = progress[3 * b + 1]
            if stage not in ((1, 2) if rig.engaged[b] == office else (0,)):
                return False
    return True


def fresh(encoded, areas, route=DIRECT):
    number, plan = plan_of(encoded, route)
    if number != 0:
        return number
    if not lengths_right(plan, areas):
        return 9
    for area in (areas.memories, areas.buffer, areas.progress, areas.status):
        for at in range(len(area)):
            area[at] = 0
    return 0


def after_sends(plan, areas, b, tile, sent):
    if sent < len(plan.sends_of[tile]):
        areas.progress[3 * b + 1] = 2
        areas.progress[3 * b + 2] = sent
    else:
        areas.progress[3 * b] += 1
        areas.progress[3 * b + 1] = 0
        areas.progress[3 * b + 2] = 0


def tested(encoded, areas, route, rig=None, others_right=lambda plan: True):
    """The lines up to 10, tested by every call on a run's state, and the plan; what else is lent counts for line 9. For an office
    (W-208) line 11 on its number stands between 9 and 10."""
    number, plan = plan_of(encoded, route)
    if number != 0:
        return number, plan
    if not lengths_right(plan, areas) or not others_right(plan):
        return 9, plan
    if rig is not None:
        if len(rig.engaged) != plan.boards or len(rig.other) != 3 * plan.boards:
            return 9, plan
        if rig.office > 1:
            return 11, plan
        if not agrees(plan, areas, rig):
            return 10, plan
    return (0 if is_fit(plan, areas) else 10), plan


# W-212: minutes of a week, windows of a board
WEEK = 10080
WINDOWS = 14


class Hours:
    """W-212, what a turn with hours is given beside the rest: the lent table, and its minute."""

    def __init__(self, table, minute):
        self.table = table
        self.minute = minute

    def windows(self, b):
        """The pairs of a board, open and close; a pair of zeros is no window."""
        pairs = [tuple(self.table[2 * at:2 * at + 2]) for at in range(WINDOWS * b, WINDOWS * (b + 1))]
        return [pair for pair in pairs if pair != (0, 0)]

    def is_right_for(self, plan):
        return len(self.table) == 2 * WINDOWS * plan.boards

    def is_faulty(self, plan):
        """Line 25: a faulty window of any board or a faulty minute."""
        return not self.minute < WEEK or any(
            not (opening < WEEK and close <= WEEK and opening < close) for b in range(plan.boards) for opening, close in self.windows(b))

    def is_open(self, b, minute=None):
        """The open minute is included and the close minute excluded."""
        minute = self.minute if minute is None else minute
        return any(opening <= minute < close for opening, close in self.windows(b))


def opens(encoded, table, minute, b):
    """The number; 1 where the board opens and 0 where it never does; the minutes until it is open, by trying each minute of a week."""
    number, plan = plan_of(encoded)
    if number != 0:
        return number, 0, 0
    hours = Hours(table, minute)
    if not hours.is_right_for(plan):
        return 9, 0, 0
    if hours.is_faulty(plan):
        return 25, 0, 0
    if not b < plan.boards:
        return 11, 0, 0
    found = [wait for wait in range(WEEK) if hours.is_open(b, (minute + wait) % WEEK)]
    return (0, 1, found[0]) if found else (0, 0, 0)


def turn_number(encoded, areas, b, route=DIRECT, rig=None, hours=None):
    """The number that a turn gives, and the plan; nothing is written."""
    number, plan = tested(encoded, areas, route, rig, lambda plan: hours is None or hours.is_right_for(plan))
    if number != 0:
        return number, plan
    if hours is not None and hours.is_faulty(plan):
        return 25, plan
    if not b < plan.boards:
        return 11, plan
    if hours is not None and not hours.is_open(b):
        return 24, plan
    finished, stage, _ = areas.progress[3 * b:3 * b + 3]
    left = finished < len(plan.tiles_of[b])
    if rig is not None and left and rig.engaged[b] == 1 - rig.office:
        return 19, plan
    if left and stage == 0 and any(areas.status[m] != 2 for m in plan.due_at[plan.tiles_of[b][finished]]):
        return 12, plan
    return (0 if left else 13), plan


def turn(encoded, areas, b, route=DIRECT, rig=None, hours=None):
    number, plan = turn_number(encoded, areas, b, route, rig, hours)
    if number != 0:
        return number
    finished, stage, sent = areas.progress[3 * b:3 * b + 3]
    tile = plan.tiles_of[b][finished]
    base = b * plan.cells
    if stage == 0:
        for m in plan.due_at[tile]:
            message = plan.messages[m]
            for j, c in enumerate(message.cells):
                areas.memories[base + c] = areas.buffer[message.offset + j]
            areas.status[m] = 3
        areas.progress[3 * b + 1] = 1
        if rig is not None:
            rig.engaged[b] = rig.office
    elif stage == 1:
        strip = areas.memories[base:base + plan.cells]
        for c in plan.cells_of[tile]:
            strip[c] = plan.value(areas.source, strip, c)
        areas.memories[base:base + plan.cells] = strip
        after_sends(plan, areas, b, tile, 0)
    else:
        m = plan.sends_of[tile][sent]
        message = plan.messages[m]
        for j, c in enumerate(message.cells):
            areas.buffer[message.offset + j] = areas.memories[base + c]
        areas.status[m] = 1
        after_sends(plan, areas, b, tile, sent + 1)
    if rig is not None and areas.progress[3 * b] > finished:
        # the tile's last step
        rig.engaged[b] = FREE
    return 0


def deliver(encoded, areas, m, route=DIRECT, rig=None):
    number, plan = tested(encoded, areas, route, rig)
    if number != 0:
        return number
    if not m < len(plan.messages):
        return 11
    if areas.status[m] != 1:
        return 14
    areas.status[m] = 2
    return 0


def collect(encoded, areas, route=DIRECT, rig=None):
    number, plan = tested(encoded, areas, route, rig, lambda plan: len(areas.grid) == plan.cells)
    if number != 0:
        return number
    if any(areas.progress[3 * b] < len(plan.tiles_of[b]) for b in range(plan.boards)):
        return 15
    for c in range(plan.cells):
        if plan.inside[c]:
            b = plan.board_of[plan.tile_of[c]]
            areas.grid[c] = areas.memories[b * plan.cells + c]
        else:
            areas.grid[c] = plan.nest.boundary
    return 0


def fresh_both(encoded, first, second, engaged, route=DIRECT):
    """W-208: a fresh start of both offices together."""
    number, plan = plan_of(encoded, route)
    if number != 0:
        return number
    if not lengths_right(plan, first) or not lengths_right(plan, second) or len(engaged) != plan.boards:
        return 9
    for areas in (first, second):
        assert fresh(encoded, areas, route) == 0
    engaged[:] = [FREE] * plan.boards
    return 0


def view(encoded, first, second, office, b):
    """W-208: the number, where the board's part begins in the strips of the office named, and the part itself, which is empty at any
    refusal. It is given no route."""
    number, plan = plan_of(encoded)
    if number != 0:
        return number, 0, []
    if len(first) != plan.cells * plan.boards or len(second) != plan.cells * plan.boards:
        return 9, 0, []
    if office > 1 or not b < plan.boards:
        return 11, 0, []
    start = b * plan.cells
    return 0, start, (first, second)[office][start:start + plan.cells]


# For a transport, where boards share no memory

def messages(encoded, route, out):
    """All messages in one call, six words each: the two tiles, their boards, how many words, and where these begin in the mail."""
    number, plan = plan_of(encoded, route)
    if number != 0:
        return number
    if len(out) != 6 * len(plan.messages):
        return 9
    out[:] = [word for message in plan.messages for word in (
        message.sender, message.taker, plan.board_of[message.sender], plan.board_of[message.taker], len(message.cells), message.offset)]
    return 0


def owners(encoded, out):
    """The board of each cell's tile; a cell outside the shape has none, and the number of boards stands for that."""
    number, plan = plan_of(encoded)
    if number != 0:
        return number
    if len(out) != plan.cells:
        return 9
    out[:] = [plan.board_of[plan.tile_of[c]] if plan.inside[c] else plan.boards for c in range(plan.cells)]
    return 0


def awaited(encoded, areas, b, marks, route=DIRECT):
    """The number, and the tile at which a board stands, 0 at a refusal; and which messages it waits for: those due there, where it is to gather,
    that are not delivered. Of the areas only records and marks are lent."""
    number, plan = plan_of(encoded, route)
    if number != 0:
        return number, 0
    count = len(plan.messages)
    if len(areas.progress) != 3 * plan.boards or len(areas.status) != count or len(marks) != count:
        return 9, 0
    if not is_fit(plan, areas):
        return 10, 0
    if not b < plan.boards:
        return 11, 0
    finished, stage, _ = areas.progress[3 * b:3 * b + 3]
    if finished == len(plan.tiles_of[b]):
        return 13, 0
    tile = plan.tiles_of[b][finished]
    marks[:] = [int(stage == 0 and m in plan.due_at[tile] and areas.status[m] != 2) for m in range(count)]
    return 0, tile


def take_in(encoded, areas, b, m, words, route=DIRECT):
    """A message taken in at the board that takes it: its words into their place, and from unsent to delivered. A number that no message of
    this board has is 11; one that came before is 14."""
    number, plan = tested(encoded, areas, route,
                          others_right=lambda plan: m >= len(plan.messages) or len(words) == len(plan.messages[m].cells))
    if number != 0:
        return number
    if m >= len(plan.messages) or plan.board_of[plan.messages[m].taker] != b:
        return 11
    if areas.status[m] != 0:
        return 14
    offset = plan.messages[m].offset
    areas.buffer[offset:offset + len(words)] = words
    areas.status[m] = 2
    return 0


# Packets: crates/packets/specs/Packet.antt has the format

MAGIC, PACKET_WORDS, LONGEST_PACKET, MOST_ITEM = int.from_bytes(b'RWP1', 'little'), 285, 1200, 64 * 285


def fingerprint(encoded, route):
    """CRC-32 below, FNV-1a above, of the recipe's bytes and then the route's four."""
    text, mixed = bytes(encoded) + route.to_bytes(4, 'little'), 0x811C9DC5
    for byte in text:
        mixed = (mixed ^ byte) * 16777619 % WORD
    return zlib.crc32(text) + WORD * mixed


def packet(mark, run, life, kind, sender, taker, item, chunk, words):
    """Number and bytes of a chunk of an item."""
    chunks = max(1, -(-len(words) // PACKET_WORDS))
    if len(words) > MOST_ITEM:
        return 9, b''
    if chunk >= chunks:
        return 11, b''
    brought = words[chunk * PACKET_WORDS:(chunk + 1) * PACKET_WORDS]
    doubles = [half for double in (mark, run, life) for half in (double % WORD, double // WORD)]
    text = b''.join(word.to_bytes(4, 'little') for word in (MAGIC, *doubles, kind, sender, taker, item, chunk, chunks, len(brought), *brought))
    return 0, text + zlib.crc32(text).to_bytes(4, 'little')


def packet_number(mark, run, text):
    """0, 26 or 27 for bytes that came."""
    if len(text) < 60 or len(text) > LONGEST_PACKET or len(text) != 60 + 4 * int.from_bytes(text[52:56], 'little'):
        return 26
    if int.from_bytes(text[:4], 'little') != MAGIC or zlib.crc32(text[:-4]) != int.from_bytes(text[-4:], 'little'):
        return 26
    return 0 if (int.from_bytes(text[4:12], 'little'), int.from_bytes(text[12:20], 'little')) == (mark, run) else 27


# For one board that is lent its own part alone: memory for nothing else

@functools.lru_cache(maxsize=None)
def own_cells(plan, b):
    """The cells of its tiles, in index order."""
    return [c for c in range(plan.cells) if plan.inside[c] and plan.board_of[plan.tile_of[c]] == b]


@functools.lru_cache(maxsize=None)
def kept_cells(plan, b):
    """The cells that it keeps words of: its own, and those that a message to one of its tiles brings."""
    brought = [message.cells for message in plan.messages if plan.board_of[message.taker] == b]
    return sorted(set(own_cells(plan, b)).union(*brought))


@functools.lru_cache(maxsize=None)
def handled(plan, b):
    """The messages that its tiles send or take."""
    return [m for m, message in enumerate(plan.messages) if b in (plan.board_of[message.sender], plan.board_of[message.taker])]


class OwnAreas:
    """What such a board is lent: a word for each own cell, a word for each kept cell, the words of its messages one after the other, its
    record's three words, a mark for each of these messages; to collect, the grid."""

    def __init__(self):
        self.source = []
        self.memory = []
        self.mail = []
        self.progress = []
        self.marks = []
        self.grid = []


def own_lengths(plan, b):
    messages = handled(plan, b)
    return [len(own_cells(plan, b)), len(kept_cells(plan, b)), sum(len(plan.messages[m].cells) for m in messages), len(messages)]


def is_own_part(plan, b, own):
    _, kept, words, messages = own_lengths(plan, b)
    return [len(own.memory), len(own.mail), len(own.progress), len(own.marks)] == [kept, words, 3, messages]


def own_areas_for(plan, b, source):
    """A board's part of a fresh start, over its own cells of a source of all cells."""
    own = OwnAreas()
    _, kept, words, messages = own_lengths(plan, b)
    own.source = [source[c] for c in own_cells(plan, b)]
    own.memory, own.mail, own.progress, own.marks, own.grid = [0] * kept, [0] * words, [0] * 3, [0] * messages, [0] * plan.cells
    return own


def widened(plan, b, own):
    """Areas of all boards that have this part, and are as a fresh start in every other word."""
    areas = areas_for(plan, [0] * plan.cells)
    for c, word in zip(own_cells(plan, b), own.source):
        areas.source[c] = word
    for c, word in zip(kept_cells(plan, b), own.memory):
        areas.memories[b * plan.cells + c] = word
    areas.progress[3 * b:3 * b + 3] = own.progress
    at = 0
    for m, mark in zip(handled(plan, b), own.marks):
        areas.status[m] = mark
        count = len(plan.messages[m].cells)
        areas.buffer[plan.messages[m].offset:plan.messages[m].offset + count] = own.mail[at:at + count]
        at += count
    return areas


def narrow(plan, b, areas, own):
    """Back into the part what these areas have there."""
    messages = handled(plan, b)
    own.memory[:] = [areas.memories[b * plan.cells + c] for c in kept_cells(plan, b)]
    own.mail[:] = [areas.buffer[plan.messages[m].offset + j] for m in messages for j in range(len(plan.messages[m].cells))]
    own.progress[:] = areas.progress[3 * b:3 * b + 3]
    own.marks[:] = [areas.status[m] for m in messages]


def own_number(encoded, route, b, is_right):
    """The lines up to 9, and the plan: the board is asked for before the lengths, which are its own."""
    number, plan = plan_of(encoded, route)
    if number != 0:
        return number, plan
    if not b < plan.boards:
        return 11, plan
    return (0 if is_right(plan) else 9), plan


def on_widened(encoded, own, b, route, is_right, call):
    """What a call gives and leaves on areas that have this part."""
    number, plan = own_number(encoded, route, b, lambda plan: is_own_part(plan, b, own) and is_right(plan))
    if number != 0:
        return number
    areas = widened(plan, b, own)
    number = call(areas)
    if number == 0:
        narrow(plan, b, areas, own)
    return number


def part_sizes(encoded, b, route=DIRECT):
    """The number, and four words, 0 at a refusal: its own cells, the cells it keeps, the words of its messages, and how many these are."""
    number, plan = own_number(encoded, route, b, lambda plan: True)
    return number, list(own_lengths(plan, b)) if number == 0 else [0] * 4


def part_messages(encoded, b, out, route=DIRECT):
    """A row of seven words for each of its messages: number, the two tiles, their boards, how many words, and where these begin in its mail."""
    number, plan = own_number(encoded, route, b, lambda plan: len(out) == 7 * len(handled(plan, b)))
    if number != 0:
        return number
    rows, at = [], 0
    for m in handled(plan, b):
        message = plan.messages[m]
        rows += [m, message.sender, message.taker, plan.board_of[message.sender], plan.board_of[message.taker], len(message.cells), at]
        at += len(message.cells)
    out[:] = rows
    return 0


def part_fresh(encoded, own, b, route=DIRECT):
    """No source is lent."""
    return on_widened(encoded, own, b, route, lambda plan: True, lambda areas: fresh(encoded, areas, route))


def part_turn(encoded, own, b, route=DIRECT):
    return on_widened(encoded, own, b, route, lambda plan: len(own.source) == len(own_cells(plan, b)), lambda areas: turn(encoded, areas, b, route))


def part_post(encoded, own, b, m, route=DIRECT):
    """Message m is handed to a transport: delivered, as far as its sender knows. Of a message that is another's it has no mark, which is 14."""
    return on_widened(encoded, own, b, route, lambda plan: True, lambda areas: deliver(encoded, areas, m, route))


def part_arrive(encoded, own, b, m, words, route=DIRECT):
    return on_widened(encoded, own, b, route, lambda plan: m >= len(plan.messages) or len(words) == len(plan.messages[m].cells),
                      lambda areas: take_in(encoded, areas, b, m, words, route))


def part_collect(encoded, own, b, route=DIRECT):
    """Of the part only memory and record are lent. The words of its own cells and of the cells outside the shape are written, no other."""
    number, plan = own_number(encoded, route, b, lambda plan: [len(own.memory), len(own.progress), len(own.grid)] == [
        len(kept_cells(plan, b)), 3, plan.cells])
    if number != 0:
        return number
    progress = [0] * (3 * b) + list(own.progress)
    if not is_fit_record(plan, progress, b):
        return 10
    if own.progress[0] < len(plan.tiles_of[b]):
        return 15
    kept = dict(zip(kept_cells(plan, b), own.memory))
    for c in range(plan.cells):
        if c in own_cells(plan, b):
            own.grid[c] = kept[c]
        elif not plan.inside[c]:
            own.grid[c] = plan.nest.boundary
    return 0


def sweep(encoded, source, grid):
    """The sequential sweep as a call: lines 1 to 8, then the lengths of the two areas it is lent."""
    number, plan = plan_of(encoded)
    if number != 0:
        return number
    if len(source) != plan.cells or len(grid) != plan.cells:
        return 9
    grid[:] = plan.swept(source)
    return 0


# W-210: beds from soundings

def is_ragged(content):
    return len(content) % 16 != 0


def soundings_of(content):
    """The records of a file: cell number, survey day, survey number, depth."""
    return [tuple(word32(record, at) for at in (0, 4, 8, 12)) for record in records_of(content)]


def soundings(encoded, content, value, source):
    """Fills the source from a file of soundings; a ragged file is line 1's, before the recipe's other lines, and may be empty."""
    if is_ragged(content):
        return 1
    number, nest = read(encoded)
    if number != 0:
        return number
    if len(source) != all_product(nest.lengths):
        return 9
    records = soundings_of(content)
    if any(not cell < len(source) for cell, _, _, _ in records):
        return 22
    for c in range(len(source)):
        # the greatest day, then the greatest survey number, then the latest in the file
        named = [(day, survey, at, depth) for at, (cell, day, survey, depth) in enumerate(records) if cell == c]
        source[c] = max(named)[3] if named else value
    return 0


# W-211: the grid for the charting desk

NODATA = -9999


def chart_text(nest, grid, x, y, size):
    """An Esri ASCII grid of two dimensions; corners and cell size are whole numbers."""
    rows, columns = nest.lengths
    lines = ['ncols %d' % columns, 'nrows %d' % rows, 'xllcorner %d' % x, 'yllcorner %d' % y, 'cellsize %d' % size,
             'NODATA_value %d' % NODATA]
    for i in range(rows):
        lines.append(' '.join(str(grid[columns * i + j] if nest.is_inside((i, j)) else NODATA) for j in range(columns)))
    return ''.join(line + '\n' for line in lines).encode()


def chart_number(encoded, grid, size, fits):
    """The lines of both calls below: 23 before 9; whether the text fits is asked last."""
    number, nest = read(encoded)
    if number != 0:
        return number, nest
    if nest.n != 2 or not 1 <= size <= 65535:
        return 23, nest
    return (0 if len(grid) == all_product(nest.lengths) and fits(nest) else 9), nest


def chart(encoded, grid, x, y, size, space):
    """The number and the text's length, which is 0 at a refusal; bytes of the lent space behind the text are as before."""
    number, nest = chart_number(encoded, grid, size, lambda nest: len(chart_text(nest, grid, x, y, size)) <= len(space))
    if number != 0:
        return number, 0
    text = chart_text(nest, grid, x, y, size)
    space[:len(text)] = text
    return 0, len(text)


def chart_length(encoded, grid, x, y, size):
    """The number and the length alone, without a space."""
    number, nest = chart_number(encoded, grid, size, lambda nest: True)
    return number, 0 if number != 0 else len(chart_text(nest, grid, x, y, size))


# Whole runs and the two programs

def areas_for(plan, source):
    areas = Areas()
    areas.source = list(source)
    areas.memories = [0] * (plan.cells * plan.boards)
    areas.buffer = [0] * plan.words
    areas.progress = [0] * (3 * plan.boards)
    areas.status = [0] * len(plan.messages)
    areas.grid = [0] * plan.cells
    return areas


class Offices:
    """W-208: the areas of both offices and the shared words."""

    def __init__(self, plan, first, second):
        self.areas = [areas_for(plan, first), areas_for(plan, second)]
        self.engaged = [FREE] * plan.boards

    def rig(self, office):
        return Rig(self.engaged, self.areas[1 - office].progress, office)

    def call(self, encoded, office, event, route=DIRECT, hours=None):
        """An event of an office, ('turn', b) or ('deliver', m); mail is delivered at any hour."""
        kind, which = event
        if kind == 'turn':
            return turn(encoded, self.areas[office], which, route, self.rig(office), hours)
        return deliver(encoded, self.areas[office], which, route, self.rig(office))


def run(encoded, areas, events, route=DIRECT):
    """A fresh start, then turns ('turn', b) and deliveries ('deliver', m): the numbers given."""
    answers = [fresh(encoded, areas, route)]
    for kind, which in events:
        answers.append((turn if kind == 'turn' else deliver)(encoded, areas, which, route))
    return answers


def drive(encoded, areas, falling, route=DIRECT):
    """Turns in rising or falling order; when none can be taken each mailed message is delivered; until nothing can be done."""
    _, plan = plan_of(encoded, route)
    order = list(range(plan.boards))
    if falling:
        order.reverse()
    steps = 0
    fresh(encoded, areas, route)
    while True:
        done = len([b for b in order if turn(encoded, areas, b, route) == 0])
        if done == 0:
            mailed = [m for m in range(len(plan.messages)) if areas.status[m] == 1]
            done = len([m for m in mailed if deliver(encoded, areas, m, route) == 0])
        if done == 0:
            return steps
        steps += done


# W-213: rounds

def rounds(encoded, areas):
    """The driver: the number, and the rounds that it took, 0 at a refusal. A board that could gather at a round's start does its whole
    tile; then all mail in flight is delivered."""
    number = fresh(encoded, areas)
    if number != 0:
        return number, 0
    plan = plan_of(encoded)[1]
    told = 0
    while True:
        ready = [b for b in range(plan.boards) if turn_number(encoded, areas, b)[0] == 0]
        if ready == []:
            return 0, told
        for b in ready:
            finished = areas.progress[3 * b]
            while areas.progress[3 * b] == finished:
                assert turn(encoded, areas, b) == 0
        for m in range(len(plan.messages)):
            if areas.status[m] == 1:
                assert deliver(encoded, areas, m) == 0
        told += 1


def tile_rounds(plan):
    """A tile's round: one more than the latest among its board's previous tile and the tiles that mail to it, or 1."""
    found = []
    for t in range(plan.tiles):
        own = plan.tiles_of[plan.board_of[t]]
        before = own[:own.index(t)][-1:] + [plan.messages[m].sender for m in plan.due_at[t]]
        found.append(1 + max([found[other] for other in before], default=0))
    return found


def rounds_of(encoded, lent):
    """Each tile's round, into a lent area of one word a tile."""
    number, plan = plan_of(encoded)
    if number != 0:
        return number
    if len(lent) != plan.tiles:
        return 9
    lent[:] = tile_rounds(plan)
    return 0


def plan_text(encoded, route=DIRECT):
    """What the plan printer writes, which stays with direct passing; on the indirect route the same figures and lines of its messages."""
    encoded = bytes(encoded)
    number, plan = plan_of(encoded, route) if len(encoded) <= 512 else (1, None)
    if number != 0:
        return 'refused %d\n' % number
    text = 'tiles %d messages %d words %d steps %d\n' % (plan.tiles, len(plan.messages), plan.words, plan.steps)
    for m, message in enumerate(plan.messages):
        text += '%d %d %d %d %d %d\n' % (
            m, message.sender, message.taker, plan.board_of[message.sender], plan.board_of[message.taker],
            len(message.cells))
    return text


def hops_text(encoded):
    """The hops of every direct message, in a line; nothing where the recipe is refused."""
    number, plan = plan_of(encoded)
    if number != 0:
        return ''
    return 'hops' + ''.join(' %d' % hops(encoded, m)[1] for m in range(len(plan.messages))) + '\n'


def compare_text(encoded):
    """What the second program writes."""
    encoded = bytes(encoded)
    number, plan = plan_of(encoded) if len(encoded) <= 512 else (1, None)
    if number != 0:
        return 'refused %d\n' % number
    if plan.cells > 1024 or plan.cells * plan.boards > 4096:
        return 'beyond\n'
    text = ''
    for source in ([1] * plan.cells, [c + 1 for c in range(plan.cells)]):
        for falling in (False, True):
            areas = areas_for(plan, source)
            drive(encoded, areas, falling)
            same = collect(encoded, areas) == 0 and areas.grid == plan.swept(source)
            text += 'agree\n' if same else 'differ\n'
    return text


# Recipes as bytes

def distance_record(d, weight, wide):
    """A distance as a record of kind 4 or of kind 2."""
    d = list(d) + [0] * (4 - len(d))
    if wide:
        return bytes([4, 0]) + b''.join(x.to_bytes(2, 'little') for x in d) + weight.to_bytes(2, 'little') + bytes(4)
    return bytes([2, 0]) + bytes(d) + weight.to_bytes(2, 'little') + bytes(8)


def bound_record(side, dimension, earlier, slope, offset):
    return bytes([5, side, dimension, earlier, slope % 256, 0]) + (offset % 65536).to_bytes(2, 'little') + bytes(8)


LOWER, UPPER = 0, 1


def encode(lengths, tiling, counts, distances, weights=None, shift=0, boundary=0, bounds=()):
    """Distances are tuples of up to four components, written as kind 4 only where kind 2 can't hold them; weights are 1 unless
    given. A bound is a side, the dimension bounded, an earlier one, a slope and an offset."""
    weights = weights or [1] * len(distances)
    out = b''
    for length, k, p in zip(lengths, tiling, counts):
        out += bytes([1, 0]) + length.to_bytes(2, 'little') + k.to_bytes(2, 'little') + p.to_bytes(2, 'little') + bytes(8)
    out += b''.join(bound_record(*bound) for bound in bounds)
    for d, weight in zip(distances, weights):
        out += distance_record(d, weight, any(x > 255 for x in d))
    return out + bytes([3, shift, 0, 0]) + boundary.to_bytes(4, 'little') + bytes(8)


def values_of(nest):
    """What a recipe says, as the writer is given it."""
    bounds = [bound.values() for bound in nest.bounds]
    return nest.lengths, nest.tiling, nest.counts, nest.components, nest.weights, nest.shift, nest.boundary, bounds


def write(space, lengths, tiling, counts, components, weights, shift, boundary, bounds):
    """W-202's writer, with kind 4 (W-207) and kind 5 (W-209): the number that the reader would give, then 9; the recipe in the lent
    space. Values are as wide as their fields."""
    encoded = encode(lengths, tiling, counts, components, weights, shift, boundary, bounds)
    number = read(encoded)[0]
    if number != 0:
        return number
    if len(space) != len(encoded):
        return 9
    space[:] = encoded
    return 0


def sounding_records(*records):
    """A file of soundings as bytes."""
    return b''.join(word.to_bytes(4, 'little') for record in records for word in record)


ROWS = {
    'A': encode([8, 8], [2, 2], [2, 0], [(1, 0), (0, 1), (1, 1)]),
    'B': encode([8, 8], [4, 4], [2, 0], [(2, 1)]),
    'C': encode([8, 8, 8], [4, 4, 4], [2, 2, 0], [(2, 1, 0)]),
    'D': encode([4, 1], [2, 1], [2, 0], [(1, 0)]),
    'E': encode([5, 1], [2, 1], [2, 0], [(1, 0)]),
    'F': encode([1, 2], [2, 1], [2, 0], [(1, 0)]),
    'G': encode([4, 1], [1, 1], [2, 0], [(1, 0)]),
    'H': encode([4, 1], [2, 1], [1, 0], [(1, 0)]),
}


def expect(what, got, wanted):
    if got != wanted:
        raise SystemExit('%s: got %r, the paper has %r' % (what, got, wanted))


def check_paper():
    """The rows and facts that document 01 prints, row G as W-201 has it and row H as W-205 has it."""
    totals = {
        'A': (16, 12, 24, 56), 'B': (4, 2, 14, 12), 'C': (8, 10, 144, 36),
        'D': (2, 1, 1, 6), 'E': (3, 2, 2, 10), 'F': (2, 0, 0, 4), 'G': (4, 3, 3, 14), 'H': (2, 0, 0, 4)}
    for row, wanted in totals.items():
        expect('row ' + row, plan_text(ROWS[row]).split('\n')[0], 'tiles %d messages %d words %d steps %d' % wanted)
    for counts, number in (((0, 2), 16), ((2, 0, 2), 16), ((2, 2), 17), ((1, 0), 0), ((65, 0), 7)):
        expect('counts %s' % (counts,), read(encode([4] * 3, [2] * 3, counts, [(1, 0)]))[0], number)
    # every reader of tile 0's cells is in tile 3, and tile 2 takes the message
    unread = encode([4, 4], [2, 2], [2, 0], [(2, 2)])
    expect('a message that its taker does not read', plan_text(unread), 'tiles 4 messages 1 words 4 steps 10\n0 0 2 0 1 4\n')
    expect('lines of B', plan_text(ROWS['B']).split('\n')[1:3], ['0 0 2 0 1 8', '1 1 3 0 1 6'])
    expect('text of D', plan_text(ROWS['D']), 'tiles 2 messages 1 words 1 steps 6\n0 0 1 0 1 1\n')
    expect('last tile of E', len(plan_of(ROWS['E'])[1].cells_of[2]), 1)
    plan = plan_of(ROWS['D'])[1]
    areas = areas_for(plan, [1] * 4)
    expect('first turn of board 1 in D', run(ROWS['D'], areas, [('turn', 1)]), [0, 12])
    expect('steps of D', drive(ROWS['D'], areas, False), 6)
    expect('collecting D', collect(ROWS['D'], areas), 0)
    expect('values of D', areas.grid, [1, 2, 3, 4])
    expect('sweep of D', plan.swept([1] * 4), [1, 2, 3, 4])
    areas = areas_for(plan_of(ROWS['F'])[1], [1] * 2)
    expect('board 1 in F', run(ROWS['F'], areas, [('turn', 1)]), [0, 13])
    expect('128,128', read(encode([128, 128], [8, 8], [2, 0], [(1, 0)]))[0], 0)
    expect('128,129', read(encode([128, 129], [8, 8], [2, 0], [(1, 0)]))[0], 4)
    for row in ROWS:
        expect('row %s both ways' % row, compare_text(ROWS[row]), 'agree\n' * 4)
        for falling in (False, True):
            areas = areas_for(plan_of(ROWS[row])[1], [1] * plan_of(ROWS[row])[1].cells)
            expect('steps of %s driven' % row, drive(ROWS[row], areas, falling), totals[row][3])
    check_routes()
    check_single_boards()
    check_wide_distances()
    check_offices()
    check_shapes()
    check_soundings()
    check_charts()
    check_hours()
    check_rounds()
    check_transport()
    check_parts()


def check_routes():
    """What W-204 prints, and its places that a reader passes over."""
    lines = plan_text(ROWS['C'], INDIRECT).split('\n')
    expect('row C, indirect', lines[0], 'tiles 8 messages 8 words 160 steps 32')
    # dimension one before dimension two; tile 4 passes on the 8 corner cells that tile 0 sent it, tile 5 those of tile 1
    expect('lines of C, indirect', lines[1:-1],
           ['0 0 4 0 2 32', '1 0 2 0 1 8', '2 1 5 0 2 32', '3 1 3 0 1 8', '4 2 6 1 3 24', '5 3 7 1 3 24', '6 4 6 2 3 16', '7 5 7 2 3 16'])
    expect('row C, any other word', plan_text(ROWS['C'], 4294967295), plan_text(ROWS['C'], INDIRECT))
    expect('hops of C', hops_text(ROWS['C']), 'hops 1 1 2 1 1 2 1 1 1 1\n')
    expect('hops beyond the last message', [hops(ROWS['C'], m) for m in (9, 10, 4294967295)], [(0, 1), (11, 0), (11, 0)])
    expect('hops of a refused recipe', hops(encode([4, 1], [2, 1], [65, 0], [(1, 0)]), 0), (7, 0))
    # a short edge tile, and a full one under W-201: the message is there for the forwarded cells alone
    for recipe, cells in ((encode([3, 4, 1], [2, 2, 1], [2, 2, 0], [(1, 1, 0)]), [5]),
                          (encode([4, 4, 1], [2, 2, 1], [2, 2, 0], [(2, 2, 0)]), [0, 1, 4, 5])):
        plan = plan_of(recipe, INDIRECT)[1]
        alone = [message for message in plan.messages if not set(message.cells) & set(plan.cells_of[message.sender])]
        expect('forwarded alone', [(message.sender, message.taker, message.cells) for message in alone], [(2, 3, cells)])
    expect('one spread dimension', [plan_text(ROWS[row], INDIRECT) for row in 'ABDEFGH'], [plan_text(ROWS[row]) for row in 'ABDEFGH'])
    for row in ROWS:
        plan = plan_of(ROWS[row], INDIRECT)[1]
        for falling in (False, True):
            source = [c + 1 for c in range(plan.cells)]
            areas = areas_for(plan, source)
            expect('steps of %s driven, indirect' % row, drive(ROWS[row], areas, falling, INDIRECT), plan.steps)
            expect('collecting %s, indirect' % row, (collect(ROWS[row], areas, INDIRECT), areas.grid), (0, plan.swept(source)))


def check_single_boards():
    """W-205: one board in a spread dimension, first or second."""
    def by_both(counts):
        recipe = encode([4, 4, 1], [2, 2, 1], counts, [(1, 1, 0)])
        return [plan_text(recipe, route).split('\n', 1) for route in (DIRECT, INDIRECT)] + [hops_text(recipe)]

    # directions (0,1) and (1,1) both go to the other board and stay two messages; along dimension one nothing is mailed, and
    # tile 2 passes on the corner cell of tile 0, which its board has
    expect('counts 1,2,0', by_both([1, 2, 0]), [
        ['tiles 4 messages 3 words 3 steps 14', '0 0 1 0 1 1\n1 0 3 0 1 1\n2 2 3 0 1 1\n'],
        ['tiles 4 messages 2 words 3 steps 12', '0 0 1 0 1 1\n1 2 3 0 1 2\n'],
        'hops 1 1 1\n'])
    # here tile 0 sends the corner's cell along dimension one, and tile 3 has it from tile 2 without a message
    expect('counts 2,1,0', by_both([2, 1, 0]), [
        ['tiles 4 messages 3 words 3 steps 14', '0 0 2 0 1 1\n1 0 3 0 1 1\n2 1 3 0 1 1\n'],
        ['tiles 4 messages 2 words 3 steps 12', '0 0 2 0 1 2\n1 1 3 0 1 1\n'],
        'hops 1 1 1\n'])
    expect('counts 1,1,0', by_both([1, 1, 0]), [['tiles 4 messages 0 words 0 steps 8', '']] * 2 + ['hops\n'])


def check_wide_distances():
    """W-207: kinds 2 and 4 beside each other, and where 18 stands."""
    def number(d, wide=True, others=((1, 0),), tiling=(1024, 8)):
        whole = encode([8, 8], tiling, [2, 0], list(others) + [(300, 0)])
        return read(whole[:-32] + distance_record(d, 1, wide) + whole[-16:])[0]

    expect('kind 4', [number((256, 0)), number((0, 256), tiling=(8, 1024)), number((1024, 0)), number((1025, 0))], [0, 0, 0, 6])
    expect('kind 4 that fits a byte', [number((255, 0)), number((0, 0)), number((1, 0)), number((1, 0), False)], [18, 18, 18, 5])
    expect('kind 4 beyond the last dimension', [number((1, 0, 300)), number((1, 0, 255)), number((1, 0, 300, 1))], [5, 18, 5])
    expect('kind 4 twice', number((300, 0), others=((300, 0),)), 5)
    expect('eight and nine of both', [number((300, 0), others=[(x, 0) for x in range(252, 252 + more)]) for more in (7, 8)], [0, 2])
    # 100 cells reach the second tile, and nothing is lost of the component's high byte
    channel = encode([400, 1], [300, 1], [2, 0], [(300, 0)])
    expect('a channel', plan_text(channel), 'tiles 2 messages 1 words 100 steps 6\n0 0 1 0 1 100\n')
    expect('its values', plan_of(channel)[1].swept([1] * 400), [1] * 300 + [2] * 100)
    expect('a channel both ways', compare_text(channel), 'agree\n' * 4)


def check_offices():
    """W-208: both offices on row D, whose board 0 mails board 1 one message; every line beside its neighbours."""
    encoded = ROWS['D']
    plan = plan_of(encoded)[1]
    both = Offices(plan, [1] * 4, [5, 6, 7, 8])
    both.engaged[:] = [7, 0]
    expect('a fresh start of both', (fresh_both(encoded, *both.areas, both.engaged), both.engaged), (0, [2, 2]))

    def given(office, *events):
        return [both.call(encoded, office, event) for event in events]

    board0, board1, mail = ('turn', 0), ('turn', 1), ('deliver', 0)
    expect('a gather engages', (given(0, board0), both.engaged), ([0], [0, 2]))
    expect('held', (given(1, board0), given(0, board0), given(1, board0)), ([19], [0], [19]))
    expect('the last step frees', (given(0, board0), both.engaged), ([0], [2, 2]))
    expect('then the other gathers', (given(1, board0), both.engaged), ([0], [1, 2]))
    expect('held and finished', given(0, board0), [13])
    expect('waiting, nobody holds', given(1, board1), [12])
    expect('mail of an office is its own', (given(1, mail), given(0, mail, mail)), ([14], [0, 14]))
    expect('the other board', (given(0, board1), both.engaged), ([0], [1, 0]))
    expect('held and waiting', given(1, board1), [19])
    expect('to the end', (given(0, board1), given(1, board0, board0, mail, board1, board1, board1, board0)),
           ([0], [0, 0, 0, 0, 0, 13, 13]))
    expect('free at the end', both.engaged, [2, 2])
    for office, values in ((0, [1, 2, 3, 4]), (1, [5, 11, 18, 26])):
        expect('collecting', (collect(encoded, both.areas[office], DIRECT, both.rig(office)), both.areas[office].grid), (0, values))
    strips = [areas.memories for areas in both.areas]
    expect('a view of each part', [view(encoded, *strips, office, b) for office in (0, 1) for b in (0, 1)],
           [(0, 0, [1, 2, 0, 0]), (0, 4, [0, 2, 3, 4]), (0, 0, [5, 11, 0, 0]), (0, 4, [0, 11, 18, 26])])
    expect('a view refused', [view(encoded, *strips, 2, 0), view(encoded, *strips, 0, 2), view(encoded, strips[0][1:], strips[1], 2, 2),
                              view(encoded, strips[0], strips[1][1:], 2, 2), view(encoded[1:], [], [], 2, 2)],
           [(11, 0, []), (11, 0, []), (9, 0, []), (9, 0, []), (1, 0, [])])
    check_office_lines(encoded, plan)
    # one board for all: the offices take it tile by tile
    encoded = ROWS['H']
    both = Offices(plan_of(encoded)[1], [1] * 4, [2] * 4)
    expect('one board', [both.call(encoded, office, board0) for office in (0, 1, 0, 0, 1, 0, 1, 0, 1, 1, 0, 1, 0, 1)],
           [0, 19, 0, 0, 19, 0, 0, 13, 0, 0, 13, 0, 13, 13])


def check_office_lines(encoded, plan):
    """Which number comes first: 9, 11 for the office, 10, 11, 19, 12, 13."""
    def number(office, b=0, engaged=(2, 2), own=(0, 0, 0, 0, 0, 0), other=(0, 0, 0, 0, 0, 0), mark=0, grid=4):
        areas = areas_for(plan, [1] * 4)
        areas.progress, areas.status, areas.grid = list(own), [mark], [0] * grid
        rig = Rig(list(engaged), list(other), office)
        return [turn(encoded, areas, b, DIRECT, rig), deliver(encoded, areas, b, DIRECT, rig), collect(encoded, areas, DIRECT, rig)]

    expect('9 before the office', [number(2, engaged=(2,)), number(2, other=(0,) * 5), number(2, own=(0,) * 9)], [[9] * 3] * 3)
    expect('the grid is lent to collecting alone', number(2, grid=5), [11, 11, 9])
    expect('the office before 10', [number(2, engaged=(3, 2)), number(4294967295, mark=4)], [[11] * 3] * 2)
    for what, faults in (
            ('a shared word above 2', dict(engaged=(2, 3))), ('the office at stage 1 of a free board', dict(own=(0, 1, 0, 0, 0, 0))),
            ('the other at stage 2 of a free board', dict(other=(0, 2, 0, 0, 0, 0))), ('engaged at stage 0', dict(engaged=(0, 2))),
            ('engaged to the other at stage 0', dict(engaged=(1, 2))), ('a record of the other unfit', dict(other=(2, 0, 0, 0, 0, 0))),
            ('both at stage 1', dict(engaged=(0, 2), own=(0, 1, 0, 0, 0, 0), other=(0, 1, 0, 0, 0, 0))), ('own mark', dict(mark=4))):
        expect(what, number(0, b=2, **faults), [10] * 3)
    held = dict(engaged=(2, 1), other=(0, 0, 0, 0, 1, 0))
    expect('held', [number(0, b=1, **held)[0], number(0, b=2, **held)[0], number(0, **held)[0]], [19, 11, 0])
    expect('held and finished', number(0, b=1, own=(1, 0, 0, 1, 0, 0), **held)[0], 13)


TRIANGLE = (UPPER, 1, 0, 1, 0)


def check_shapes():
    """W-209: what a bound is, the tiles and the takers of small shapes by hand, and the writer."""
    def number(*bounds, lengths=(4, 4), tiling=(2, 2), distances=((1, 0),), route=DIRECT):
        counts = [2] + [0] * (len(lengths) - 1)
        return plan_of(encode(lengths, tiling, counts, list(distances), bounds=bounds), route)[0]

    # cells (0,0) (1,0) (1,1) (2,0) .. (3,3): tile (0,1) is empty, and tile 1 is what was tile 2
    triangle = encode([4, 4], [2, 2], [2, 0], [(1, 0)], bounds=[TRIANGLE])
    expect('a triangle', plan_text(triangle), 'tiles 3 messages 1 words 2 steps 8\n0 0 1 0 1 2\n')
    expect('its cells', [c for c in range(16) if plan_of(triangle)[1].inside[c]], [0, 4, 5, 8, 9, 10, 12, 13, 14, 15])
    # the other half: t + v of tile 0 is empty, and the next tile of that column takes the message
    other = encode([4, 4], [2, 2], [2, 0], [(1, 1)], shift=0, boundary=9, bounds=[(LOWER, 1, 0, 1, 0)])
    expect('t + v is empty', plan_text(other), 'tiles 3 messages 2 words 2 steps 10\n0 0 2 0 1 1\n1 1 2 0 1 1\n')
    expect('its sweep', plan_of(other)[1].swept([1] * 16), [10, 10, 10, 10, 9, 11, 11, 11, 9, 9, 12, 12, 9, 9, 9, 13])
    # tile (1,2) alone reads what tile (0,1) mails, and tile (1,1) takes it: not the first that reads
    band = encode([4, 6], [2, 2], [2, 0], [(2, 2)], bounds=[(LOWER, 1, 0, 0, 2)])
    expect('not the first that reads', plan_text(band), 'tiles 4 messages 1 words 4 steps 10\n0 0 2 0 1 4\n')
    expect('what cuts nothing', [plan_text(encode([8, 8], [2, 2], [2, 0], [(1, 0), (0, 1), (1, 1)], bounds=[bound])) for bound in (
        (LOWER, 1, 0, 0, 0), (UPPER, 1, 0, 1, 7), (LOWER, 1, 0, -1, 0), (LOWER, 1, 0, 1, -32768), (UPPER, 1, 0, -1, 32767))],
           [plan_text(ROWS['A'])] * 5)
    expect('341 due at one tile', [(plan.tiles, len(plan.messages), max(len(due) for due in plan.due_at)) for plan in [plan_of(encode(
        [2, 2, 11, 31], [1] * 4, [2, 0, 0, 0], [(1, 1, 0, 0)], bounds=[(LOWER, 1, 0, 1, 0)]))[1]]], [(1023, 341, 341)])
    one = encode([4, 4], [2, 2], [2, 0], [(1, 0), (0, 1)], boundary=5, bounds=[(LOWER, 1, 0, 1, 3), (LOWER, 1, 0, -1, 3)])
    expect('one cell', (plan_text(one), plan_of(one)[1].swept([2] * 16)),
           ('tiles 1 messages 0 words 0 steps 2\n', [5, 5, 5, 12] + [5] * 12))
    for encoded in (triangle, other, band, one):
        expect('a shape both ways', compare_text(encoded), 'agree\n' * 4)
    # a bound's own fields; 20 stands behind 18 and before 5; 8 counts the tiles that are left; 21 is the last
    expect('faulty bounds', [number(bound) for bound in (
        (2, 1, 0, 0, 0), (0, 2, 0, 0, 0), (0, 1, 1, 0, 0), (0, 0, 0, 0, 0), (0, 1, 0, 2, 0), (0, 1, 0, -2, 0), (0, 1, 0, -128, 0),
        (0, 1, 255, 0, 0), (1, 1, 0, -1, 0), (0, 1, 0, 1, -32768))], [2] * 8 + [0] * 2)
    expect('how many', [number(*[TRIANGLE] * count) for count in range(6)], [0] * 5 + [2])
    expect('no cell', [number((0, 1, 0, 0, 4)), number((0, 1, 0, 0, 3)), number((1, 1, 0, 0, -1)), number((1, 1, 0, -1, 0)),
                       number(TRIANGLE, (0, 1, 0, 1, 1)), number((0, 1, 0, 0, 32767)), number((1, 1, 0, 1, -32768))],
           [20, 0, 20, 0, 20, 20, 20])
    empty = (0, 1, 0, 0, 4)
    expect('no cell and a zero distance', [number(empty, distances=[(0, 0)]), number(empty, tiling=(0, 0)), number(empty, lengths=(4, 5))],
           [20, 20, 0])
    many = dict(lengths=(128, 128), tiling=(4, 2))
    expect('tiles that are left', [number(**many), number(TRIANGLE, **many), number((1, 1, 0, 0, 63), **many),
                                   number((1, 1, 0, 0, 64), **many)], [8, 8, 0, 8])
    expect('indirect passing', [number(TRIANGLE, route=1), number((0, 1, 0, 0, 0), route=7), number(empty, route=1),
                                number(TRIANGLE, route=1, **many)], [21, 21, 20, 8])
    check_writer()


def check_writer():
    """Both round trips of W-202, with every kind; the reader's number, and 9 behind it."""
    wide = encode([400, 3], [300, 3], [2, 0], [(300, 1), (1, 0)], [7, 0], 31, 4294967295, [TRIANGLE, (0, 1, 0, -1, -32768)])
    plain = encode([4, 4], [2, 2], [2, 0], [(1, 0)], bounds=[(1, 1, 0, -1, 32767)] * 4)
    for encoded in list(ROWS.values()) + [wide, plain]:
        values = values_of(read(encoded)[1])
        space = [0] * len(encoded)
        expect('rebuilt', (write(space, *values), bytes(space)), (0, encoded))
        expect('read back', values_of(read(bytes(space))[1]), values)
        for wrong in (len(encoded) - 1, len(encoded) + 1, 0):
            space = [7] * wrong
            expect('no room', (write(space, *values), space), (9, [7] * wrong))
    lengths, tiling, counts, components, weights, shift, boundary, bounds = values_of(read(plain)[1])
    rest = components, weights, shift, boundary
    expect('written faults', [write([], lengths, tiling, counts, *rest, faulty) for faulty in (
        bounds + bounds[:1], [(2, 1, 0, 0, 0)], [(0, 1, 1, 0, 0)], [(0, 1, 0, 3, 0)], [(0, 1, 0, 0, 9)])], [2, 2, 2, 2, 20])


def check_soundings():
    """W-210 on the four cells of row D: which record counts, and each line beside its neighbours."""
    def filled(*records, value=77, encoded=ROWS['D'], content=None, lent=4):
        source = [5] * lent
        number = soundings(encoded, sounding_records(*records) if content is None else content, value, source)
        expect('nothing is written at a refusal', number == 0 or source == [5] * lent, True)
        return source if number == 0 else number

    high = 4294967295
    expect('no record', filled(), [77] * 4)
    expect('both ends', filled((0, 1, 1, 10), (3, 1, 1, 13)), [10, 77, 77, 13])
    expect('the greatest day', filled((1, 2, 1, 10), (1, 1, 9, 11)), [77, 10, 77, 77])
    expect('then the greatest survey', filled((1, 2, 8, 10), (1, 2, 7, 11)), [77, 10, 77, 77])
    expect('then the latest', filled((1, 2, 8, 10), (1, 2, 8, 9), (2, 2, 8, 4)), [77, 9, 4, 77])
    expect('without a sign', filled((0, high, 0, 1), (0, 5, 9, 2), (1, 3, high, 3), (1, 3, 2 ** 31 - 1, 4)), [1, 3, 77, 77])
    expect('a depth of 0 is a record', filled((0, 0, 0, 0)), [0, 77, 77, 77])
    expect('outside the box', [filled((4, 1, 1, 1)), filled((high, 0, 0, 0), (0, 1, 1, 1)), filled((4, 0, 0, 0), lent=3)], [22, 22, 9])
    expect('ragged files', [filled(content=bytes(count)) for count in (1, 15, 17)], [1] * 3)
    expect('a ragged file and a stray record', [filled(content=bytes(1), encoded=ROWS['D'][16:]), filled(encoded=ROWS['D'][16:]),
                                               filled(encoded=b''), filled((4, 0, 0, 0), encoded=ROWS['D'][16:])], [1, 2, 1, 2])
    shape = encode([4, 4], [2, 2], [2, 0], [(1, 0)], bounds=[TRIANGLE])
    expect('the box of a shape', filled((15, 0, 0, 2), (3, 0, 0, 1), encoded=shape, lent=16), [77] * 3 + [1] + [77] * 11 + [2])
    expect('behind it', filled((16, 0, 0, 2), encoded=shape, lent=16), 22)


def check_charts():
    """W-211: a text by hand, cells outside by the shape, and each line beside its neighbours."""
    def written(encoded, grid, x=-3, y=20, size=50, room=200):
        space = [35] * room
        number, length = chart(encoded, grid, x, y, size, space)
        expect('as before', space[length:], [35] * (room - length))
        if room == 200:
            expect('the length alone', chart_length(encoded, grid, x, y, size), (number, length))
        return bytes(space[:length]).decode() if number == 0 else number

    plane = encode([2, 3], [2, 2], [2, 0], [(1, 0)])
    head = 'ncols 3\nnrows 2\nxllcorner -3\nyllcorner 20\ncellsize 50\nNODATA_value -9999\n'
    grid = [0, 10, 4294967295, 9, 4294957297, 100]
    expect('a text', written(plane, grid), head + '0 10 4294967295\n9 4294957297 100\n')
    expect('the ends of a corner', written(plane, grid, -2147483648, 2147483647, 65535).split('\n')[2:5],
           ['xllcorner -2147483648', 'yllcorner 2147483647', 'cellsize 65535'])
    shape = encode([2, 3], [2, 2], [2, 0], [(1, 0)], boundary=8, bounds=[TRIANGLE])
    expect('a shape', written(shape, grid), head + '0 -9999 -9999\n9 4294957297 -9999\n')
    length = len(head) + len('0 10 4294967295\n9 4294957297 100\n')
    expect('room', [written(plane, grid, room=length)[:7], written(plane, grid, room=length - 1), written(plane, grid, room=0)],
           ['ncols 3', 9, 9])
    expect('the grid', [written(plane, grid[1:]), written(plane, grid + [1]), written(plane, [])], [9] * 3)
    expect('cell sizes', [written(plane, grid, size=size) for size in (0, 65536, 4294967295)], [23] * 3)
    space = encode([2, 3, 1], [2, 2, 1], [2, 0, 0], [(1, 0, 0)])
    expect('three dimensions', [written(space, grid), written(space, [], room=0), written(plane, [], size=0, room=0),
                                written(plane[16:], [], size=0, room=0)], [23, 23, 23, 2])


def table_of(*boards):
    """A table of hours from each board's windows."""
    return [word for windows in boards for pair in list(windows) + [(0, 0)] * (WINDOWS - len(windows)) for word in pair]


def check_hours():
    """W-212 on row D: what a window is, the minutes until a board opens, and each line beside its neighbours."""
    encoded = ROWS['D']
    plan = plan_of(encoded)[1]

    def asked(minute, *windows, b=0, other=((5, 6),), table=None):
        return opens(encoded, table_of(windows, other) if table is None else table, minute, b)

    expect('open and close', [asked(minute, (10, 20)) for minute in (9, 10, 19, 20)], [(0, 1, 1), (0, 1, 0), (0, 1, 0), (0, 1, 10070)])
    expect('both ends', [asked(0, (0, 1)), asked(1, (0, 1)), asked(10079, (10079, 10080)), asked(0, (10079, 10080)), asked(10079, (3, 4))],
           [(0, 1, 0), (0, 1, 10079), (0, 1, 0), (0, 1, 10079), (0, 1, 4)])
    expect('never', [asked(7), asked(5), asked(5, b=1), asked(6, b=1)], [(0, 0, 0), (0, 0, 0), (0, 1, 0), (0, 1, 10079)])
    expect('the next one', asked(50, (90, 100), (60, 70), (10, 20), (65, 95)), (0, 1, 10))
    expect('fourteen', asked(27, *[(2 * j, 2 * j + 1) for j in range(14)]), (0, 1, 10053))
    for pair in ((1, 0), (5, 5), (6, 5), (0, 10081), (10080, 10080), (10080, 10081), (10079, 10081), (WORD - 1, 0), (0, WORD - 1)):
        expect('a faulty window', [asked(1, pair), asked(1, (0, 9), other=[(2, 3)] * 13 + [pair]), asked(1, pair, b=2)], [(25, 0, 0)] * 3)
    expect('a faulty minute', [asked(10080), asked(WORD - 1, b=2), asked(10079, b=2)], [(25, 0, 0), (25, 0, 0), (11, 0, 0)])
    expect('a wrong length', [asked(10080, table=[7] * count) for count in (0, 55, 57)], [(9, 0, 0)] * 3)

    def number(b, minute, own=(0, 0, 0, 0, 0, 0), rig=None, table=table_of([(10, 20)], [(10, 20)])):
        areas = areas_for(plan, [1] * 4)
        areas.progress = list(own)
        return turn(encoded, areas, b, DIRECT, rig, Hours(table, minute))

    held = dict(engaged=[2, 1], other=[0, 0, 0, 0, 1, 0])
    unfit, finished, closed = (0, 3, 0, 0, 0, 0), (1, 0, 0, 1, 0, 0), 30
    expect('open', [number(0, 10), number(1, 10), number(1, 10, finished)], [0, 12, 13])
    expect('closed', [number(0, closed), number(1, closed), number(1, closed, finished), number(2, closed)], [24, 24, 24, 11])
    expect('held', [number(1, minute, own, Rig(office=0, **held)) for minute, own in ((10, (0,) * 6), (closed, (0,) * 6), (10, finished))],
           [19, 24, 13])
    expect('faulty', [number(0, 10080), number(2, 10080), number(0, 10080, unfit), number(0, 10080, unfit, table=[1] * 55)],
           [25, 25, 10, 9])
    expect('an office above 1', [number(2, 10080, unfit, Rig(office=2, **held)),
                                 number(0, 10080, unfit, Rig(office=2, **held), [1] * 55)], [11, 9])


def check_rounds():
    """W-213: row A takes 9 rounds; small plans by hand; the driver ends as any run does and refuses as a fresh start does."""
    def driven(encoded):
        plan = plan_of(encoded)[1]
        areas = areas_for(plan, list(range(plan.cells)))
        areas.progress, areas.status = [77] * len(areas.progress), [200] * len(areas.status)
        told = rounds(encoded, areas)
        expect('the grid', (collect(encoded, areas), areas.grid), (0, plan.swept(areas.source)))
        expect('the end', (set(areas.status) <= {3}, [turn(encoded, areas, b) for b in range(plan.boards)]), (True, [13] * plan.boards))
        return told, tile_rounds(plan)

    # the second row of tiles begins a round after the first; board 0 takes up the third behind its own first row
    expect('row A', driven(ROWS['A']), ((0, 9), [1, 2, 3, 4, 2, 3, 4, 5, 5, 6, 7, 8, 6, 7, 8, 9]))
    expect('row B', driven(ROWS['B']), ((0, 3), [1, 2, 2, 3]))
    expect('row D', driven(ROWS['D']), ((0, 2), [1, 2]))
    expect('row E', driven(ROWS['E']), ((0, 3), [1, 2, 3]))
    expect('row F', driven(ROWS['F']), ((0, 2), [1, 2]))
    expect('row H', driven(ROWS['H']), ((0, 2), [1, 2]))
    # tile 2 waits for both tiles of the other board
    empty = encode([4, 4], [2, 2], [2, 0], [(1, 1)], bounds=[(LOWER, 1, 0, 1, 0)])
    expect('a shape', driven(empty), ((0, 3), [1, 2, 3]))
    one = encode([4, 4], [2, 2], [2, 0], [(1, 0)], bounds=[(LOWER, 1, 0, 1, 3)])
    expect('one tile', driven(one), ((0, 1), [1]))
    areas = areas_for(plan_of(ROWS['D'])[1], [1] * 5)
    expect('refused', [rounds(ROWS['D'], areas), rounds(ROWS['D'][16:], areas), rounds(b'', areas)], [(9, 0), (2, 0), (1, 0)])
    expect('rounds of tiles refused', [rounds_of(ROWS['D'], [0]), rounds_of(ROWS['D'], [0] * 3), rounds_of(ROWS['D'][16:], [])], [9, 9, 2])


def check_transport():
    """Row D, each board with areas of its own: board 1 waits for message 0 at tile 1 until it is carried there."""
    encoded = ROWS['D']
    plan = plan_of(encoded)[1]
    rows, cells = [7] * 6, [7] * 4
    expect('the messages of D', [messages(encoded, DIRECT, rows[:5]), messages(encoded, DIRECT, rows), rows], [9, 0, [0, 1, 0, 1, 1, 0]])
    expect('the boards of the cells of D', [owners(encoded, cells[:3]), owners(encoded, cells), cells], [9, 0, [0, 0, 1, 1]])
    shaped = encode([2, 4], [1, 2], [2, 0], [(1, 0)], bounds=[(1, 1, 0, 0, 2)])
    cells = [7] * 8
    expect('the boards of a shape', [owners(shaped, cells), cells], [0, [0, 0, 0, 2, 1, 1, 1, 2]])
    own = [areas_for(plan, [1] * 4) for _ in range(2)]

    def waits(b, areas=None, count=1):
        marks = [7] * count
        return *awaited(encoded, areas or own[b], b, marks), marks

    expect('who waits at the start', [waits(0), waits(1)], [(0, 0, [0]), (0, 1, [1])])
    expect('no such board, a wrong length', [waits(2, own[0]), waits(0, count=2)], [(11, 0, [7]), (9, 0, [7, 7])])
    expect('the turns of board 0', [turn(encoded, own[0], 0) for _ in range(4)], [0, 0, 0, 13])
    expect('it has finished', waits(0), (13, 0, [7]))
    expect('posting', [deliver(encoded, own[0], 0), own[0].buffer, own[0].status], [0, [2], [2]])
    expect('the faults of what comes', [take_in(encoded, own[1], b, m, words) for b, m, words in (
        (1, 0, [2, 2]), (1, 0, []), (0, 0, [2]), (2, 0, [2]), (1, 1, [2]), (1, 1, []))], [9, 9, 11, 11, 11, 11])
    expect('nothing is written', [own[1].buffer, own[1].status], [[0], [0]])
    expect('it comes, and again', [take_in(encoded, own[1], 1, 0, [word]) for word in (2, 9)], [0, 14])
    expect('what came', [own[1].buffer, own[1].status, waits(1)], [[2], [2], (0, 1, [0])])
    expect('board 1 goes on', [turn(encoded, own[1], 1) for _ in range(3)], [0, 0, 13])
    expect('its values', own[1].memories[6:], [3, 4])
    own[1].progress[1] = 3
    expect('unfit before no such', [take_in(encoded, own[1], 0, 9, []), take_in(encoded, own[1], 1, 0, [])], [10, 9])


def check_parts():
    """Row D, each board with its own part alone; board 1 keeps cell 1 beside its own, since message 0 brings it."""
    encoded = ROWS['D']
    plan = plan_of(encoded)[1]

    def told(call, b, count, route=DIRECT, of=encoded):
        out = [7] * count
        number = call(of, b, out, route)
        expect('as before', number == 0 or out == [7] * count, True)
        return out if number == 0 else number

    expect('its lengths', [part_sizes(encoded, b) for b in range(3)], [(0, [2, 2, 1, 1]), (0, [2, 3, 1, 1]), (11, [0] * 4)])
    expect('no recipe before no such', part_sizes(encoded[16:], 2), (2, [0] * 4))
    expect('its messages', [told(part_messages, b, 7) for b in range(3)], [[0, 0, 1, 0, 1, 1, 0]] * 2 + [11])
    expect('rows of other lengths', [told(part_messages, b, 8) for b in range(3)], [9, 9, 11])
    # boards 1 and 2 of three: the middle one handles what it takes and what it sends
    line = encode([6, 1], [2, 1], [3, 0], [(1, 0)])
    expect('three boards', [told(part_messages, b, 14, of=line) for b in (1, 2)], [[0, 0, 1, 0, 1, 1, 0, 1, 1, 2, 1, 2, 1, 1], 9])
    parts = [own_areas_for(plan, b, [1] * 4) for b in range(2)]
    parts[0].memory, parts[0].progress, parts[0].marks = [9, 9], [77, 0, 0], [200]
    expect('a fresh start', [part_fresh(encoded, parts[0], 0), parts[0].memory, parts[0].mail, parts[0].progress, parts[0].marks],
           [0, [0, 0], [0], [0] * 3, [0]])
    expect('waits', [part_turn(encoded, parts[1], 1), part_turn(encoded, parts[1], 0), part_turn(encoded, parts[1], 2)], [12, 9, 11])
    expect('early', [part_collect(encoded, part, b) for b, part in enumerate(parts)], [15, 15])
    expect('the turns of board 0', [part_turn(encoded, parts[0], 0) for _ in range(4)], [0, 0, 0, 13])
    expect('what it has', [parts[0].memory, parts[0].mail, parts[0].marks], [[1, 2], [2], [1]])
    expect('posting', [part_post(encoded, parts[0], 0, m) for m in (1, 0, 0)] + [parts[0].marks], [11, 0, 14, [2]])
    expect('what comes', [part_arrive(encoded, parts[1], b, m, words) for b, m, words in (
        (2, 0, []), (1, 0, [2, 2]), (0, 0, [2]), (1, 1, [2]), (1, 0, [2]), (1, 0, [9]))], [11, 9, 9, 11, 0, 14])
    expect('where it is', [part_arrive(encoded, parts[0], 0, 0, [2]), parts[1].mail, parts[1].marks], [11, [2], [2]])
    expect('board 1 goes on', [part_turn(encoded, parts[1], 1) for _ in range(3)] + [parts[1].memory, parts[1].marks], [0, 0, 13, [2, 3, 4], [3]])
    grid = [5] * 4
    for b in (1, 0):
        parts[b].grid = grid
        expect('collecting', part_collect(encoded, parts[b], b), 0)
        expect('the grid', grid, [5, 5, 3, 4] if b else [1, 2, 3, 4])
    parts[1].marks = [4]
    expect('unfit', [part_turn(encoded, parts[1], 1), part_post(encoded, parts[1], 1, 9), part_arrive(encoded, parts[1], 1, 9, []),
                     part_collect(encoded, parts[1], 1)], [10, 10, 10, 0])
    # a board without tiles: its part is empty, and it has finished
    none = plan_of(ROWS['F'])[1]
    part = own_areas_for(none, 1, [1] * 2)
    expect('no tiles', [part_sizes(ROWS['F'], 1)[1], part_turn(ROWS['F'], part, 1), part_collect(ROWS['F'], part, 1), part.grid],
           [[0] * 4, 13, 0, [0, 0]])
    shaped = encode([2, 4], [1, 2], [2, 0], [(1, 0)], boundary=9, bounds=[(1, 1, 0, 0, 2)])
    part = own_areas_for(plan_of(shaped)[1], 1, [1] * 8)
    part.progress[0] = 2
    expect('outside the shape', [part_collect(shaped, part, 1), part.grid], [0, [0, 0, 0, 9, 0, 0, 0, 9]])


if __name__ == '__main__':
    check_paper()
    import schedules
    schedules.check()
    print('the model gives what document 01, W-201 to W-205 and W-207 to W-214 print')
