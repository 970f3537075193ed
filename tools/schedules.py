"""Holds runs of the model under drawn schedules to what documents 01 and 02 say of every list of events; `python3 tools/model.py`
runs it.

    python3 tools/schedules.py [RECIPES]    the count of drawn recipes of each check, 12 unless given

What an office must have after a run is made a second time from its own steps alone (`replayed`): by the stages that document 01 names
for them in "Runs", without records, engaged boards or refused calls.
"""

import copy
import sys

import model
import vectors


def program(plan, b):
    """The stages of a board in the order of document 01's "Runs"."""
    stages = []
    for tile in plan.tiles_of[b]:
        stages += [('gather', tile), ('calculate', tile)] + [('send', m) for m in plan.sends_of[tile]]
    return stages


def replayed(plan, source, steps):
    """The areas after the steps of one office, ('turn', b) or ('deliver', m), each a call that gave 0."""
    areas = model.areas_for(plan, source)
    strips = [[0] * plan.cells for _ in range(plan.boards)]
    words = [[0] * len(message.cells) for message in plan.messages]
    taken = [0] * plan.boards
    for kind, which in steps:
        if kind == 'deliver':
            areas.status[which] = 2
            continue
        stage, what = program(plan, which)[taken[which]]
        strip = strips[which]
        if stage == 'gather':
            for m in plan.due_at[what]:
                areas.status[m] = 3
                for c, word in zip(plan.messages[m].cells, words[m]):
                    strip[c] = word
        elif stage == 'calculate':
            for c in plan.cells_of[what]:
                strip[c] = plan.value(source, strip, c)
        else:
            areas.status[what] = 1
            words[what] = [strip[c] for c in plan.messages[what].cells]
        taken[which] += 1
    areas.memories = [word for strip in strips for word in strip]
    areas.buffer = [word for part in words for word in part]
    for b in range(plan.boards):
        done = program(plan, b)[:taken[b]]
        begun = len([1 for stage, _ in done if stage == 'gather'])
        rest = program(plan, b)[taken[b]:taken[b] + 1]
        if rest == [] or rest[0][0] == 'gather':
            areas.progress[3 * b] = begun
        elif rest[0][0] == 'calculate':
            areas.progress[3 * b:3 * b + 3] = begun - 1, 1, 0
        else:
            sends = plan.sends_of[plan.messages[rest[0][1]].sender]
            areas.progress[3 * b:3 * b + 3] = begun - 1, 2, sends.index(rest[0][1])
    return areas


OWN = ('memories', 'buffer', 'status', 'progress')


def same(first, second, names=OWN):
    return all(getattr(first, name) == getattr(second, name) for name in names)


def drawn_recipes(seed, count, most_cells=40):
    """Rows, recipes of every count of spread dimensions, and single boards; small ones."""
    draw = vectors.Draw(seed)
    recipes = [model.ROWS[row] for row in 'ADEFGH'] + [vectors.single_recipes()[at] for at in (2, 3, 10)]
    for k in range(count):
        n, m = [(2, 1), (3, 2), (3, 1), (4, 2), (4, 3)][k % 5]
        recipes.append(vectors.drawn_recipe(draw, most_cells, most_words=250, n=n, m=m, distances=draw.between(1, 4), least=1 + k % 2))
    return recipes, draw


# W-208

def events_of(plan):
    return [('turn', b) for b in range(plan.boards)] + [('deliver', m) for m in range(len(plan.messages))]


def able(encoded, both, plan, route, office):
    """The events of an office that would give 0."""
    areas, rig = both.areas[office], both.rig(office)
    found = [('turn', b) for b in range(plan.boards) if model.turn_number(encoded, areas, b, route, rig)[0] == 0]
    return found + [('deliver', m) for m in range(len(plan.messages)) if areas.status[m] == 1]


def drawn_log(encoded, both, plan, route, draw):
    """A run of both offices to the end, as (office, event, number): drawn events, every fourth one that can be taken."""
    log, steps = [], [0, 0]
    favoured = draw.below(2)
    while steps != [plan.steps] * 2:
        free = [(office, event) for office in (0, 1) for event in able(encoded, both, plan, route, office)]
        # some turn or delivery would give 0 exactly while either has fewer than its number
        assert free != []
        kind = draw.below(4)
        if kind == 0:
            office, event = draw.pick(free)
        else:
            office = favoured if kind == 1 else draw.below(2)
            event = draw.pick(events_of(plan))
        number = both.call(encoded, office, event, route)
        assert (number == 0) == ((office, event) in free)
        log.append((office, event, number))
        steps[office] += number == 0
        if draw.below(16) == 0:
            favoured = 1 - favoured
            whose = draw.below(2)
            done = both.areas[whose].progress[::3] == [len(tiles) for tiles in plan.tiles_of]
            number = model.collect(encoded, both.areas[whose], route, both.rig(whose))
            assert number == (0 if steps[whose] == plan.steps else 15) and done == (steps[whose] == plan.steps), number
    assert able(encoded, both, plan, route, 0) == able(encoded, both, plan, route, 1) == []
    return log


def check_both(encoded, route, draw):
    """Both grids end equal to their own sweeps; each office's words are those of its own steps, anywhere on the way."""
    plan = model.plan_of(encoded, route)[1]
    sources = [[draw.word() for _ in range(plan.cells)] for _ in range(2)]
    both = model.Offices(plan, *sources)
    assert model.fresh_both(encoded, *both.areas, both.engaged, route) == 0
    log = drawn_log(encoded, both, plan, route, draw)
    for office in (0, 1):
        steps = [event for whose, event, number in log if whose == office and number == 0]
        assert len(steps) == plan.steps
        assert same(both.areas[office], replayed(plan, sources[office], steps))
        assert model.collect(encoded, both.areas[office], route, both.rig(office)) == 0
        assert both.areas[office].grid == plan.swept(sources[office])
        assert both.areas[office].source == sources[office]
    assert both.engaged == [model.FREE] * plan.boards
    # again up to a drawn place: the words there too, and the engaged boards by the steps alone
    part = log[:draw.below(len(log))]
    both = model.Offices(plan, *sources)
    assert model.fresh_both(encoded, *both.areas, both.engaged, route) == 0
    assert [both.call(encoded, office, event, route) for office, event, _ in part] == [number for _, _, number in part]
    engaged = [model.FREE] * plan.boards
    for office in (0, 1):
        steps = [event for whose, event, number in part if whose == office and number == 0]
        own = replayed(plan, sources[office], steps)
        assert same(both.areas[office], own)
        engaged = [office if own.progress[3 * b + 1] != 0 else word for b, word in enumerate(engaged)]
    assert both.engaged == engaged
    return log, sources


def other_run(encoded, plan, route, wanted, source, draw):
    """A run in which office 0 has its wanted events with their numbers, and office 1 others than before: (log, the places in wanted of
    refusals 19 that could not be had)."""
    both = model.Offices(plan, source, [draw.word() for _ in range(plan.cells)])
    assert model.fresh_both(encoded, *both.areas, both.engaged, route) == 0
    log, dropped = [], []

    def take(office, event):
        log.append((office, event, both.call(encoded, office, event, route)))
        return log[-1][2]

    for at, (event, number) in enumerate(wanted):
        for _ in range(draw.below(4)):
            take(1, draw.pick(events_of(plan)))
        b = event[1]
        if number == 19:
            if both.engaged[b] != 1 and take(1, event) != 0:
                dropped.append(at)
                continue
        elif event[0] == 'turn' and b < plan.boards:
            while both.engaged[b] == 1:
                # the holder never waits
                assert take(1, event) == 0
        assert take(0, event) == number
    return both, log, dropped


def check_isolated(encoded, route, log, sources, draw):
    """Two runs that agree on office 0's bed, events and numbers, and not on the other's, leave the same words in its areas."""
    plan = model.plan_of(encoded, route)[1]
    # up to a drawn place
    log = log[:draw.between(len(log) // 2, len(log))]
    wanted = [(event, number) for office, event, number in log if office == 0]
    second, other, dropped = other_run(encoded, plan, route, wanted, sources[0], draw)
    # a refused call writes nothing, so it can be left out of the first run
    first = model.Offices(plan, *sources)
    assert model.fresh_both(encoded, *first.areas, first.engaged, route) == 0
    seen, kept = 0, []
    for office, event, number in log:
        if office == 0:
            seen += 1
            if seen - 1 in dropped:
                continue
            kept.append((event, number))
        assert first.call(encoded, office, event, route) == number
    assert kept == [(event, number) for office, event, number in other if office == 0]
    assert same(first.areas[0], second.areas[0])
    return [event for office, event, _ in log if office == 1] != [event for office, event, _ in other if office == 1]


def check_offices(count):
    recipes, draw = drawn_recipes(21, count)
    seen, apart = set(), 0
    for k, encoded in enumerate(recipes):
        for route in (model.DIRECT, model.INDIRECT):
            log, sources = check_both(encoded, route, draw)
            seen |= set(number for _, _, number in log)
            apart += check_isolated(encoded, route, log, sources, draw)
    assert seen == {0, 12, 13, 14, 19}, seen
    assert apart >= len(recipes)
    return '%d recipes by both routes: two offices end in both sweeps, neither tells of the other' % len(recipes)


# W-209

def drawn_run(encoded, areas, plan, draw):
    """A run of one office to the end, as (event, number)."""
    assert model.fresh(encoded, areas) == 0
    log, steps = [], 0
    while steps < plan.steps:
        event = draw.pick(events_of(plan))
        number = (model.turn if event[0] == 'turn' else model.deliver)(encoded, areas, event[1])
        log.append((event, number))
        steps += number == 0
    return log


def read_sets(plan):
    """The messages a second time, from the cells that read: (sender's place, direction) to the set of cells."""
    nest = plan.nest
    m = len([p for p in nest.counts if p != 0])

    def tile(place):
        return tuple(i // k for i, k in zip(place, nest.tiling))

    found = {}
    for reader in nest.shape():
        for d in nest.components:
            place = tuple(i - x for i, x in zip(reader, d))
            if min(place) >= 0 and nest.is_inside(place):
                v = tuple(tile(reader)[j] - tile(place)[j] for j in range(m))
                # on the other board: some count above 1 is crossed
                if any(one and nest.counts[j] > 1 for j, one in enumerate(v)):
                    found.setdefault((tile(place), v), set()).add(plan.cell_number[place])
    return found


def check_shape(encoded, draw):
    """One shape on the direct route: its sets, takers and numbers a second way, and a drawn run. Gives what it has of rare things."""
    plan = model.plan_of(encoded)[1]
    nest = plan.nest
    tiles = sorted(set(tuple(i // k for i, k in zip(place, nest.tiling)) for place in nest.shape()))
    sets = read_sets(plan)
    assert [(tiles[message.sender], message.direction, message.cells) for message in plan.messages] == [
        (tile, v, sorted(cells)) for (tile, v), cells in sorted(sets.items())]
    seen = set()
    for message in plan.messages:
        m = len(message.direction)
        sender = tiles[message.sender]
        target = tuple(x + message.direction[j] if j < m else x for j, x in enumerate(sender))
        # tiles of a column stand one behind the other, so the taker is the first tile of all at or after t + v
        assert tiles[message.taker] == min(tile for tile in tiles if tile >= target) and tiles[message.taker][:m] == target[:m]
        readers = [tile for tile in tiles if tile[:m] == target[:m] and any(
            tuple(i + x for i, x in zip(plan.places[c], d)) in plan.cell_number and plan.tile_of[plan.cell_number[tuple(
                i + x for i, x in zip(plan.places[c], d))]] == tiles.index(tile) for c in message.cells for d in nest.components)]
        assert readers and tiles[message.taker] <= readers[0]
        seen |= {'t + v empty'} if tiles[message.taker] != target else set()
        seen |= {'not the first that reads'} if tiles[message.taker] != readers[0] else set()
    seen |= {'a board without tiles'} if [] in plan.tiles_of else set()
    seen |= {'more than seven due'} if max(len(due) for due in plan.due_at) > 7 else set()
    source = [draw.word() for _ in range(plan.cells)]
    areas = model.areas_for(plan, source)
    log = drawn_run(encoded, areas, plan, draw)
    assert same(areas, replayed(plan, source, [event for event, number in log if number == 0]))
    # the words of cells outside come from no strip
    for b in range(plan.boards):
        for c in range(plan.cells):
            if not plan.inside[c]:
                assert areas.memories[b * plan.cells + c] == 0
                areas.memories[b * plan.cells + c] = draw.word()
    assert model.collect(encoded, areas) == 0 and areas.grid == plan.swept(source)
    assert all(word == nest.boundary for word, inside in zip(areas.grid, plan.inside) if not inside)
    space = [0] * len(encoded)
    assert model.write(space, *model.values_of(nest)) == 0 and bytes(space) == encoded
    return seen


def check_shapes(count):
    draw = vectors.Draw(22)
    recipes = vectors.shape_recipes()
    for k in range(3 * count):
        n, m = [(2, 1), (3, 2), (3, 1), (4, 2), (4, 3)][k % 5]
        recipes.append(vectors.drawn_shape(draw, 70, 600, n=n, m=m, distances=draw.between(1, 4), least=1 + k % 2))
    seen = set()
    for encoded in recipes:
        if model.plan_of(encoded)[1].cells <= 400:
            seen |= check_shape(encoded, draw)
    assert len(seen) == 4, seen
    return '%d shapes: sets and takers as found from the cells that read; runs end in the sweep' % len(recipes)


# W-210

def folded(content, value, cells):
    """The bed a second time: the file once through, a record taking the place of one that it is not behind."""
    best = [None] * cells
    for cell, day, survey, depth in model.soundings_of(content):
        if best[cell] is None or (day, survey) >= best[cell][:2]:
            best[cell] = (day, survey, depth)
    return [value if found is None else found[2] for found in best]


def drawn_soundings(draw, cells, count):
    """Records with many ties; days and survey numbers at both ends of a word."""
    few = [0, 1, 2, 2147483647, 2147483648, 4294967295]
    return [(draw.below(cells), draw.pick(few), draw.pick(few), draw.word()) for _ in range(count)]


def check_soundings(count):
    draw = vectors.Draw(23)
    recipes = [model.ROWS['D'], model.ROWS['A'], vectors.shape_recipes()[0]]
    for k in range(5 * count):
        encoded = recipes[k % 3]
        source = [9] * model.plan_of(encoded)[1].cells
        records = drawn_soundings(draw, len(source), draw.below(6 * len(source)))
        content, value = model.sounding_records(*records), draw.word()
        assert model.soundings(encoded, content, value, source) == 0 and source == folded(content, value, len(source))
        # every word has its ground
        for c, word in enumerate(source):
            named = [(day, survey, at) for at, (cell, day, survey, _) in enumerate(records) if cell == c]
            grounds = [at for day, survey, at in named if all((day, survey, at) >= other for other in named)]
            assert (word == value) if named == [] else [records[at][3] for at in grounds] == [word]
    return '%d files of soundings: the same by one pass over the file, and each word has its ground' % (5 * count)


# W-211

def parsed(text):
    """What a text says, read back: corners, cell size and the words of the rows; no byte is passed over."""
    lines = text.decode().split('\n')
    assert lines.pop() == ''
    names = ['ncols', 'nrows', 'xllcorner', 'yllcorner', 'cellsize', 'NODATA_value']
    found = []
    for line, name in zip(lines, names):
        assert line.split(' ')[0] == name
        found.append(int(line.split(' ')[1]))
    rows = [[int(word) for word in line.split(' ')] for line in lines[6:]]
    assert len(rows) == found[1] and all(len(row) == found[0] for row in rows) and found[5] == -9999
    for line in lines:
        for word in line.split(' ')[-found[0]:]:
            assert word in names or word == '0' or word.lstrip('-')[0] in '123456789'
    return found, [word for row in rows for word in row]


def check_charts(count):
    draw = vectors.Draw(24)
    recipes = [model.ROWS[row] for row in 'ADEF'] + [e for e in vectors.shape_recipes()[:14]]
    texts = {}
    for k in range(5 * count):
        encoded = recipes[k % len(recipes)]
        plan = model.plan_of(encoded)[1]
        grid = [draw.word() >> draw.pick([0, 0, 16, 24, 31]) for _ in range(plan.cells)]
        x, y = (model.signed(draw.word() if draw.below(3) else draw.below(3), 32) for _ in range(2))
        size = draw.between(1, 65535)
        text = model.chart_text(plan.nest, grid, x, y, size)
        assert parsed(text) == ([*plan.nest.lengths[::-1], x, y, size, -9999], [w if i else -9999 for w, i in zip(grid, plan.inside)])
        # one cell of the shape, one corner, the cell size changed: another text; one cell outside: the same
        for c in range(plan.cells):
            other = grid[:c] + [(grid[c] + 1) % model.WORD] + grid[c + 1:]
            assert (model.chart_text(plan.nest, other, x, y, size) != text) == plan.inside[c]
        inside = tuple(w for w, i in zip(grid, plan.inside) if i)
        for given in ((x, y, size), (-x, y, size), (x, -y, size), (y, x, size), (x, y, size % 65535 + 1)):
            key, made = (encoded, inside, given), model.chart_text(plan.nest, grid, *given)
            assert texts.setdefault(made, key) == key
    return '%d grids as texts: each read back, and no two share one' % (5 * count)


# W-212

def drawn_table(draw, boards, never=()):
    """Hours of every board: few windows or fourteen, short ones, also at both ends of the week; none for some boards."""
    table = []
    for b in range(boards):
        windows = []
        for _ in range(0 if b in never else draw.pick([1, 1, 2, 3, 14])):
            opening = draw.pick([0, 10079, draw.below(10080), draw.below(10080)])
            windows.append((opening, min(10080, opening + draw.pick([1, 60, 500, 4000]))))
        # no windows between the others too
        while len(windows) < 14:
            windows.insert(draw.below(len(windows) + 1), (0, 0))
        table.append(windows)
    return model.table_of(*table)


def until_open(table, b, minute):
    """The minutes until a board opens a second time: over its windows, not its minutes."""
    waits = [0 if opening <= minute < close else (opening - minute) % 10080 for opening, close in model.Hours(table, 0).windows(b)]
    return min(waits) if waits else None


def run_by_hours(encoded, offices, draw):
    """A run in which every turn has a minute, of one office or of two: each number against the turn's without hours."""
    plan = model.plan_of(encoded)[1]
    sources = [[draw.word() for _ in range(plan.cells)] for _ in range(2)]
    both = model.Offices(plan, *sources)
    assert model.fresh_both(encoded, *both.areas, both.engaged) == 0
    table = drawn_table(draw, plan.boards)
    rigs = [both.rig(office) if offices == 2 else None for office in (0, 1)]
    steps = [[] for _ in range(offices)]
    seen, minute = set(), 0
    while any(len(done) < plan.steps for done in steps):
        office, event = draw.below(offices), draw.pick(events_of(plan))
        areas, rig = both.areas[office], rigs[office]
        if event[0] == 'deliver':
            number = model.deliver(encoded, areas, event[1], model.DIRECT, rig)
        else:
            b = event[1]
            minute = draw.pick([minute, draw.below(10080), draw.below(10080)])
            if draw.below(2):
                minute = (minute + until_open(table, b, minute)) % 10080
            plain = model.turn_number(encoded, areas, b, model.DIRECT, rig)[0]
            hours = model.Hours(table, minute)
            number = model.turn(encoded, areas, b, model.DIRECT, rig, hours)
            assert number == (plain if until_open(table, b, minute) == 0 else 24)
            # the premise of progress: tried at a minute when it is open, a turn gives what it would without hours
            later = model.Hours(table, (minute + until_open(table, b, minute)) % 10080)
            plain = model.turn_number(encoded, areas, b, model.DIRECT, rig)[0]
            assert model.turn_number(encoded, areas, b, model.DIRECT, rig, later)[0] == plain
        seen.add(number)
        steps[office] += [event] if number == 0 else []
    for office in range(offices):
        areas = both.areas[office]
        assert same(areas, replayed(plan, sources[office], steps[office])) and len(steps[office]) == plan.steps
        assert model.collect(encoded, areas, model.DIRECT, rigs[office]) == 0 and areas.grid == plan.swept(sources[office])
    return seen


def check_hours(count):
    recipes, draw = drawn_recipes(25, count // 2)
    recipes += vectors.shape_recipes()[4:8]
    seen = set()
    for encoded in recipes:
        for offices in (1, 2):
            seen |= run_by_hours(encoded, offices, draw)
    assert seen == {0, 12, 13, 14, 19, 24}, seen
    for k in range(3 * count):
        boards = model.plan_of(model.ROWS['A'])[1].boards
        table = drawn_table(draw, boards, never=[k % 4])
        for b in range(boards):
            minute = draw.pick([0, 10079, draw.below(10080)])
            wait = until_open(table, b, minute)
            assert model.opens(model.ROWS['A'], table, minute, b) == ((0, 0, 0) if wait is None else (0, 1, wait))
            assert (wait is None) == (b == k % 4)
    return '%d recipes with hours: the grid is the sweep; %d boards open when their windows say' % (len(recipes), 3 * count * boards)


# W-214

class Bench:
    """A run of one office or two, with hours or without; an event is (office, 'turn', board, minute) or (office, 'deliver', message, 0)."""

    def __init__(self, encoded, route, offices, draw, by_hours):
        self.encoded, self.route, self.offices = encoded, route, offices
        self.plan = model.plan_of(encoded, route)[1]
        self.sources = [[draw.word() for _ in range(self.plan.cells)] for _ in range(2)]
        self.table = drawn_table(draw, self.plan.boards) if by_hours else None
        self.start()

    def start(self):
        self.both = model.Offices(self.plan, *self.sources)
        assert model.fresh_both(self.encoded, *self.both.areas, self.both.engaged, self.route) == 0

    def rig(self, both, office):
        return both.rig(office) if self.offices == 2 else None

    def hours(self, minute):
        return None if self.table is None else model.Hours(self.table, minute)

    def take(self, event, both):
        office, kind, which, minute = event
        if kind == 'turn':
            return model.turn(self.encoded, both.areas[office], which, self.route, self.rig(both, office), self.hours(minute))
        return model.deliver(self.encoded, both.areas[office], which, self.route, self.rig(both, office))

    def can(self, event, both):
        office, kind, which, minute = event
        if kind == 'turn':
            rig, hours = self.rig(both, office), self.hours(minute)
            return model.turn_number(self.encoded, both.areas[office], which, self.route, rig, hours)[0] == 0
        return both.areas[office].status[which] == 1

    def able(self, draw):
        """Every event that can be taken now; each turn at a drawn minute."""
        found = []
        for office in range(self.offices):
            for b in range(self.plan.boards):
                minute = draw.below(10080)
                if self.table is not None:
                    minute = (minute + until_open(self.table, b, minute)) % 10080
                found.append((office, 'turn', b, minute))
            found += [(office, 'deliver', m, 0) for m in range(len(self.plan.messages))]
        return [event for event in found if self.can(event, self.both)]

    def words(self, both):
        return [getattr(areas, name) for areas in both.areas for name in OWN + ('source', 'grid')] + [both.engaged]

    def gathers_on_one_board(self, first, second, both):
        """Two turns of one board by two offices that can both be taken: both are gathers."""
        if not (first[1] == second[1] == 'turn' and first[2] == second[2] and first[0] != second[0]):
            return False
        assert [both.areas[office].progress[3 * first[2] + 1] for office in (0, 1)] == [0, 0]
        return True

    def swaps(self, first, second):
        """Both orders from this state: the other still gives 0, and every lent word is the same. Leaves out two gathers on one board."""
        if self.gathers_on_one_board(first, second, self.both):
            after = copy.deepcopy(self.both)
            assert self.take(first, after) == 0 and self.take(second, after) == 19
            return False
        ends = []
        for order in ((first, second), (second, first)):
            after = copy.deepcopy(self.both)
            assert [self.take(event, after) for event in order] == [0, 0], (self.encoded.hex(), order)
            ends.append(self.words(after))
        assert ends[0] == ends[1], (self.encoded.hex(), first, second)
        return True


def rewound(bench, log, draw):
    """Neighbouring steps of a list swapped again and again, wherever both can be taken before either; the list then gives 0 all along
    and ends in the same words."""
    bench.start()
    for event in log:
        assert bench.take(event, bench.both) == 0
    end, swapped = bench.words(bench.both), 0
    # a pass of swaps from the front, each tested in the state before it
    bench.start()
    for at in range(len(log) - 1):
        first, second = log[at], log[at + 1]
        if draw.below(2) and first[:3] != second[:3] and bench.can(first, bench.both) and bench.can(second, bench.both):
            if not bench.gathers_on_one_board(first, second, bench.both):
                log[at], log[at + 1] = second, first
                swapped += 1
        assert bench.take(log[at], bench.both) == 0
    assert bench.take(log[-1], bench.both) == 0
    assert bench.words(bench.both) == end
    return swapped


def swaps_along(encoded, route, offices, draw, by_hours):
    """A drawn run; at drawn places every two events that can both be taken; then the whole list rewound a few times."""
    bench = Bench(encoded, route, offices, draw, by_hours)
    log, swapped, left_out = [], 0, 0
    while True:
        able = bench.able(draw)
        if able == []:
            break
        if draw.below(2) == 0:
            for at, first in enumerate(able):
                for second in able[at + 1:]:
                    done = bench.swaps(first, second)
                    swapped, left_out = swapped + done, left_out + (not done)
        log.append(draw.pick(able))
        assert bench.take(log[-1], bench.both) == 0
    assert len(log) == offices * bench.plan.steps
    moved = sum(rewound(bench, log, draw) for _ in range(3))
    return swapped, left_out, moved


def premises_of_swaps():
    """What W-214 asks for is needed: states that no run reaches, and the same event twice."""
    encoded = model.ROWS['D']
    plan = model.plan_of(encoded)[1]

    def both_orders(record, mark, first, second):
        found = []
        for order in ((first, second), (second, first)):
            areas = model.areas_for(plan, [1] * 4)
            areas.progress[:3], areas.status[0] = record, mark
            numbers = [(model.turn if kind == 'turn' else model.deliver)(encoded, areas, which) for kind, which in order]
            found.append((numbers, areas.status[0]))
        return found

    # a send of a message that is delivered already, and the gather that takes it: fit, and reached by no run
    assert both_orders([0, 2, 0], 2, ('turn', 0), ('turn', 1)) == [([0, 12], 1), ([0, 0], 1)]
    # a send and a delivery of the message in flight
    assert both_orders([0, 2, 0], 1, ('turn', 0), ('deliver', 0)) == [([0, 0], 2), ([0, 0], 1)]
    # one event twice is not two events
    assert both_orders([1, 0, 0], 1, ('deliver', 0), ('deliver', 0)) == [([0, 14], 2)] * 2


def check_swaps(count):
    premises_of_swaps()
    recipes, draw = drawn_recipes(27, count // 2)
    cases = [(encoded, route) for encoded in recipes for route in (model.DIRECT, model.INDIRECT)]
    cases += [(encoded, model.DIRECT) for encoded in vectors.shape_recipes()[3:9]]
    totals = [0, 0, 0]
    for encoded, route in cases:
        for offices in (1, 2):
            by_hours = draw.below(2) == 0
            totals = [a + b for a, b in zip(totals, swaps_along(encoded, route, offices, draw, by_hours))]
    assert min(totals) > 2 * len(cases), totals
    return '%d recipes: %d swaps leave the same words, %d pairs of gathers on one board left out; lists rewound by %d swaps' % (
        len(cases), *totals)


# Boards that are lent their own parts alone

def own_events(plan, mail):
    """What may be tried next: a turn or a post of any board, a number too high among the posts; mail comes late, again, or at another board."""
    events = [('turn', b) for b in range(plan.boards)] + [('post', b, m) for b in range(plan.boards) for m in range(len(plan.messages) + 1)]
    return events + [('arrive', b, m, words) for b, m, words in mail] + [('arrive', (b + 1) % plan.boards, m, words) for b, m, words in mail]


def own_step(encoded, route, plan, wide, parts, mail, event):
    """One event, on the parts and on areas that each board has to itself: the number is the same, and so is what the board's part is after it."""
    kind, b, *rest = event
    part, areas = parts[b], wide[b]
    if kind == 'turn':
        numbers = model.part_turn(encoded, part, b, route), model.turn(encoded, areas, b, route)
    elif kind == 'post':
        numbers = model.part_post(encoded, part, b, *rest, route), model.deliver(encoded, areas, *rest, route)
    else:
        numbers = model.part_arrive(encoded, part, b, *rest, route), model.take_in(encoded, areas, b, *rest, route)
    assert numbers[0] == numbers[1], (event, numbers)
    seen = copy.deepcopy(part)
    model.narrow(plan, b, areas, seen)
    assert same(part, seen, ('memory', 'mail', 'progress', 'marks'))
    if kind == 'post' and numbers[0] == 0:
        message = plan.messages[rest[0]]
        mail.append((plan.board_of[message.taker], rest[0], areas.buffer[message.offset:message.offset + len(message.cells)]))
    return numbers[0]


def check_own_run(encoded, route, draw):
    plan = model.plan_of(encoded, route)[1]
    source = [draw.word() for _ in range(plan.cells)]
    parts = [model.own_areas_for(plan, b, source) for b in range(plan.boards)]
    wide, mail, numbers, steps = [model.areas_for(plan, source) for _ in range(plan.boards)], [], set(), 0
    total = plan.steps + len(plan.messages)
    while steps < total:
        number = own_step(encoded, route, plan, wide, parts, mail, draw.pick(own_events(plan, mail)))
        numbers.add(number)
        steps += number == 0
    # the grid is put together in any order of the boards
    grid = [draw.word() for _ in range(plan.cells)]
    for b in sorted(range(plan.boards), key=lambda b: draw.word()):
        parts[b].grid = grid
        assert model.part_collect(encoded, parts[b], b, route) == 0
    assert grid == plan.swept(source)
    return numbers


def check_own(count):
    recipes, draw = drawn_recipes(31, count)
    cases = [(encoded, route) for encoded in recipes for route in (model.DIRECT, model.INDIRECT)]
    cases += [(encoded, model.DIRECT) for encoded in vectors.shape_recipes()[3:9]]
    seen = set()
    for encoded, route in cases:
        seen |= check_own_run(encoded, route, draw)
    assert seen == {0, 11, 12, 13, 14}, seen
    return '%d recipes: boards with their own parts alone answer as with all areas, mail late and again; grids are the sweep' % len(cases)


def check(count=12):
    for part in (check_offices, check_shapes, check_soundings, check_charts, check_hours, check_swaps, check_own):
        print(part(count))


if __name__ == '__main__':
    check(*[int(word) for word in sys.argv[1:]])
