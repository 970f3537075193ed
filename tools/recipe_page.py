"""Holds docs/RECIPE.md to the model: each worked value, size, run and each number's example. Run as

    python3 tools/recipe_page.py [LIBRARY]

With a LIBRARY, the shared object librolwyddac.so, every example is made by it too, through bindings/python. Then examples with
a wrong number are tried, each of which must be told. Status 1 where anything is wrong.
"""

import array
import os
import re
import sys

import model

ROOT = os.path.join(os.path.dirname(os.path.abspath(__file__)), '..')
PAGE = 'docs/RECIPE.md'


class Wrong(Exception):
    pass


# Reading the page

def blocks(text, kind):
    """The fenced blocks of a kind: what stands behind the kind, and the lines."""
    found = re.findall(r'^```%s *([^\n]*)\n(.*?)^```$' % kind, text, flags=re.M | re.S)
    if not found:
        raise Wrong('no block %s' % kind)
    return [(name, body.splitlines()) for name, body in found]


def record_of(line):
    """The bytes of a line, zeros at the end filled in; what stands behind two blanks is a remark."""
    given = bytes.fromhex(re.split(r'  +', line)[0])
    return given + bytes(16 - len(given))


def recipes(text):
    return {name: b''.join(record_of(line) for line in lines) for name, lines in blocks(text, 'recipe')}


def numbers(text):
    """The rows of the tables of numbers: number, term, example."""
    return [(int(number), term, example)
            for number, term, example in re.findall(r'^\| (\d+) \| ([^|]+) \| [^|]+ \| `([^`]+)` \|$', text, flags=re.M)]


def changed(recipe, words):
    """A recipe with bytes set: 0.2=7 is byte 2 of record 0."""
    new = bytearray(recipe)
    for word in words:
        record, byte, value = map(int, re.fullmatch(r'(\d+)\.(\d+)=(\d+)', word).groups())
        new[16 * record + byte] = value
    return bytes(new)


def recipe_of(text, known):
    name, *words = text.split()
    return b'' if name == 'empty' else changed(known[name], words)


# words of a table of hours for each processor
HOURS = 28


# The model and the library, by the same few calls

class ByModel:
    """The areas of two offices over sources of ones; the first is the one that has the run of one office."""

    def __init__(self, encoded, route=0):
        self.encoded, self.route = encoded, route
        self.number, plan = model.plan_of(encoded, route)
        if self.number == 0:
            self.offices = model.Offices(plan, [1] * plan.cells, [1] * plan.cells)
            self.areas = self.offices.areas[0]

    def fresh(self):
        return model.fresh(self.encoded, self.areas, self.route)

    def turn(self, processor):
        return model.turn(self.encoded, self.areas, processor, self.route)

    def turn_at(self, processor, minute):
        """A turn with a table that has no window."""
        hours = model.Hours([0] * (HOURS * len(self.offices.engaged)), minute)
        return model.turn(self.encoded, self.areas, processor, self.route, hours=hours)

    def opens(self, table, minute):
        """Whether processor 0 ever opens, and in how many minutes."""
        return model.opens(self.encoded, table, minute, 0)[1:]

    def deliver(self, message):
        return model.deliver(self.encoded, self.areas, message, self.route)

    def collect(self):
        return model.collect(self.encoded, self.areas, self.route)

    def chart(self, x, y, size):
        """The number and the text of the sweep's grid."""
        number, _ = model.chart_length(self.encoded, self.areas.grid, x, y, size)
        model.sweep(self.encoded, self.areas.source, self.areas.grid)
        return number, None if number else model.chart_text(model.read(self.encoded)[1], self.areas.grid, x, y, size).decode()

    def fresh_both(self):
        first, second = self.offices.areas
        return model.fresh_both(self.encoded, first, second, self.offices.engaged, self.route)

    def rounds(self):
        """The rounds of a driven run, and each tile's."""
        tiles = [0] * model.plan_of(self.encoded)[1].tiles
        model.rounds_of(self.encoded, tiles)
        return model.rounds(self.encoded, self.areas)[1], tiles

    def turn_of(self, office, processor):
        return self.offices.call(self.encoded, office, ('turn', processor), self.route)

    def sounding(self, cell):
        return model.soundings(self.encoded, model.sounding_records((cell, 0, 0, 0)), 0, self.areas.source)

    def packet(self, sent):
        """The number of bytes that are read for run 0: a packet of a run, or none."""
        mark = model.fingerprint(self.encoded, self.route)
        return self.packet_number(mark, b'' if sent is None else model.packet(mark, sent, 0, 1, 0, 1, 0, 0, [7])[1])

    def packet_number(self, mark, text):
        return model.packet_number(mark, 0, text)

    def indirect(self):
        return model.plan_of(self.encoded, model.INDIRECT)[0]

    def resize(self, area, length):
        setattr(self.areas, area, ([0] * length))

    def poke(self, area, at, value):
        getattr(self.areas, area)[at] = value


class ByLibrary(ByModel):
    """The same by the library; the areas are kept in the model's form, so that a call is made on a copy and all of it taken back."""

    def __init__(self, encoded, route=0):
        import rolwyddac
        self.library = rolwyddac
        super().__init__(encoded, route)
        self.number = self.number_of(lambda: rolwyddac.sizes(encoded, route))

    def number_of(self, call):
        try:
            call()
        except self.library.Refused as refusal:
            return refusal.number
        return 0

    def indirect(self):
        return self.number_of(lambda: self.library.sizes(self.encoded, 1))

    def sizes(self):
        found = self.library.sizes(self.encoded, self.route)
        return {area: getattr(found, area) for area in SIZES}

    def lent(self, areas):
        """Memories, buffer, progress and status as arrays."""
        progress = (self.library.Progress * (len(areas.progress) // 3)).from_buffer_copy(array.array('I', areas.progress))
        return array.array('I', areas.memories), array.array('I', areas.buffer), progress, bytearray(areas.status)

    def called(self, name, areas, *last):
        """A call on one run's areas, what it is lent taken back."""
        memories, buffer, progress, status = lent = self.lent(areas)
        number = self.number_of(lambda: self.library.calls.EXPORTED[name](self.encoded, self.route, areas.source, *lent, *last))
        areas.memories, areas.buffer, areas.status = list(memories), list(buffer), list(status)
        areas.progress = [word for record in progress for word in (record.finished, record.stage, record.sent)]
        return number

    def fresh(self):
        return self.called('fresh', self.areas)

    def turn(self, processor):
        return self.called('turn', self.areas, processor)

    def turn_at(self, processor, minute):
        return self.called('turn_at', self.areas, [0] * (HOURS * len(self.offices.engaged)), minute, processor)

    def opens(self, table, minute):
        found = self.library.opens(self.encoded, table, minute, 0)
        return (0, 0) if found is None else (1, found)

    def deliver(self, message):
        return self.called('deliver', self.areas, message)

    def collect(self):
        grid = array.array('I', self.areas.grid)
        number = self.called('collect', self.areas, grid)
        self.areas.grid = list(grid)
        return number

    def chart(self, x, y, size):
        text = []
        grid = self.library.sweep(self.encoded, self.areas.source)
        number = self.number_of(lambda: text.append(self.library.chart(self.encoded, grid, x, y, size)))
        return number, text[0] if text else None

    def fresh_both(self):
        first, second = self.offices.areas
        self.engaged = array.array('I', self.offices.engaged)
        return self.number_of(lambda: self.library.calls.EXPORTED['fresh_both'](
            self.encoded, self.route, first.source, *self.lent(first), second.source, *self.lent(second), self.engaged))

    def rounds(self):
        return self.library.rounds(self.encoded, self.areas.source)[0], self.library.rounds_of(self.encoded)

    def turn_of(self, office, processor):
        own, other = self.offices.areas[office], self.lent(self.offices.areas[1 - office])[2]
        return self.called('tenant_turn', own, self.engaged, other, office, processor)

    def packet_number(self, mark, text):
        return self.number_of(lambda: self.library.calls.EXPORTED['packet_read'](mark, 0, text, array.array('I', [0] * model.PACKET_WORDS)))

    def sounding(self, cell):
        return self.number_of(lambda: self.library.soundings(self.encoded, [(cell, 0, 0, 0)], 0))


CALLS = [
    (r'indirect', lambda by: by.indirect()),
    (r'fresh', lambda by: by.fresh()),
    (r'turn (\d+)', lambda by, processor: by.turn(processor)),
    (r'chart with cell size (\d+)', lambda by, size: by.chart(0, 0, size)[0]),
    (r'deliver (\d+)', lambda by, message: by.deliver(message)),
    (r'collect', lambda by: by.collect()),
    (r'turn (\d+) at minute (\d+)', lambda by, processor, minute: by.turn_at(processor, minute)),
    (r'fresh both', lambda by: by.fresh_both()),
    (r'turn (\d+) of office (\d+)', lambda by, processor, office: by.turn_of(office, processor)),
    (r'packet of no bytes', lambda by: by.packet(None)),
    (r'packet of run (\d+) read for run 0', lambda by, sent: by.packet(sent)),
    (r'sounding of cell (\d+)', lambda by, cell: by.sounding(cell)),
]


def call(by, text):
    """One call, or a change of the areas, which gives 0."""
    change = re.fullmatch(r'(\w+) of (\d+)', text)
    if change:
        by.resize(change[1], int(change[2]))
        return 0
    change = re.fullmatch(r'(\w+) (\d+) = (\d+)', text)
    if change:
        by.poke(change[1], int(change[2]), int(change[3]))
        return 0
    for pattern, made in CALLS:
        found = re.fullmatch(pattern, text)
        if found:
            return made(by, *map(int, found.groups()))
    raise Wrong('no call: %s' % text)


def given(maker, example, known):
    """The number that an example gives."""
    start, _, calls = example.partition(': ')
    by = maker(recipe_of(start, known))
    if not calls or by.number != 0:
        return by.number
    *before, last = calls.split(', ')
    for text in before:
        if call(by, text) != 0:
            raise Wrong('%s: %s is refused' % (example, text))
    return call(by, last)


# What the blocks should say

def value_line(plan, source, grid, c):
    place = plan.places[c]
    terms, total = ['%d' % source[c]], source[c]
    for d, weight in zip(plan.nest.components, plan.nest.weights):
        before = tuple(i - x for i, x in zip(place, d))
        read = plan.nest.boundary if any(i < 0 for i in before) else grid[plan.cell_number[before]]
        terms.append('%d × %d' % (weight, read))
        total += weight * read
    whole = 2 ** plan.nest.shift
    return 'cell %d at %s: %s = %d, %d / %d = %d' % (
        c, ','.join(map(str, place)), ' + '.join(terms), total, total, whole, grid[c])


def value_lines(encoded, lines):
    _, plan = model.plan_of(encoded)
    source = [100 + c for c in range(plan.cells)]
    grid = plan.swept(source)
    return [value_line(plan, source, grid, int(line.split()[1])) for line in lines]


SIZES = ('source', 'memories', 'buffer', 'progress', 'status', 'grid', 'engaged')


def rounds_line(maker, name, encoded):
    rounds, tiles = maker(encoded).rounds()
    return '%s: %d rounds, of tiles %s' % (name, rounds, ' '.join(map(str, tiles)))


def size_line(maker, name, route, encoded):
    by = maker(encoded, 0 if route == 'direct' else 1)
    sizes = by.sizes() if hasattr(by, 'sizes') else {
        **{area: len(getattr(by.areas, area)) for area in SIZES[:-1]},
        'progress': len(by.areas.progress) // 3, 'engaged': len(by.offices.engaged)}
    plan = model.plan_of(encoded, by.route)[1]
    return '%s %s: %s; tiles %d messages %d words %d steps %d' % (
        name, route, ' '.join('%s %d' % (area, sizes[area]) for area in SIZES),
        plan.tiles, len(plan.messages), plan.words, plan.steps)


def grid_lines(encoded):
    """The sweep's grid over 100, 101, .., a row a line."""
    _, plan = model.plan_of(encoded)
    grid, columns = plan.swept([100 + c for c in range(plan.cells)]), plan.nest.lengths[1]
    return [' '.join('%3d' % word for word in grid[at:at + columns]) for at in range(0, plan.cells, columns)]


# columns of a call in a run's lines
CALL = 9


def joined(words):
    return ','.join(map(str, words))


def run_line(by, text):
    number = call(by, text)
    areas, cells = by.areas, len(by.areas.source)
    if text == 'collect':
        return '%-*s %2d   grid %s' % (CALL, text, number, joined(areas.grid))
    records = ' '.join(joined(areas.progress[at:at + 3]) for at in range(0, len(areas.progress), 3))
    memories = ' '.join(joined(areas.memories[at:at + cells]) for at in range(0, len(areas.memories), cells))
    return '%-*s %2d   progress %s   status %s   buffer %s   memories %s' % (
        CALL, text, number, records, joined(areas.status), joined(areas.buffer), memories)


def hours_line(maker, encoded, line):
    windows, minute = re.fullmatch(r'windows ?(.*) ?at (\d+): .*', line).groups()
    table = [int(word) for window in windows.split() for word in window.split('-')]
    by = maker(encoded)
    ever, minutes = by.opens(table + [0] * (HOURS * len(by.offices.engaged) - len(table)), int(minute))
    told = 'never opens' if not ever else 'open' if minutes == 0 else 'opens in %d' % minutes
    return '%s: %s' % (line.split(':')[0], told)


def run_lines(maker, encoded, lines):
    by = maker(encoded)
    return [run_line(by, line[:CALL].strip()) for line in lines]


def row_line(cells):
    """A row of the table of named recipes, its figures by the model."""
    name, lengths, tiling, counts, distances = cells[:5]
    fields = [[int(word) for word in field.split(',')] for field in (lengths, tiling, counts)]
    encoded = model.encode(*fields, [[int(word) for word in d.split(',')] for d in re.findall(r'\(([^)]*)\)', distances)])
    _, plan = model.plan_of(encoded)
    figures = [plan.tiles, len(plan.messages), plan.words, plan.steps]
    return '| %s |' % ' | '.join([*cells[:5], *map(str, figures)])


def differences(text, maker):
    """What is wrong, one line each."""
    known = recipes(text)
    found = []

    def hold(what, got, wanted):
        found.extend('%s: `%s`, not `%s`' % (what, g, w) for g, w in zip(got, wanted) if g != w)

    for _, lines in blocks(text, 'rounds'):
        names = [line.split(':')[0] for line in lines]
        hold('rounds', lines, [rounds_line(maker, name, known[name]) for name in names])
    for name, lines in blocks(text, 'value'):
        hold('value', lines, value_lines(known[name], lines))
    for name, lines in blocks(text, 'grid'):
        hold('grid', lines, grid_lines(known[name]))
    for _, lines in blocks(text, 'sizes'):
        hold('sizes', lines, [size_line(maker, *re.match(r'(\w+) (\w+)', line).groups(), known[line.split()[0]])
                              for line in lines])
    for name, lines in blocks(text, 'chart'):
        recipe, *rest = name.split()
        hold('chart', lines, maker(known[recipe]).chart(*map(int, rest))[1].splitlines())
    for name, lines in blocks(text, 'run'):
        hold('run', lines, run_lines(maker, known[name], lines))
    rows = re.findall(r'^\| [A-H] \| .* \|$', text, flags=re.M)
    hold('row', rows, [row_line(line[2:-2].split(' | ')) for line in rows])
    for _, lines in blocks(text, 'hours'):
        hold('hours', lines, [hours_line(maker, known['D'], line) for line in lines])
    for number, term, example in numbers(text):
        got = given(maker, example, known)
        if got != number:
            found.append('`%s` gives %d, not %d' % (example, got, number))
    return found


# lines of the page, and what is not so in their place
UNTRUE = [
    ('= 402, 402 / 4 = 100', '= 403, 403 / 4 = 100'),
    ('327 330', '327 331'),
    ('D direct: source 4', 'D direct: source 5'),
    ('ncols 1', 'ncols 2'),
    ('memories 8 buffer', 'memories 9 buffer'),
    ('opens in 9540', 'opens in 9539'),
    ('words 1 steps 6', 'words 1 steps 7'),
    ('deliver 0  0   progress 1,0,0 0,0,0   status 2', 'deliver 0  0   progress 1,0,0 0,0,0   status 1'),
    ('| 14 | 12 |', '| 14 | 13 |'),
    ('D: 2 rounds', 'D: 3 rounds'),
    ('grid 1,2,3,4', 'grid 1,2,3,5'),
]


def untold(text, maker):
    """Rows whose number is changed, one after the other, and pages with a wrong line: those that are not told."""
    pages = [(example, text.replace('| %d | %s |' % (number, term), '| %d | %s |' % (number + 1, term)))
             for number, term, example in numbers(text)]
    pages += [(old, text.replace(old, new)) for old, new in UNTRUE]
    return ['not told: %s' % what for what, page in pages if page == text or not differences(page, maker)]


def terms_of(header):
    """Number and term of each line of the header's table, in its order."""
    return re.findall(r'^ \* +(\d+) (\S.*?)  +\S.*$', header, flags=re.M)


def main(words):
    text = open(os.path.join(ROOT, PAGE), encoding='utf-8').read()
    header = open(os.path.join(ROOT, 'bindings', 'c', 'rolwyddac.h'), encoding='utf-8').read()
    makers = [ByModel]
    if words:
        os.environ['ROLWYDDAC_LIB'] = os.path.dirname(os.path.abspath(words[0]))
        sys.path.insert(0, os.path.join(ROOT, 'bindings', 'python'))
        makers.append(ByLibrary)
    try:
        found = [line for maker in makers for line in differences(text, maker)]
        rows = [(str(number), term) for number, term, _ in numbers(text)]
        if rows != terms_of(header):
            found.append('numbers and terms are not those of the header, in its order')
        found = found or untold(text, ByModel)
    except (Wrong, ValueError, KeyError) as wrong:
        found = ['%s: %s' % (type(wrong).__name__, wrong)]
    for line in found:
        print(line)
    if not found:
        print('%d numbers, each with its example, by %s' % (len(rows), ' and '.join(maker.__name__ for maker in makers)))
    sys.exit(1 if found else 0)


if __name__ == '__main__':
    main(sys.argv[1:])
