"""Scripts for a rig with two offices and hours: the stored vectors of bindings/cases/offices and hours. README.md has the format,
`python3 tools/vectors.py` writes them."""

import model
import vectors
from vectors import COUNT, DRAWN, DRAWN_FEW, EACH, Draw

# the areas of each office, then those of the rig
OFFICE_AREAS = ['source', 'memories', 'buffer', 'progress', 'status', 'grid']
NAMES = [''] + OFFICE_AREAS + ['engaged', 'hours']
ROOM = {'source': 256, 'memories': 1024, 'buffer': 1792, 'progress': 192, 'status': 1792, 'grid': 256, 'engaged': 64, 'hours': 1792}
OPS = {'case': 1, 'recipe': 2, 'lend': 3, 'fill': 4, 'poke': 5, 'fresh': 6, 'deliver alone': 8, 'collect alone': 9, 'sweep': 10, 'show': 11,
       'route': 12, 'fresh both': 16, 'turn': 17, 'deliver': 18, 'collect': 19, 'view': 20, 'turn alone at': 21, 'turn at': 22, 'opens': 23}
HIGH = 4294967295


def hashed(words, h=2166136261):
    for x in words:
        h = (h * 16777619 + x) % model.WORD
    return h


REFUSED = {}


def refused_by(number):
    """A recipe that a line of the reader refuses; most of them have another fault too."""
    if REFUSED == {}:
        REFUSED.update((model.read(encoded)[0], encoded) for encoded in vectors.refused_recipes() if len(encoded) <= 512)
    return REFUSED[number]


class RigScript:
    """Records for the program, and beside them what the model says that it prints. An area is named by its office and its name; the
    rig's own areas have office 0."""

    def __init__(self):
        self.records, self.lines, self.words = [], [], []
        self.arrays = {key: [0] * ROOM[key[1]] for key in self.keys() + [(0, 'hours')]}
        self.numbers = {}
        self.count = 0
        self.begin()

    def keys(self):
        """The areas that a call may write, in the checksum's order."""
        return [(office, name) for office in (0, 1) for name in OFFICE_AREAS] + [(0, 'engaged')]

    def begin(self):
        self.lent = {key: 0 for key in self.arrays}
        self.encoded = b''
        self.route = model.DIRECT

    def record(self, op, office=0, area='', rule=0, a=0, b=0, c=0):
        words = b''.join(x.to_bytes(4, 'little') for x in (a, b, c))
        self.records.append(bytes([OPS[op], NAMES.index(area), rule, office]) + words)

    def explain(self, text, line=''):
        self.words.append('%-52s%s' % (text, line))

    def say(self, text, line):
        self.lines.append(line)
        self.explain(text, line)

    def case(self, what):
        self.record('case', a=self.count)
        self.say('case %d: %s' % (self.count, what), 'case %d' % self.count)
        self.count += 1
        self.begin()

    def recipe(self, encoded):
        assert len(encoded) <= 512
        self.record('recipe', a=len(encoded))
        padded = encoded + bytes(-len(encoded) % 16)
        self.records += [padded[at:at + 16] for at in range(0, len(padded), 16)]
        self.encoded = encoded
        self.explain('  recipe of %d bytes' % len(encoded))

    def by(self, route):
        if route != self.route:
            self.record('route', a=route)
            self.explain('  route %d' % route)
        self.route = route

    def lend(self, office, area, length):
        assert 0 <= length <= ROOM[area]
        self.record('lend', office, area, a=length)
        self.lent[office, area] = length
        self.explain('  lend %s %d of office %d' % (area, length, office))

    def fill(self, office, area, rule, a=0):
        self.record('fill', office, area, rule, a)
        draw = Draw(a)
        for at in range(self.lent[office, area]):
            word = [lambda: a, lambda: (a + at + 1) % model.WORD, draw.word, lambda: draw.word() >> 30][rule]()
            self.arrays[office, area][at] = word % 256 if area == 'status' else word
        self.explain('  fill %s of office %d by rule %d of %d' % (area, office, rule, a))

    def poke(self, office, area, at, word):
        assert at < self.lent[office, area] and (area != 'status' or word < 256)
        self.record('poke', office, area, a=at, b=word)
        self.arrays[office, area][at] = word
        self.explain('  poke %s[%d] of office %d = %d' % (area, at, office, word))

    def record_of(self, office, b, finished, stage, sent):
        for j, word in enumerate((finished, stage, sent)):
            if self.arrays[office, 'progress'][3 * b + j] != word:
                self.poke(office, 'progress', 3 * b + j, word)

    def show(self, office, area):
        self.record('show', office, area)
        self.say('  show %s of office %d' % (area, office), ''.join('%d ' % word for word in self.words_of(office, area)))

    def words_of(self, office, area):
        return self.arrays[office, area][:self.lent[office, area]]

    def checksum(self):
        h = 2166136261
        for key in self.keys():
            h = hashed([self.lent[key]] + self.words_of(*key), h)
        return h

    def areas(self, office):
        areas = model.Areas()
        for name in OFFICE_AREAS:
            setattr(areas, name, self.words_of(office, name))
        return areas

    def call(self, op, answer, office=0, **given):
        """A call: its number, what it tells beside it, and a checksum of every lent word."""
        both, engaged = [self.areas(0), self.areas(1)], self.words_of(0, 'engaged')
        before = self.checksum()
        got = answer(both, engaged)
        number, told = got if isinstance(got, tuple) else (got, ())
        for key in self.keys():
            words = getattr(both[key[0]], key[1]) if key[1] in OFFICE_AREAS else engaged
            assert len(words) == self.lent[key]
            self.arrays[key][:len(words)] = words
        assert number == 0 or self.checksum() == before
        self.record(op, office, **given)
        line = ' '.join([str(number)] + [str(x) for x in told] + ['%08x' % self.checksum()])
        self.say('  %s %s, areas of office %d' % (op, list(given.values()), office), line)
        self.numbers.setdefault(op, set()).add(number)
        return number

    # calls; `office` is whose areas are lent, `named` the number given

    def fresh_both(self):
        return self.call('fresh both', lambda both, engaged: model.fresh_both(self.encoded, *both, engaged, self.route))

    def rig(self, both, engaged, office, named):
        return model.Rig(engaged, both[1 - office].progress, named)

    def for_office(self, op, call, office, which, named):
        """A turn or a delivery; the number given is that of the office whose areas are lent, unless named."""
        named = office if named is None else named
        return self.call(op, lambda both, engaged: call(
            self.encoded, both[office], which, self.route, self.rig(both, engaged, office, named)), office, a=which, b=named)

    def turn(self, office, b, named=None):
        return self.for_office('turn', model.turn, office, b, named)

    def deliver(self, office, m, named=None):
        return self.for_office('deliver', model.deliver, office, m, named)

    def collect(self, office, named=None):
        named = office if named is None else named
        return self.call('collect', lambda both, engaged: model.collect(
            self.encoded, both[office], self.route, self.rig(both, engaged, office, named)), office, b=named)

    def view(self, named, b):
        """Tells where the part begins, its length and its words' checksum."""
        def answer(both, engaged):
            number, start, part = model.view(self.encoded, both[0].memories, both[1].memories, named, b)
            return number, (start, len(part), '%08x' % hashed(part))
        return self.call('view', answer, a=b, b=named)

    # one office alone, and hours (W-212); only what a program of hours calls

    def fresh(self, office=0):
        return self.call('fresh', lambda both, engaged: model.fresh(self.encoded, both[office], self.route), office)

    def deliver_alone(self, m, office=0):
        return self.call('deliver alone', lambda both, engaged: model.deliver(self.encoded, both[office], m, self.route), office, a=m)

    def collect_alone(self, office=0):
        return self.call('collect alone', lambda both, engaged: model.collect(self.encoded, both[office], self.route), office)

    def hours(self, minute):
        return model.Hours(self.words_of(0, 'hours'), minute)

    def turn_alone_at(self, minute, b, office=0):
        return self.call('turn alone at', lambda both, engaged: model.turn(
            self.encoded, both[office], b, self.route, None, self.hours(minute)), office, a=b, c=minute)

    def turn_at(self, minute, office, b, named=None):
        named = office if named is None else named
        return self.call('turn at', lambda both, engaged: model.turn(
            self.encoded, both[office], b, self.route, self.rig(both, engaged, office, named), self.hours(minute)),
            office, a=b, b=named, c=minute)

    def opens(self, minute, b):
        def answer(both, engaged):
            number, flag, wait = model.opens(self.encoded, self.words_of(0, 'hours'), minute, b)
            return number, (flag, wait)
        return self.call('opens', answer, a=b, c=minute)

    def table(self, *boards):
        """Lends a table with these windows; most words are zero."""
        words = model.table_of(*boards)
        if self.lent[0, 'hours'] != len(words):
            self.lend(0, 'hours', len(words))
        self.fill(0, 'hours', EACH, 0)
        for at, word in enumerate(words):
            if word != 0:
                self.poke(0, 'hours', at, word)

    def sweep(self, office):
        return self.call('sweep', lambda both, engaged: model.sweep(self.encoded, both[office].source, both[office].grid), office)

    # what several cases share

    def lengths(self, plan):
        own = {'source': plan.cells, 'memories': plan.cells * plan.boards, 'buffer': plan.words, 'progress': 3 * plan.boards,
               'status': len(plan.messages), 'grid': plan.cells}
        found = {(office, name): length for office in (0, 1) for name, length in own.items()}
        found[0, 'engaged'] = plan.boards
        return found

    def start(self, what, encoded, seed=1, route=model.DIRECT, both=True):
        """A case with every area lent at its length: sources drawn, all others filled with words that a fresh start has to clear."""
        number, plan = model.plan_of(encoded, route)
        assert number == 0
        self.case(what)
        self.recipe(encoded)
        self.by(route)
        for (office, name), length in self.lengths(plan).items():
            if both or office == 0:
                self.lend(office, name, length)
        for office in (0, 1) if both else (0,):
            self.fill(office, 'source', DRAWN, 2 * seed + office)
            for name in ('memories', 'buffer', 'grid'):
                self.fill(office, name, COUNT, 1000 * (seed + office))
            self.fill(office, 'progress', EACH, 0)
            self.fill(office, 'status', EACH, 0)
        self.fill(0, 'engaged', EACH, model.FREE)
        return plan

    def all_calls(self, office, named=None):
        """Turn, delivery and collecting of an office, board and message 0."""
        return [self.turn(office, 0, named), self.deliver(office, 0, named), self.collect(office, named)]


# W-208

def office_facts(s):
    """Row D by hand, as tools/model.py has it."""
    s.start('row D by both offices', model.ROWS['D'])
    s.fill(0, 'source', EACH, 1)
    s.fill(1, 'source', COUNT, 4)
    s.fill(0, 'engaged', EACH, 7)
    for office in (0, 1):
        s.fill(office, 'progress', DRAWN, 5)
        s.fill(office, 'status', EACH, 255)
    assert s.fresh_both() == 0
    s.show(0, 'engaged')
    assert s.lines[-1] == '2 2 '
    for office, b, number in ((0, 0, 0), (1, 0, 19), (0, 0, 0), (1, 0, 19), (0, 0, 0), (1, 0, 0), (0, 0, 13), (1, 1, 12)):
        assert s.turn(office, b) == number
    s.show(0, 'engaged')
    assert s.lines[-1] == '1 2 '
    assert [s.deliver(1, 0), s.deliver(0, 0), s.deliver(0, 0), s.turn(0, 1), s.turn(1, 1), s.turn(0, 1)] == [14, 0, 14, 0, 19, 0]
    assert [s.collect(0), s.collect(1)] == [0, 15]
    assert [s.turn(1, 0), s.turn(1, 0), s.deliver(1, 0), s.turn(1, 1), s.turn(1, 1), s.turn(1, 1)] == [0, 0, 0, 0, 0, 13]
    assert [s.collect(0), s.collect(1)] == [0, 0]
    for office, values in ((0, '1 2 3 4 '), (1, '5 11 18 26 ')):
        s.show(office, 'grid')
        assert s.lines[-1] == values
    assert [s.view(office, b) for office in (0, 1, 2) for b in (0, 1, 2)] == [0, 0, 11] * 2 + [11] * 3


def office_refusals(s):
    """The lines on the recipe, then 9 for each lent area, each before the next line."""
    for number in vectors.ORDER:
        encoded = refused_by(number)
        s.case('a recipe refused %d' % number)
        s.recipe(encoded)
        s.by(number % 2)
        for office, name in s.keys():
            s.lend(office, name, 3)
            s.fill(office, name, DRAWN, number)
        assert [s.fresh_both()] + s.all_calls(number % 2, 2) + [s.view(2, 9)] == [number] * 5
    # 21 in calls that are given a route, before 9; the view has none
    shape = vectors.shape_recipes()[0]
    s.start('a shape by the indirect route', shape)
    s.by(1)
    s.lend(0, 'engaged', 1)
    assert [s.fresh_both()] + s.all_calls(0) + s.all_calls(1, 2) + [s.view(1, 0)] == [21] * 7 + [0]
    encoded = model.ROWS['D']
    plan = s.start('row D, areas of wrong lengths', encoded)
    for (office, name), length in s.lengths(plan).items():
        for wrong in (length - 1, length + 1) if name in ('memories', 'progress', 'engaged') else (length + 1,):
            s.lend(office, name, wrong)
            shared = name == 'engaged'
            # an office is lent the other's records alone; the view both strips alone
            own = [shared or office == whose or name == 'progress' for whose in (0, 1)]
            assert (s.fresh_both() == 9) == (name != 'grid')
            for whose in (0, 1):
                for named in (whose, 2):
                    wanted = 9 if own[whose] else 0 if named < 2 else 11
                    got = s.all_calls(whose, named)
                    assert got[2] == (wanted or 15) and (got[0] == 9) == (wanted == 9 and name != 'grid')
            assert s.view(2, 0) == (9 if name == 'memories' else 11)
            s.lend(office, name, length)
            assert s.fresh_both() == 0


def office_lines(s):
    """11 for the office before 10; 10 by records, marks and shared words; 11; 19, 12 and 13."""
    encoded = model.ROWS['A']
    plan = s.start('row A, an office above 1', encoded)
    for named in (2, 3, 256, HIGH):
        assert s.all_calls(0, named) == [11] * 3
    s.poke(0, 'engaged', 1, 3)
    assert s.all_calls(1, 2) == [11] * 3 and s.all_calls(1) == [10] * 3
    s.start('row A, shared words and stages that disagree', encoded)

    def disagree(what, engaged, first, second, number=10):
        s.poke(0, 'engaged', 1, engaged)
        for office, stage in ((0, first), (1, second)):
            s.record_of(office, 1, 0, stage, 0)
        for office in (0, 1):
            got = [s.turn(office, 0), s.turn(office, 2), s.deliver(office, 0), s.deliver(office, HIGH), s.collect(office)]
            assert (got == [10] * 5) if number == 10 else (10 not in got), what
            s.record_of(office, 0, 0, 0, 0)
            s.poke(0, 'engaged', 0, 2)

    for engaged in (0, 1, 2, 3, HIGH):
        for first in (0, 1, 2):
            for second in (0, 1):
                right = {(0, 1, 0), (0, 2, 0), (1, 0, 1), (2, 0, 0)}
                if (engaged, first, second) in right or first + second < 3 and (engaged < 3 or first == second == 0):
                    disagree((engaged, first, second), engaged, first, second, 0 if (engaged, first, second) in right else 10)
    plan = s.start('row A, unfit records of the other and own marks', encoded)
    for record in ((len(plan.tiles_of[1]) + 1, 0, 0), (0, 3, 0), (0, 0, 1), (len(plan.tiles_of[1]), 1, 0)):
        s.record_of(1, 1, *record)
        assert s.all_calls(0) == s.all_calls(1) == [10] * 3
    assert s.all_calls(0, 2) == s.all_calls(1, 2) == [11] * 3
    s.record_of(1, 1, 0, 0, 0)
    s.poke(1, 'status', 3, 4)
    # the other's marks are not lent
    assert s.all_calls(1, 2) == [11] * 3 and s.all_calls(0)[0] == 0 and s.all_calls(1) == [10] * 3
    plan = s.start('row A, 11, 19, 12 and 13 beside each other', encoded)
    tiles = [len(tiles) for tiles in plan.tiles_of]
    s.record_of(1, 1, 0, 1, 0)
    s.poke(0, 'engaged', 1, 1)
    # board 1 waits for office 0 and is held; a number too high comes before
    assert [s.turn(0, 2), s.turn(0, 1), s.turn(1, 2), s.deliver(0, len(plan.messages)), s.deliver(0, 0)] == [11, 19, 11, 11, 14]
    s.record_of(0, 1, tiles[1], 0, 0)
    assert s.turn(0, 1) == 13 and s.turn(1, 1) == 0
    s.record_of(0, 1, 0, 0, 0)
    assert s.turn(0, 1) == 19
    # the same areas given as the other office's: its board is its own then
    assert s.turn(1, 1, 0) == 10
    s.start('row A, the areas of one given as the other', encoded)
    assert s.turn(0, 0, 1) == 0
    s.show(0, 'engaged')
    assert s.lines[-1] == '1 2 ' and s.turn(0, 0) == 10 and s.turn(1, 0, 0) == 19


def office_states(s):
    """Drawn fit states that no run reaches, each board free, or held by either office."""
    draw = Draw(31)
    recipes = [(model.ROWS['A'], 0), (vectors.single_recipes()[2], 0), (model.ROWS['H'], 0)]
    recipes += [(vectors.drawn_recipe(draw, 80, most_words=1000, n=n, m=m), k % 2) for k, (n, m) in enumerate(((2, 1), (3, 2), (4, 3)))]
    for encoded, route in recipes:
        plan = s.start('a drawn fit state', encoded, draw.below(900), route)
        for office in (0, 1):
            s.fill(office, 'status', DRAWN_FEW, draw.word())
        for b in range(plan.boards):
            held = draw.below(3)
            for office in (0, 1):
                tiles = plan.tiles_of[b]
                finished, stage, sent = draw.below(len(tiles) + 1), 0, 0
                if held == office:
                    if finished == len(tiles):
                        held = model.FREE
                    else:
                        sends = len(plan.sends_of[tiles[finished]])
                        stage = 1 + draw.below(2 if sends else 1)
                        sent = draw.below(sends) if stage == 2 else 0
                s.record_of(office, b, finished, stage, sent)
            s.poke(0, 'engaged', b, held)
        for _ in range(24):
            office = draw.below(2)
            if draw.below(3):
                assert s.turn(office, draw.below(plan.boards)) != 10
            elif draw.below(5):
                assert s.deliver(office, draw.below(len(plan.messages) + 1)) != 10
            else:
                assert s.collect(office) in (0, 15)


def office_run(s, encoded, route, draw):
    """A drawn run of both offices to the end, collected and held to both sweeps."""
    plan = s.start('both offices, %d steps each' % model.plan_of(encoded, route)[1].steps, encoded, draw.below(1000), route)
    assert s.fresh_both() == 0
    steps = [0, 0]
    while steps != [plan.steps] * 2:
        office = draw.below(2)
        kind = draw.below(16)
        both, engaged = [s.areas(0), s.areas(1)], s.words_of(0, 'engaged')
        able = [b for b in range(plan.boards)
                if model.turn_number(encoded, both[office], b, route, s.rig(both, engaged, office, office))[0] == 0]
        mailed = [m for m in range(len(plan.messages)) if both[office].status[m] == 1]
        if kind < 2:
            number = s.turn(office, draw.below(plan.boards))
        elif kind == 2 and draw.below(4) == 0:
            assert s.collect(office) == (0 if steps[office] == plan.steps else 15)
            assert s.view(draw.below(2), draw.below(plan.boards)) == 0
            continue
        elif kind < 10 and able:
            number = s.turn(office, draw.pick(able))
        elif mailed:
            number = s.deliver(office, draw.pick(mailed))
        else:
            continue
        steps[office] += number == 0
    s.show(0, 'engaged')
    for office in (0, 1):
        assert [s.turn(office, b) for b in range(plan.boards)] == [13] * plan.boards
        assert s.collect(office) == 0
        collected = s.words_of(office, 'grid')
        s.fill(office, 'grid', DRAWN, 3)
        assert s.sweep(office) == 0 and s.words_of(office, 'grid') == collected
        assert s.view(office, plan.boards - 1) == 0


def office_script():
    s = RigScript()
    office_facts(s)
    office_refusals(s)
    office_lines(s)
    office_states(s)
    draw = Draw(32)
    for encoded, routes in ((model.ROWS['A'], (0,)), (model.ROWS['B'], (0,)), (model.ROWS['G'], (0,)), (model.ROWS['F'], (0,)),
                            (model.ROWS['H'], (0,)), (vectors.single_recipes()[2], (0, 5)), (vectors.single_recipes()[11], (0,)),
                            (vectors.route_recipes()[1], (0, HIGH)), (vectors.route_recipes()[5], (1,)),
                            (vectors.route_recipes()[10], (0,)), (vectors.shape_recipes()[6], (0,)), (vectors.shape_recipes()[15], (0,))):
        for route in routes:
            office_run(s, encoded, route, draw)
    low = {*vectors.ORDER, 9}
    wanted = {'fresh both': {0, 21} | low, 'turn': {0, 10, 11, 12, 13, 19, 21} | low, 'deliver': {0, 10, 11, 14, 21} | low,
              'collect': {0, 10, 11, 15, 21} | low, 'view': {0, 11} | low, 'sweep': {0}}
    assert s.numbers == wanted, s.numbers
    return s


# W-212

def asked_hours(s):
    """The minutes until a board opens: windows of every kind, faults of every kind, and each line beside its neighbours."""
    s.start('row D, minutes until a board opens', model.ROWS['D'], both=False)

    def ask(minutes, b, wanted=0):
        for minute in minutes:
            assert s.opens(minute, b) == wanted, (minute, b)

    edges = (0, 9, 10, 19, 20, 5000, 10079)
    s.table([(10, 20)], [])
    ask(edges, 0)
    ask((0, 15, 10079), 1)
    # both ends of the week, and past it
    s.table([(0, 10)], [(10070, 10080)])
    ask(edges, 0)
    ask((0, 10069, 10070, 10079), 1)
    s.table([(0, 1)], [(10079, 10080)])
    ask((0, 1, 10079), 0)
    ask((0, 10078, 10079), 1)
    s.table([(0, 10080)], [(10, 20), (10060, 10070)])
    ask((0, 10079), 0)
    ask((0, 20, 10059, 10070, 10079), 1)
    # fourteen windows, overlapping and unordered ones; windows behind empty pairs
    s.table([(100 * j + 50, 100 * j + 60) for j in range(14)], [(500, 600), (90, 100), (60, 95), (550, 700)])
    ask((0, 60, 1350, 1360, 10079), 0)
    ask((0, 89, 95, 99, 100, 600, 699, 700), 1)
    s.table([(0, 0)] * 13 + [(7, 8)], [(0, 0), (3, 4)])
    ask((6, 7, 8), 0)
    ask((2, 4), 1)
    # faults of any board and of the minute; 25 before a board too high, 9 before 25
    for j, pair in enumerate(((1, 0), (5, 5), (6, 5), (0, 10081), (10080, 10080), (10080, 10081), (10079, 10081), (HIGH, 0), (0, HIGH),
                              (HIGH, HIGH))):
        s.table(*([[(1, 9)], [(2, 3)] * (j + 1) + [pair]] if j % 2 else [[pair], [(1, 9)]]))
        ask((1,), 0, 25)
        ask((1,), 1, 25)
        ask((1,), 2, 25)
    s.table([(1, 9)], [])
    ask((10080, 10081, 65536, HIGH), 0, 25)
    ask((10080,), 2, 25)
    ask((10079, 3), 2, 11)
    ask((3,), HIGH, 11)
    s.fill(0, 'hours', EACH, 7)
    for wrong in (0, 28, 55, 57):
        s.lend(0, 'hours', wrong)
        ask((10080,), 2, 9)
    for number in vectors.ORDER:
        s.recipe(refused_by(number))
        ask((HIGH,), HIGH, number)
    # a shape, and a route that it has not: the question has none
    s.recipe(vectors.shape_recipes()[6])
    s.by(1)
    s.table([(1, 9)], [(3, 4)])
    ask((9,), 1, 0)


def closed_turns(s):
    """Turns at a minute, one office: 9, 10, 25, 11, 24, 12, 13."""
    plan = s.start('row D, turns at a minute', model.ROWS['D'], both=False)
    s.fill(0, 'source', EACH, 1)
    assert s.fresh() == 0
    s.table([(10, 20)], [(15, 25), (100, 101)])
    # closed; waiting; closed and waiting
    for minute, b, number in ((9, 0, 24), (20, 0, 24), (9, 1, 24), (15, 1, 12), (10, 2, 11), (9, 2, 11), (10080, 2, 25), (10080, 0, 25),
                              (HIGH, 1, 25)):
        assert s.turn_alone_at(minute, b) == number, (minute, b)
    assert [s.turn_alone_at(10, 0), s.turn_alone_at(9, 0), s.turn_alone_at(19, 0), s.turn_alone_at(12, 0)] == [0, 24, 0, 0]
    # finished; closed and finished; mail is delivered at any hour
    assert [s.turn_alone_at(12, 0), s.turn_alone_at(20, 0), s.deliver_alone(0)] == [13, 24, 0]
    assert [s.turn_alone_at(25, 1), s.turn_alone_at(24, 1)] == [24, 0]
    assert [s.turn_alone_at(99, 1), s.turn_alone_at(101, 1), s.turn_alone_at(100, 1), s.collect_alone()] == [24, 24, 0, 0]
    s.show(0, 'grid')
    assert s.lines[-1] == '1 2 3 4 '
    # a faulty window of the other board, of either; unfit records before it, a wrong length before both
    assert s.fresh() == 0
    for first, second in (([(10, 20)], [(5, 5)]), ([(10, 20)], [(0, 0)] * 13 + [(3, 2)]), ([(9, 0)], []), ([(10, 20)], [(10080, 10081)])):
        s.table(first, second)
        assert [s.turn_alone_at(12, 0), s.turn_alone_at(12, 1), s.turn_alone_at(12, 2)] == [25] * 3
    s.poke(0, 'progress', 1, 3)
    assert [s.turn_alone_at(12, 0), s.turn_alone_at(10080, 2)] == [10, 10]
    for wrong in (55, 57, 0):
        s.lend(0, 'hours', wrong)
        assert s.turn_alone_at(10080, 2) == 9
    for number in (2, 20, 8):
        s.recipe(refused_by(number))
        assert s.turn_alone_at(HIGH, HIGH) == number
    s.recipe(vectors.shape_recipes()[6])
    s.by(1)
    assert s.turn_alone_at(HIGH, HIGH) == 21


def closed_offices(s):
    """Turns at a minute for an office: 9, 11, 10, 25, 11, 24, 19, 12, 13."""
    plan = s.start('row D, turns of two offices at a minute', model.ROWS['D'])
    assert s.fresh_both() == 0
    s.table([(10, 20)], [(15, 25)])
    for minute, office, b, number in (
            (12, 0, 0, 0), (12, 1, 0, 19), (9, 1, 0, 24), (20, 0, 0, 24), (13, 0, 0, 0), (14, 0, 0, 0), (15, 1, 1, 12), (26, 1, 1, 24),
            (10080, 1, 0, 25), (10080, 1, 2, 25), (5, 1, 2, 11), (14, 1, 0, 0), (14, 0, 0, 13), (9, 0, 0, 24)):
        assert s.turn_at(minute, office, b) == number, (minute, office, b)
    assert [s.deliver(0, 0), s.turn_at(15, 0, 1), s.turn_at(15, 1, 1), s.turn_at(14, 1, 1)] == [0, 0, 19, 24]
    s.show(0, 'engaged')
    # an office above 1: behind 9, before 10 and 25
    assert [s.turn_at(15, 0, 1, 2), s.turn_at(10080, 0, 2, HIGH)] == [11, 11]
    s.poke(0, 'engaged', 0, 3)
    assert [s.turn_at(10080, 0, 2, 2), s.turn_at(10080, 0, 2), s.turn_at(15, 0, 1)] == [11, 10, 10]
    s.lend(0, 'hours', 57)
    assert [s.turn_at(10080, 0, 2, 2), s.turn_at(15, 0, 1)] == [9, 9]
    # the board closes in the middle of a tile and stays engaged
    s.start('row D, a board that closes while it is engaged', model.ROWS['D'])
    s.table([(10, 11), (30, 31)], [])
    assert s.fresh_both() == 0
    for minute, office, number in ((10, 1, 0), (11, 1, 24), (11, 0, 24), (30, 0, 19), (30, 1, 0), (30, 0, 19), (10, 1, 0), (10, 0, 0)):
        assert s.turn_at(minute, office, 0) == number
    s.show(0, 'engaged')


def run_at_hours(s, encoded, draw, offices):
    """A drawn run in which time goes on and boards open and close, collected and held to the sweeps."""
    import schedules
    plan = s.start('%d offices by the hours' % offices, encoded, draw.below(1000), both=offices == 2)
    s.fill(0, 'hours', EACH, 0)
    words = schedules.drawn_table(draw, plan.boards)
    s.table(*[model.Hours(words, 0).windows(b) for b in range(plan.boards)])
    assert (s.fresh_both() if offices == 2 else s.fresh()) == 0
    steps, minute = [0] * offices, draw.below(10080)
    while steps != [plan.steps] * offices:
        office = draw.below(offices)
        b = draw.below(plan.boards)
        mailed = [m for m in range(len(plan.messages)) if s.arrays[office, 'status'][m] == 1]
        if mailed and draw.below(2):
            m = draw.pick(mailed)
            number = s.deliver(office, m) if offices == 2 else s.deliver_alone(m)
        else:
            wait = schedules.until_open(s.words_of(0, 'hours'), b, minute)
            if draw.below(6) == 0:
                assert s.opens(minute, b) == 0
            else:
                minute = (minute + draw.pick([0, 1, wait, wait, wait])) % model.WEEK
            number = s.turn_at(minute, office, b) if offices == 2 else s.turn_alone_at(minute, b)
        steps[office] += number == 0
    for office in range(offices):
        assert (s.collect(office) if offices == 2 else s.collect_alone()) == 0
        collected = s.words_of(office, 'grid')
        s.fill(office, 'grid', DRAWN, 3)
        assert s.sweep(office) == 0 and s.words_of(office, 'grid') == collected


def hours_script():
    s = RigScript()
    asked_hours(s)
    closed_turns(s)
    closed_offices(s)
    draw = Draw(33)
    for encoded, offices in ((model.ROWS['E'], 1), (model.ROWS['E'], 2), (model.ROWS['H'], 2), (model.ROWS['B'], 1), (model.ROWS['B'], 2),
                             (vectors.single_recipes()[2], 2), (vectors.shape_recipes()[6], 1), (vectors.shape_recipes()[6], 2)):
        run_at_hours(s, encoded, draw, offices)
    low = {*vectors.ORDER, 9, 25, 11}
    wanted = {'opens': {0} | low, 'turn alone at': {0, 2, 8, 9, 10, 11, 12, 13, 20, 21, 24, 25},
              'turn at': {0, 9, 10, 11, 12, 13, 19, 24, 25}}
    assert {op: s.numbers[op] for op in wanted} == wanted, s.numbers
    return s


def files(s, name):
    """A script, and what a program that carries it out over the library must print."""
    lines = ''.join(line + '\n' for line in s.lines)
    return {'bindings/cases/%s/script' % name: b''.join(s.records), 'bindings/cases/%s/answers' % name: lines.encode()}
