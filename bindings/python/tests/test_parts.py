"""Processors that share no memory against the independent model: boards with all areas, and boards with their own part alone."""

import array
import copy

from support import RUNS, Case, Draw, calls, flat, model, number_of, recipe_of, records, rolwyddac


def own_recipe(draw):
    """A recipe by a route, with bounds or without, some with processors that have no tiles; and its plan, none where it is refused."""
    values, route = recipe_of(draw), draw.below(2)
    n = len(values['lengths'])
    bounds = [] if route or draw.below(2) else [(draw.below(2), 1 + draw.below(n - 1), 0, draw.below(3) - 1, draw.below(6))]
    encoded = bytes(model.encode(bounds=bounds, **values))
    return encoded, route, model.plan_of(encoded, route)[1]


def drawn_part(draw, plan, b):
    """A part with drawn words, in a state that a run need not reach, and now and then in one that is not fit."""
    part = model.own_areas_for(plan, b, [draw.word() for _ in range(plan.cells)])
    for area in (part.memory, part.mail, part.grid):
        area[:] = [draw.word() for _ in area]
    likely = (2, 2, 2, 0, 1, 3) if draw.below(2) else (0, 1, 2, 3)
    part.marks[:] = [likely[draw.below(len(likely))] for _ in part.marks]
    tiles = plan.tiles_of[b]
    finished = draw.below(len(tiles) + 1) if draw.below(4) else len(tiles)
    if finished < len(tiles):
        sends = len(plan.sends_of[tiles[finished]])
        stage = draw.below(3 if sends else 2)
        part.progress[:] = [finished, stage, draw.below(sends) if stage == 2 else 0]
    else:
        part.progress[:] = [finished, 0, 0]
    if draw.below(8) == 0:
        part.progress[draw.below(3)] += 1 + draw.below(3)
    if part.marks and draw.below(12) == 0:
        part.marks[draw.below(len(part.marks))] = 4 + draw.below(200)
    return part


def faulty(draw, plan, to, m, words):
    """A packet that is cut, doubled, of a message that is not, or at another board."""
    return [(to, m, words[1:]), (to, m, words + words), (to, len(plan.messages), words), ((to + 1) % plan.boards, m, words)][draw.below(4)]


class Apart:
    """Boards with all areas beside the model's, and the mail between them."""

    def __init__(self, case, draw, met, encoded, route, plan):
        self.case, self.draw, self.met, self.encoded, self.route, self.plan = case, draw, met, encoded, route, plan
        self.source = [draw.word() for _ in range(plan.cells)]
        self.boards = [rolwyddac.Board(encoded, route, self.source, b) for b in range(plan.boards)]
        self.wanted = [model.areas_for(plan, self.source) for _ in range(plan.boards)]
        self.mail = []

    def both(self, got, number, b):
        case, wanted = self.case, self.wanted[b]
        case.assertEqual(got, number)
        self.met.add(number)
        case.same(self.boards[b].areas, wanted)
        marks = [0] * len(self.plan.messages)
        number, tile = model.awaited(self.encoded, wanted, b, marks, self.route)
        self.met.add(number)
        case.assertEqual(number_of(self.boards[b].awaited), number)
        if number == 0:
            found = self.boards[b].awaited()
            case.assertEqual(found, (tile, [m for m, mark in enumerate(marks) if mark]))
            case.assertEqual(bool(found.messages), model.turn_number(self.encoded, wanted, b, self.route)[0] == 12)

    def arrive(self, b, m, words):
        self.both(number_of(self.boards[b].take_in, m, words), model.take_in(self.encoded, self.wanted[b], b, m, words, self.route), b)

    def post(self, b):
        for m in self.boards[b].in_flight():
            to, words = self.boards[b].post(m)
            self.both(0, model.deliver(self.encoded, self.wanted[b], m, self.route), b)
            line = self.plan.messages[m]
            sent = self.wanted[b].buffer[line.offset:][:len(line.cells)]
            self.case.assertEqual((to, list(words)), (self.plan.board_of[line.taker], sent))
            self.mail.append((to, m, list(words)))

    def turn(self, b):
        number = model.turn(self.encoded, self.wanted[b], b, self.route)
        self.both(number_of(self.boards[b].turn), number, b)
        return number

    def step(self):
        """Something drawn: a turn, or mail posted and some of it taken in, now and then faulty."""
        b, kind = self.draw.below(self.plan.boards), self.draw.below(8)
        if kind < 4:
            self.turn(b)
            return
        self.post(b)
        if self.mail:
            packet = self.mail[self.draw.below(len(self.mail))]
            self.arrive(*(packet if kind < 7 else faulty(self.draw, self.plan, *packet)))

    def finish(self):
        """To the end: nothing is lost."""
        done = [False] * self.plan.boards
        while not all(done):
            for b in range(self.plan.boards):
                while self.turn(b) == 0:
                    pass
                self.post(b)
                done[b] = self.wanted[b].progress[3 * b] == len(self.plan.tiles_of[b])
            for packet in self.mail:
                self.arrive(*packet)
        grids, swept = [flat(board.memory()) for board in self.boards], self.plan.swept(self.source)
        for c in range(self.plan.cells):
            if self.plan.inside[c]:
                self.case.assertEqual(grids[self.plan.board_of[self.plan.tile_of[c]]][c], swept[c])


class Owning:
    """Boards with their own part alone beside the model's, the mail between them, and the grid that all collect into."""

    def __init__(self, case, draw, met, encoded, route, plan):
        self.case, self.draw, self.met, self.encoded, self.route, self.plan = case, draw, met, encoded, route, plan
        self.source = [draw.word() for _ in range(plan.cells)]
        self.wanted = [model.own_areas_for(plan, b, self.source) for b in range(plan.boards)]
        self.boards = [rolwyddac.PartBoard(encoded, route, rolwyddac.part_source(encoded, self.source, b), b) for b in range(plan.boards)]
        self.mail, self.grid = [], array.array('I', [draw.word() for _ in range(plan.cells)])

    def both(self, got, number, b):
        self.case.assertEqual(got, number)
        self.met.add(number)
        self.case.same_part(self.boards[b], self.wanted[b])
        return number

    def post(self, b, m):
        board = self.boards[b]
        if self.both(number_of(board.post, m), model.part_post(self.encoded, self.wanted[b], b, m, self.route), b) == 0:
            row, = [row for row in board.rows if row.message == m]
            self.mail.append((row.taking_processor, m, board.mail[row.place:row.place + row.words]))

    def arrive(self, b, m, words):
        number = model.part_arrive(self.encoded, self.wanted[b], b, m, list(words), self.route)
        self.both(number_of(self.boards[b].arrive, m, words), number, b)

    def turn(self, b):
        wanted, plan = self.wanted[b], self.plan
        number = self.both(number_of(self.boards[b].turn), model.part_turn(self.encoded, wanted, b, self.route), b)
        if number == 12:
            tile = plan.tiles_of[b][wanted.progress[0]]
            waited = [m for m in plan.due_at[tile] if wanted.marks[model.handled(plan, b).index(m)] != 2]
            self.case.assertEqual(self.boards[b].awaited(), (tile, waited))
        return number

    def collect(self, b):
        self.wanted[b].grid = list(self.grid)
        self.both(number_of(self.boards[b].collect, self.grid), model.part_collect(self.encoded, self.wanted[b], b, self.route), b)
        self.case.assertEqual(list(self.grid), self.wanted[b].grid)

    def step(self):
        """Something drawn: a turn, a post, a collecting, or mail that arrives, now and then faulty."""
        b, kind = self.draw.below(self.plan.boards), self.draw.below(9)
        if kind < 4:
            self.turn(b)
        elif kind < 6:
            self.post(b, self.draw.below(len(self.plan.messages) + 1))
        elif kind == 6:
            self.collect(b)
        elif self.mail:
            packet = self.mail[self.draw.below(len(self.mail))]
            self.arrive(*(packet if kind == 7 else faulty(self.draw, self.plan, *packet)))

    def finish(self):
        """To the end: nothing is lost, and all of it comes once more."""
        while any(board.progress[0].finished < len(self.plan.tiles_of[b]) for b, board in enumerate(self.boards)):
            for b, board in enumerate(self.boards):
                while self.turn(b) == 0:
                    pass
                for m in board.in_flight():
                    self.post(b, m)
            for packet in self.mail:
                self.arrive(*packet)
        for b in sorted(range(self.plan.boards), key=lambda b: self.draw.word()):
            self.collect(b)
        self.case.assertEqual(list(self.grid), self.plan.swept(self.source))


class Boards(Case):

    def test_transport(self):
        """Boards that share nothing: each has areas of its own, and the mail between them is late, doubled, cut or brought to another."""
        draw, met = Draw(32), set()
        for case in range(RUNS):
            values, route = recipe_of(draw), draw.below(2)
            n = len(values['lengths'])
            bounds = [] if route or draw.below(2) else [(1, 1 + draw.below(n - 1), 0, draw.below(3) - 1, draw.below(6))]
            encoded = bytes(model.encode(bounds=bounds, **values))
            number, plan = model.plan_of(encoded, route)
            if number:
                continue
            rows, cells = [0] * (6 * len(plan.messages)), [0] * plan.cells
            self.assertEqual([model.messages(encoded, route, rows), model.owners(encoded, cells)], [0, 0])
            self.assertEqual([word for row in rolwyddac.messages(encoded, route) for word in row], rows, case)
            self.assertEqual(flat(rolwyddac.owners(encoded)), cells, case)
            for m, row in enumerate(rolwyddac.messages(encoded, route)):
                self.assertEqual(row[:5], rolwyddac.message(encoded, route, m))
            apart = Apart(self, draw, met, encoded, route, plan)
            for _ in range(4 * plan.steps):
                apart.step()
            apart.finish()
        self.assertLessEqual({0, 9, 11, 12, 13, 14}, met)

    def test_own_runs(self):
        """Boards with memory for their own parts alone, in a drawn order, mail late, again, cut or at another board: each answer and each word
        is the model's, and what all collect is the sweep."""
        draw, met = Draw(35), set()
        for case in range(RUNS):
            encoded, route, plan = own_recipe(draw)
            if plan is None:
                continue
            for b in range(plan.boards + 1):
                rows, (number, sizes) = [0] * (7 * len(model.handled(plan, b))), model.part_sizes(encoded, b, route)
                numbers = number, model.part_messages(encoded, b, rows, route)
                self.assertEqual((number_of(rolwyddac.part_sizes, encoded, route, b), number_of(rolwyddac.part_messages, encoded, route, b)),
                                 numbers, case)
                if b < plan.boards:
                    self.assertEqual(list(rolwyddac.part_sizes(encoded, route, b)), sizes, case)
                    self.assertEqual([word for row in rolwyddac.part_messages(encoded, route, b) for word in row], rows, case)
            owning = Owning(self, draw, met, encoded, route, plan)
            for _ in range(3 * plan.steps):
                owning.step()
            owning.finish()
        self.assertLessEqual({0, 9, 11, 12, 13, 14, 15}, met)

    def same_part(self, got, wanted, *more):
        self.assertEqual([list(got.memory), list(got.mail), records(got.progress), list(got.marks)],
                         [wanted.memory, wanted.mail, wanted.progress, wanted.marks], more)

    def test_own_states(self):
        """Any state, with faults of each kind beside each other: the number is that of the first true line, and at a refusal every lent word is
        as before."""
        draw, met = Draw(36), {}
        for case in range(10 * RUNS):
            encoded, route, plan = own_recipe(draw)
            if plan is None:
                continue
            b = draw.below(plan.boards)
            wanted = drawn_part(draw, plan, b)
            if draw.below(6) == 0:
                b = plan.boards + draw.below(2) * draw.below(2 ** 31)
            m = draw.below(len(plan.messages) + 1 + draw.below(2))
            if draw.below(2) and b < plan.boards and model.handled(plan, b):
                m = model.handled(plan, b)[draw.below(len(model.handled(plan, b)))]
            words = [draw.word() for _ in range(len(plan.messages[m].cells) if m < len(plan.messages) else draw.below(3))]
            for area in (wanted.source, wanted.memory, wanted.mail, wanted.marks, wanted.grid, words):
                if draw.below(25) == 0:
                    area.append(1) if draw.below(2) or not area else area.pop()
            if draw.below(25) == 0:
                wanted.progress = wanted.progress * 2 if draw.below(2) else []
            if draw.below(12) == 0:
                route = 1 - route
            if draw.below(12) == 0:
                encoded = encoded[:-1] if draw.below(2) else encoded[-16:]
            for name, last in (('part_sizes', ()), ('part_messages', ()), ('part_fresh', ()), ('part_turn', ()), ('part_post', (m,)),
                               ('part_arrive', (m, words)), ('part_collect', ())):
                number = self.own_call(name, encoded, route, wanted, b, last, draw, case)
                met.setdefault(name, set()).add(number)
        told = {1, 2, 9, 11, 21}
        self.assertEqual(met.pop('part_sizes'), {0, 1, 2, 11, 21})
        for name, more in (('part_messages', {0}), ('part_fresh', {0}), ('part_turn', {0, 10, 12, 13}), ('part_post', {0, 10, 14}),
                           ('part_arrive', {0, 10, 14}), ('part_collect', {0, 10, 15})):
            self.assertEqual(met[name], told | more, name)

    def own_call(self, name, encoded, route, part, b, last, draw, case):
        """One call on copies of a part, by the package and by the model: the same number, and the same words in every lent area."""
        wanted, call = copy.deepcopy(part), calls.EXPORTED[name]
        got = {area: array.array('B' if area == 'marks' else 'I', getattr(part, area)) for area in ('source', 'memory', 'mail', 'marks', 'grid')}
        progress = (rolwyddac.Progress * (len(part.progress) // 3))(*zip(*[iter(part.progress)] * 3))
        lent = got['memory'], got['mail'], progress, got['marks']
        if name == 'part_sizes':
            answer, (number, lengths) = call.answer(encoded, route, b), model.part_sizes(encoded, b, route)
            numbers = answer.number, number
            self.assertEqual(answer.told(), lengths, (case, name))
        elif name == 'part_messages':
            plan = model.plan_of(encoded, route)[1]
            out = [draw.word() for _ in range((7 * len(model.handled(plan, b)) if plan else 0) + (draw.below(8) == 0))]
            told = array.array('I', out)
            numbers = number_of(call, encoded, route, b, told), model.part_messages(encoded, b, out, route)
            self.assertEqual(list(told), out, (case, name))
        elif name == 'part_turn':
            numbers = number_of(call, encoded, route, got['source'], *lent, b), model.part_turn(encoded, wanted, b, route)
        elif name == 'part_collect':
            numbers = (number_of(call, encoded, route, got['memory'], progress, b, got['grid']), model.part_collect(encoded, wanted, b, route))
        else:
            numbers = number_of(call, encoded, route, *lent, b, *last), getattr(model, name)(encoded, wanted, b, *last, route)
        self.assertEqual(*numbers, (case, name))
        for area, words in got.items():
            self.assertEqual(list(words), getattr(wanted, area), (case, name, area))
        self.assertEqual(records(progress), wanted.progress, (case, name))
        return numbers[0]
