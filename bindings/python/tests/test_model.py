"""The package against the independent model, tools/model.py: every answer and every lent element after every call, over drawn recipes
and schedules, with refused calls between. Run as `python3 bindings/python/tests/test_model.py`, it runs the tests of this folder's other
files too.
"""

import sys
import unittest

from support import HERE, RECIPES, RUNS, Case, Draw, fields_of, flat, model, number_of, recipe_of, records, rolwyddac


class Against(Case):

    def test_recipes(self):
        draw = Draw(26)
        for case in range(RECIPES):
            values = recipe_of(draw)
            encoded = fields_of(values).close(values['shift'], values['boundary'])
            self.assertEqual(list(encoded), list(model.encode(**values)), case)
            source = [draw.word() for _ in range(model.plan_of(encoded)[1].cells)]
            for route in (0, 1):
                plan = model.plan_of(encoded, route)[1]
                self.assertEqual(rolwyddac.summary(encoded, route),
                                 (plan.cells, plan.boards, plan.tiles, len(plan.messages), plan.words, plan.steps))
                for m, line in enumerate(plan.messages):
                    self.assertEqual(rolwyddac.message(encoded, route, m), (
                        line.sender, line.taker, plan.board_of[line.sender], plan.board_of[line.taker], len(line.cells)))
                self.assertEqual(number_of(rolwyddac.message, encoded, route, len(plan.messages)), 11)
                run = rolwyddac.Run(encoded, route, source)
                self.assertEqual(run.finish(), plan.steps)
                self.assertEqual(flat(run.collect()), plan.swept(source), case)
            for m in range(len(model.plan_of(encoded)[1].messages)):
                self.assertEqual(rolwyddac.hops(encoded, m), model.hops(encoded, m)[1])
            self.assertEqual(flat(rolwyddac.sweep(encoded, source)), model.plan_of(encoded)[1].swept(source))

    def test_bounds(self):
        draw, met = Draw(31), set()
        for case in range(RECIPES):
            values = recipe_of(draw)
            n = len(values['lengths'])
            fields, bounds = fields_of(values), []
            for _ in range(1 + draw.below(3)):
                dimension = 1 + draw.below(n - 1)
                bounds.append((draw.below(2), dimension, draw.below(dimension), draw.below(3) - 1, draw.below(9) - 4))
                side, *rest = bounds[-1]
                (fields.at_most if side else fields.at_least)(*rest)
            encoded = model.encode(bounds=bounds, **values)
            number, plan = model.plan_of(encoded)
            met.add(number)
            self.assertEqual(number_of(fields.close, values['shift'], values['boundary']), number, case)
            if number:
                continue
            self.assertEqual(fields.close(values['shift'], values['boundary']), bytes(encoded))
            source = [draw.word() for _ in range(plan.cells)]
            run = rolwyddac.Run(encoded, rolwyddac.DIRECT, source)
            self.assertEqual(run.finish(), plan.steps)
            self.assertEqual(flat(run.collect()), plan.swept(source), case)
            self.assertEqual(number_of(rolwyddac.sizes, encoded, 1), 21)
        self.assertLessEqual({0, 20}, met)

    def test_damaged_recipes(self):
        draw, met = Draw(27), set()
        for _ in range(20 * RECIPES):
            encoded = bytearray(model.encode(**recipe_of(draw)))
            for _ in range(1 + draw.below(3)):
                encoded[draw.below(len(encoded))] = (0, 1, 2, 3, 4, 5, 32, 65, 255)[draw.below(9)]
            if draw.below(20) == 0:
                del encoded[draw.below(len(encoded)):]
            number = model.read(encoded)[0]
            self.assertEqual(number_of(rolwyddac.sizes, bytes(encoded)), number, bytes(encoded).hex())
            met.add(number)
        self.assertLessEqual({0, 1, 2, 3, 4, 5, 6, 7, 16, 17, 18}, met)

    def test_runs(self):
        draw, met = Draw(28), set()
        for case in range(RUNS):
            values, route = recipe_of(draw), draw.below(2)
            encoded = model.encode(**values)
            plan = model.plan_of(encoded, route)[1]
            source = [draw.word() for _ in range(plan.cells)]
            run, wanted = rolwyddac.Run(encoded, route, source), model.areas_for(plan, source)
            model.fresh(encoded, wanted, route)
            for _ in range(3 * plan.steps):
                if draw.below(3):
                    which = draw.below(plan.boards + 1)
                    numbers = number_of(run.turn, which), model.turn(encoded, wanted, which, route)
                else:
                    which = draw.below(len(plan.messages) + 1)
                    numbers = number_of(run.deliver, which), model.deliver(encoded, wanted, which, route)
                self.assertEqual(*numbers, case)
                met.add(numbers[0])
                self.same(run.areas, wanted, case)
            numbers = number_of(run.collect), model.collect(encoded, wanted, route)
            self.assertEqual(*numbers)
            met.add(numbers[0])
            # kept half way: another run goes on from these areas
            run = rolwyddac.Run.resume(encoded, route, source, run.areas)
            run.finish()
            self.assertEqual(flat(run.collect()), plan.swept(source), case)
        self.assertLessEqual({0, 11, 12, 13, 14, 15}, met)

    def test_rounds(self):
        draw = Draw(34)
        for case in range(RUNS):
            encoded = model.encode(**recipe_of(draw))
            plan = model.plan_of(encoded)[1]
            source, tiles = [draw.word() for _ in range(plan.cells)], [0] * plan.tiles
            model.rounds_of(encoded, tiles)
            run, rounds = rolwyddac.Run.by_rounds(encoded, source)
            self.assertEqual(rolwyddac.rounds(encoded, source)[0], rounds, case)
            self.assertEqual((rounds, rolwyddac.rounds_of(encoded)), (max(tiles), tiles), case)
            self.assertEqual(flat(run.collect()), plan.swept(source), case)

    def test_offices(self):
        draw, met = Draw(29), set()
        for case in range(RUNS):
            values, route = recipe_of(draw), draw.below(2)
            encoded = model.encode(**values)
            plan = model.plan_of(encoded, route)[1]
            sources = [[draw.word() for _ in range(plan.cells)] for _ in range(2)]
            rig, wanted = rolwyddac.Rig(encoded, route, sources), model.Offices(plan, *sources)
            for _ in range(4 * plan.steps):
                office = draw.below(2)
                if draw.below(3):
                    which = draw.below(plan.boards)
                    numbers = number_of(rig.turn, office, which), wanted.call(encoded, office, ('turn', which), route)
                else:
                    which = draw.below(len(plan.messages) + 1)
                    numbers = number_of(rig.deliver, office, which), wanted.call(encoded, office, ('deliver', which), route)
                self.assertEqual(*numbers, case)
                met.add(numbers[0])
                self.assertEqual(list(rig.engaged), wanted.engaged)
                for own in (0, 1):
                    self.same(rig.areas[own], wanted.areas[own], case)
            rig.finish()
            for office in (0, 1):
                self.assertEqual(flat(rig.collect(office)), plan.swept(sources[office]), case)
                start = plan.cells * (plan.boards - 1)
                self.assertEqual(flat(rig.view(office, plan.boards - 1)),
                                 list(rig.areas[office].memories)[start:start + plan.cells])
            self.assertEqual(number_of(rig.turn, 2, 0), 11)
        self.assertLessEqual({0, 12, 13, 14, 19}, met)

    def test_hours(self):
        draw, met = Draw(33), set()
        for case in range(RUNS):
            encoded = model.encode(**recipe_of(draw))
            plan = model.plan_of(encoded)[1]
            source = [draw.word() for _ in range(plan.cells)]
            run, wanted = rolwyddac.Run(encoded, rolwyddac.DIRECT, source), model.areas_for(plan, source)
            table = []
            for _ in range(14 * plan.boards):
                opening = draw.below(10080)
                table += [opening, opening + 1 + draw.below(10080 - opening)] if draw.below(9) == 0 else [0, 0]
            if draw.below(8) == 0:
                table[draw.below(len(table))] = 10081
            for _ in range(2 * plan.steps):
                minute, b = draw.below(10085), draw.below(plan.boards + 1)
                number = model.turn(encoded, wanted, b, 0, hours=model.Hours(table, minute))
                self.assertEqual(number_of(run.turn_at, table, minute, b), number, case)
                met.add(number)
                self.assertEqual(records(run.areas.progress), wanted.progress)
                if draw.below(40) == 0:
                    number, ever, minutes = model.opens(encoded, table, minute, b)
                    self.assertEqual(number_of(rolwyddac.opens, encoded, table, minute, b), number)
                    if number == 0:
                        self.assertEqual(rolwyddac.opens(encoded, table, minute, b), minutes if ever else None)
                for m in run.in_flight():
                    run.deliver(m)
                    model.deliver(encoded, wanted, m)
        self.assertLessEqual({0, 11, 24, 25}, met)

    def test_soundings(self):
        draw = Draw(30)
        for case in range(RUNS):
            encoded = model.encode(**recipe_of(draw))
            cells = model.plan_of(encoded)[1].cells
            beyond = 1 if draw.below(4) == 0 else 0
            drawn = [rolwyddac.Sounding(draw.below(cells + beyond), draw.below(3), draw.below(3), draw.word())
                     for _ in range(draw.below(3 * cells))]
            content = b''.join(word.to_bytes(4, 'little') for record in drawn for word in record)
            wanted = [0] * cells
            number = model.soundings(encoded, content, 2000, wanted)
            self.assertEqual(number_of(rolwyddac.soundings, encoded, drawn, 2000), number, case)
            if number == 0:
                self.assertEqual(flat(rolwyddac.soundings(encoded, content, 2000)), wanted, case)


class Charts(unittest.TestCase):

    def test_charts(self):
        draw, met = Draw(32), set()
        for case in range(RUNS):
            encoded = model.encode(**recipe_of(draw))
            nest = model.read(encoded)[1]
            grid = [draw.word() for _ in range(model.all_product(nest.lengths))]
            x, y, size = draw.word() - 2 ** 31, draw.word() - 2 ** 31, draw.below(3) * draw.below(40000)
            number, _ = model.chart_length(encoded, grid, x, y, size)
            met.add(number)
            self.assertEqual(number_of(rolwyddac.chart, encoded, grid, x, y, size), number, case)
            if number == 0:
                self.assertEqual(rolwyddac.chart(encoded, grid, x, y, size).encode(), model.chart_text(nest, grid, x, y, size))
        self.assertEqual(met, {0, 23})


if __name__ == '__main__':
    unittest.main(module=None, argv=[sys.argv[0], 'discover', '-s', HERE, *sys.argv[1:]])
