"""What calls tell by value: the model's words, and nothing beside the number at a refusal; recipes read and written again."""

import array
import glob
import os
import unittest

from support import HERE, RECIPES, ROW_D, Draw, calls, model, recipe_of, rolwyddac
from rolwyddac.command import toml

ROOT = os.path.join(HERE, '..', '..', '..')
PLANS = os.path.join(ROOT, 'crates', 'cases', 'data', 'plans')

TABLES = {'dimensions': ('lengths', 'tiling', 'counts'), 'distances': ('weights', 'components'),
          'bounds': ('sides', 'bounded', 'earlier', 'slopes', 'offsets')}


def stored():
    """The recipes of the stored plans."""
    with open(PLANS, 'rb') as file:
        left = file.read()
    while left:
        length = int.from_bytes(left[:2], 'little') & 0x7fff
        yield left[2:2 + length]
        left = left[2 + length:]


def drawn():
    """Recipes as the model writes them, half of them with a bound."""
    draw = Draw(77)
    for _ in range(RECIPES):
        values = recipe_of(draw)
        n = len(values['lengths'])
        bounds = [(draw.below(2), 1 + draw.below(n - 1), 0, draw.below(3) - 1, draw.below(9) - 2)] * draw.below(2)
        yield bytes(model.encode(bounds=bounds, **values))


def of_data():
    """Every recipe of data/."""
    names = glob.glob(os.path.join(ROOT, 'data', '**', '*.toml'), recursive=True)
    return [toml.recipe_of(name).encoded for name in names]


def written(told):
    """The bytes that the writer makes of told fields, None where it refuses them."""
    space = bytearray(16 * (told.dimensions + told.distances + told.bounds + 1))
    count = {table: getattr(told, of) * (4 if table == 'components' else 1) for of, tables in TABLES.items() for table in tables}
    lists = [list(getattr(told, table))[:count[table]] for table in (
        'lengths', 'tiling', 'counts', 'components', 'weights', 'sides', 'bounded', 'earlier', 'slopes', 'offsets')]
    try:
        calls.EXPORTED['write'](*lists, told.shift, told.boundary, space)
    except rolwyddac.Refused:
        return None
    return bytes(space)


class Reading(unittest.TestCase):

    def test_read_and_written_again(self):
        accepted = 0
        for encoded in [*of_data(), *stored(), *drawn()]:
            number, nest = model.read(encoded)
            answer = calls.EXPORTED['read'].answer(encoded)
            self.assertEqual(answer.number, number, encoded)
            if number:
                self.assertEqual([list(field) if hasattr(field, '__len__') else [field] for field in answer.told()],
                                 [[0] * (len(field) if hasattr(field, '__len__') else 1) for field in answer.told()], encoded)
                with self.assertRaises(rolwyddac.REFUSALS[number]):
                    rolwyddac.Fields.read(encoded)
                continue
            self.assertEqual(written(answer), encoded)
            fields, shift, boundary = rolwyddac.Fields.read(encoded)
            self.assertEqual(fields.close(shift, boundary), encoded)
            self.assertEqual((fields.lengths, fields.tiling, fields.counts), (list(nest.lengths), list(nest.tiling), list(nest.counts)))
            accepted += 1
        self.assertGreater(accepted, 250)

    def test_entries_that_do_not_count(self):
        for encoded in stored():
            told = calls.EXPORTED['read'].answer(encoded)
            for of, tables in TABLES.items():
                for table in tables:
                    entries = list(getattr(told, table))
                    behind = entries[getattr(told, of) * (4 if table == 'components' else 1):]
                    self.assertEqual(behind, [0] * len(behind), (table, encoded))

    def test_another_field_is_another_recipe(self):
        """Each entry that counts, changed: other bytes, or none."""
        tried = set()
        for encoded in stored():
            told = calls.EXPORTED['read'].answer(encoded)
            if told.number:
                continue
            for of, tables in {'': ('shift', 'boundary', *TABLES), **TABLES}.items():
                for table in tables:
                    places = range(getattr(told, of) * (4 if table == 'components' else 1)) if of else [None]
                    for place in places:
                        changed = type(told).from_buffer_copy(told)
                        if place is None:
                            setattr(changed, table, getattr(told, table) ^ 1)
                        else:
                            getattr(changed, table)[place] ^= 1
                        self.assertNotEqual(written(changed), encoded, (table, place))
                        tried.add(table)
        self.assertEqual(len(tried), 15)


# packets of any kind are of no recipe: test_packets has what is told of them
OF_NO_RECIPE = {'fingerprint', 'packet', 'packet_read', 'chunk'}


class Told(unittest.TestCase):
    """Every call that tells by value, refused in turn by the recipe and by what else it is given."""

    def given(self, recipe, number):
        """Each call's parameters; a number of a message, an office or a processor that is too high where asked for."""
        memories, buffer, source = (array.array('I', [word] * count) for word, count in ((0, 8), (0, 1), (1, 4)))
        progress, fresh = (rolwyddac.Progress * 2)(), (rolwyddac.Progress * 2)()
        packet = model.packet(model.fingerprint(recipe, 0), 3, 0, 1, 0, 1, number, 0, [2])[1]
        return {
            'send': (recipe, 0, 3, 0, buffer, bytearray(b'\2'), 0, number, 0, bytearray(calls.LONGEST_PACKET)),
            'receive': (recipe, 0, 3, source, memories, buffer, fresh, bytearray(1), 1, packet, array.array('I', [0]), array.array('Q', [0])),
            'summary': (recipe, 0), 'message': (recipe, 0, number), 'hops': (recipe, number), 'read': (recipe,),
            'rounds': (recipe, source, memories, buffer, progress, bytearray(1)), 'view': (recipe, memories, memories, 0, number),
            'chart': (recipe, source, 0, 0, 1, bytearray(200)), 'chart_length': (recipe, source, 0, 0, 1),
            'opens': (recipe, array.array('I', [0, 9] + [0] * 54), 5, number), 'part_sizes': (recipe, 0, number),
            'awaited': (recipe, 0, fresh, bytearray(1), number, bytearray(1))}

    def test_what_is_told(self):
        wanted = {'summary': [2, 1, 1, 6], 'message': [0, 1, 0, 1, 1], 'hops': [1], 'rounds': [2], 'view': [0, 4], 'chart': [78],
                  'chart_length': [78], 'opens': [1, 0], 'part_sizes': [2, 2, 1, 1], 'awaited': [0], 'send': [64], 'receive': [1, 0]}
        for name, words in self.given(ROW_D, 0).items():
            answer = calls.EXPORTED[name].answer(*words)
            with self.subTest(name):
                self.assertEqual(answer.number, 0)
                if name in wanted:
                    self.assertEqual(answer.told(), wanted[name])

    def test_a_refusal_tells_its_number_alone(self):
        told = {name for name, call in calls.EXPORTED.items() if isinstance(call._function.restype, type(calls.Told))}
        self.assertEqual(set(self.given(ROW_D, 0)), told - OF_NO_RECIPE)
        for recipe, number in ((ROW_D[1:], 1), (b'\7' + ROW_D[1:], 2), (ROW_D, 11)):
            for name, words in self.given(recipe, 9).items():
                answer = calls.EXPORTED[name].answer(*words)
                with self.subTest(name, number=number):
                    if answer.number == 0:
                        self.assertNotIn(9, words[1:])
                        continue
                    self.assertEqual(answer.number, number)
                    self.assertEqual([bytes(field) if hasattr(field, '__len__') else field for field in answer.told()],
                                     [bytes(len(bytes(field))) if hasattr(field, '__len__') else 0 for field in answer.told()])


if __name__ == '__main__':
    unittest.main()
