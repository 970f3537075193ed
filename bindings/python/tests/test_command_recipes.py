"""Recipes of the command: TOML and bytes, what is told of a refused one."""

import os
import sys
import unittest

from command_support import ROOT, SMALL, InFolder, content_of, setUpModule, without  # noqa: F401
from support import Draw, model, number_of, recipe_of, rolwyddac
from rolwyddac.command import toml
from rolwyddac.command.explained import explained
from rolwyddac.command.faults import Refusal, Usage
from rolwyddac.command.fields import parts_of

READERS = {1, 2, 3, 4, 18, 20, 5, 6, 16, 17, 7, 8}

# the least recipe with a bound, and one of three dimensions
SHAPE = SMALL.replace('[[distance]]', '[[bound]]\nside = "lower"\ndimension = 2\nearlier = 1\nslope = 1\n[[distance]]').replace(
    'length = 1\n', 'length = 4\n')
CUBE = SMALL.replace('[1, 0]', '[1, 0, 0]') + '[[dimension]]\nlength = 2\ntile = 2\n'


def changed(text, *pairs):
    for old, new in pairs:
        assert old in text, old
        text = text.replace(old, new, 1)
    return text


# later versions of Python refuse to read a number of so many digits, earlier ones read it
NO_NUMBER = 'no TOML: Exceeds the limit' if hasattr(sys, 'set_int_max_str_digits') else 'the recipe: shift is too large'

# a text, and what is told of it
REFUSED = [
    (changed(SMALL, ('length = 4', 'length = 0')), 'refused 3, length: dimension 1 has length 0'),
    (changed(SMALL, ('length = 1', 'length = 1025')), 'refused 3, length: dimension 2 has length 1025, above 1024'),
    (changed(SMALL, ('length = 4', 'length = 200'), ('length = 1', 'length = 100')), 'refused 4, too large: 200 × 100 = 20000 cells, above 16384'),
    (changed(SHAPE, ('slope = 1', 'offset = 4')), 'refused 20, empty: bound 1, component 2 at least 4, leaves no cell of 4 × 4'),
    (changed(SHAPE, ('slope = 1', 'offset = 2\n[[bound]]\nside = "upper"\ndimension = 2\nearlier = 1\noffset = 1')),
     'refused 20, empty: no cell of 4 × 4 meets all bounds: component 2 at least 2 and component 2 at most 1'),
    (changed(SMALL, ('[1, 0]', '[0, 0]')), 'refused 5, distance: distance 1 has components that are all 0'),
    (SMALL + '[[distance]]\nstep = [0, 1]\n[[distance]]\nstep = [1, 0]\n',
     'refused 5, distance: distance 3 has the components 1 and 0, which distance 1 has too'),
    (changed(SMALL, ('tile = 2', 'tile = 0')), 'refused 6, tile: dimension 1 has tile 0'),
    (changed(SMALL, ('tile = 1', 'tile = 2000')), 'refused 6, tile: dimension 2 has tile 2000, above 1024'),
    (SMALL.replace('tile = 1', 'tile = 2') + '[[distance]]\nstep = [0, 1]\n[[distance]]\nstep = [1, 4]\n',
     'refused 6, tile: dimension 2 has tile 2, distance 3 steps 4 there'),
    # a tile may be as long as a distance there
    (SMALL.replace('tile = 2', 'tile = 1').replace('[1, 0]', '[1, 4]'), 'refused 6, tile: dimension 2 has tile 1, distance 1 steps 4 there'),
    (changed(SMALL, ('processors = 2\n', '')), 'refused 16, spread order: dimension 1 has 0 processors, and must be spread'),
    (CUBE + 'processors = 3\n', 'refused 16, spread order: dimension 3 has 3 processors, and dimension 2 before it has 0'),
    (changed(SMALL, ('tile = 1\n', 'tile = 1\nprocessors = 1\n')), 'refused 17, last spread: dimension 2, the last, has 1 processor, and must have 0'),
    (changed(SMALL, ('processors = 2', 'processors = 65')), 'refused 7, boards: 65 processors, above 64'),
    (changed(CUBE, ('processors = 2', 'processors = 13'), ('tile = 1\n', 'tile = 1\nprocessors = 5\n')),
     'refused 7, boards: 13 × 5 = 65 processors, above 64'),
    (changed(SMALL, ('length = 4', 'length = 100'), ('tile = 2', 'tile = 1'), ('length = 1\n', 'length = 11\n')),
     'refused 8, tiles: 100 × 11 = 1100 tiles, above 1024'),
    (changed(SHAPE, ('length = 4', 'length = 100'), ('tile = 2', 'tile = 1'), ('length = 4', 'length = 100')),
     'refused 8, tiles: 5050 tiles hold a cell, above 1024'),
    ('', 'refused 1, ragged: the recipe is empty'),
    ('# nothing\n', 'refused 2, stray record: the recipe has 0 dimensions, and may have 2 to 4'),
    (SMALL[:SMALL.index('[[distance]]')], 'refused 2, stray record: the recipe has 0 distances, and may have 1 to 8'),
    (SMALL + ''.join('[[distance]]\nstep = [0, %d]\n' % at for at in range(1, 9)), 'refused 2, stray record: the recipe has 9 distances, and may have 1 to 8'),
    (changed(SMALL, ('\n[[', 'shift = 32\n[[')), 'refused 2, stray record: the shift is 32, above 31'),
    (changed(SHAPE, ('slope = 1', 'slope = 2')), 'refused 2, stray record: bound 1 has slope 2, and slopes are -1, 0 and 1'),
    (changed(SHAPE, ('dimension = 2', 'dimension = 1')), 'refused 2, stray record: bound 1 is for dimension 1, which has no earlier one'),
    (changed(SHAPE, ('earlier = 1', 'earlier = 2')), 'refused 2, stray record: bound 1 is for dimension 2, and dimension 2 is no earlier one'),
    (changed(SHAPE, ('dimension = 2', 'dimension = 3')), 'refused 2, stray record: bound 1 is for dimension 3, and the recipe has 2'),
    (changed(SMALL, ('length', 'lenght')), 'unknown key `lenght` in dimension 1; is `length` meant?'),
    (SMALL + 'colour = 3\n', 'unknown key `colour` in distance 1; known are step and weight'),
    ('"a\\u001bb" = 1\n' + SMALL, 'unknown key `a\\x1bb` in the recipe'),
    ('dimension = 4\n', '`dimension` must be tables: [[dimension]] for each'),
    ('[dimension]\nlength = 4\n', '`dimension` must be tables: [[dimension]] for each'),
    (changed(SMALL, ('tile = 1', '')), 'dimension 2: tile is missing'),
    (changed(SMALL, ('length = 4', 'length = 4.0')), 'dimension 1: length must be a whole number'),
    (changed(SMALL, ('length = 4', 'length = true')), 'dimension 1: length must be a whole number'),
    (changed(SMALL, ('length = 4', 'length = 70000')), 'dimension 1: length is 70000, and not from 0 to 65535'),
    (changed(SMALL, ('processors = 2', 'processors = -2')), 'dimension 1: processors is -2, and not from 0 to 65535'),
    (changed(SMALL, ('[1, 0]', '[1]')), 'distance 1: step has 1 components, and the recipe has 2 dimensions'),
    (changed(SMALL, ('[1, 0]', '1')), 'distance 1: step must be a list'),
    (changed(SHAPE, ('"lower"', '"above"')), 'bound 1: side must be "lower" or "upper"'),
    (changed(SHAPE, ('"lower"', '[]')), 'bound 1: side must be "lower" or "upper"'),
    (changed(SHAPE, ('earlier = 1', 'earlier = 0')), 'bound 1: earlier is 0, and not from 1 to 256'),
    ('boundary = 4294967296\n' + SMALL, 'the recipe: boundary is 4294967296, and not from 0 to 4294967295'),
    ('dimension 4 tile 2\n', 'no TOML: '),
    (SMALL.encode('utf-16'), 'UTF-16'),
    (b'# \xe4\n' + SMALL.encode(), 'no TOML: line 1 is not in UTF-8'),
    ('a = ' + '[' * 5000, 'no '),
    ('shift = ' + '1' * 5000 + '\n' + SMALL, NO_NUMBER),
    ('shift = 1979-05-27\n' + SMALL, 'the recipe: shift must be a whole number'),
]

# bytes, by a change of D's: record, byte, value
CHANGED = [
    ([], b'\0', 'refused 1, ragged: 65 bytes are no multiple of 16'),
    ([(2, 0, 9)], b'', 'refused 2, stray record: the record at byte 32 has kind 9, and kinds are 1 to 5'),
    ([(0, 0, 2)], b'', 'refused 2, stray record: the record at byte 16 is a dimension, and stands behind a distance'),
    ([(3, 0, 2)], b'', 'refused 2, stray record: the recipe has no close'),
    ([], bytes([3] + [0] * 15), 'refused 2, stray record: the record at byte 64 stands behind the close'),
    ([(1, 9, 7)], b'', 'refused 2, stray record: dimension 2 has 7 in byte 9, which must be 0 (byte 25 of the recipe)'),
    ([(3, 15, 1)], b'', 'refused 2, stray record: the close has 1 in byte 15, which must be 0 (byte 63 of the recipe)'),
    ([(2, 0, 4)], b'', 'refused 18, too wide: distance 1 is of kind 4, and its components 1, 0, 1 and 0 all fit a byte'),
    ([(2, 4, 3)], b'', 'refused 5, distance: distance 1 steps 3 in dimension 3, and the recipe has 2'),
    ([(0, 0, 5)], b'', 'refused 2, stray record: the record at byte 16 is a dimension, and stands behind a bound'),
]


def with_bounds(draw):
    """A recipe with bounds and distances that reach far."""
    values = recipe_of(draw)
    n = len(values['lengths'])
    values['bounds'] = [(draw.below(2), 1 + draw.below(n - 1), 0, draw.below(3) - 1, draw.below(5) - 1) for _ in range(draw.below(3))]
    return values


def text_of(values):
    """A recipe of the model's values as TOML, written here."""
    lines = ['shift = %d' % values['shift'], 'boundary = %d' % values['boundary']]
    for length, tile, count in zip(values['lengths'], values['tiling'], values['counts']):
        lines += ['[[dimension]]', 'length = %d' % length, 'tile = %d' % tile, 'processors = %d' % count]
    for side, dimension, earlier, slope, offset in values['bounds']:
        lines += ['[[bound]]', 'side = "%s"' % ['lower', 'upper'][side], 'dimension = %d' % (dimension + 1), 'earlier = %d' % (earlier + 1),
                  'slope = %d' % slope, 'offset = %d' % offset]
    for step, weight in zip(values['distances'], values['weights']):
        lines += ['[[distance]]', 'step = %s' % step[:len(values['lengths'])], 'weight = %d' % weight]
    return '\n'.join(lines)


class Texts(unittest.TestCase):

    def test_as_the_model_encodes(self):
        """TOML gives the bytes that the model writes, and bytes the same recipe again."""
        draw, met = Draw(411), 0
        for case in range(200):
            values = with_bounds(draw)
            wanted = model.encode(**values)
            parts = toml.parts_of_text(text_of(values))
            number = number_of(parts.encoded)
            self.assertEqual(number, model.read(wanted)[0], case)
            self.assertEqual(parts_of(bytes(wanted))[:3], parts[:3])
            if number == 0:
                met += 1
                self.assertEqual(parts.encoded(), bytes(wanted), case)
                self.assertEqual(toml.parts_of_text(toml.text_of(parts_of(bytes(wanted)))).encoded(), bytes(wanted), case)
        self.assertGreater(met, 60)

    def test_wide_distances(self):
        text = SMALL.replace('length = 4', 'length = 1000').replace('tile = 2', 'tile = 500').replace('[1, 0]', '[300, 0]\nweight = 7')
        encoded = toml.parts_of_text(text).encoded()
        self.assertEqual((encoded[32], parts_of(encoded).distances[0]), (4, ((300, 0, 0, 0), 7, True)))
        self.assertEqual(toml.parts_of_text(toml.text_of(parts_of(encoded))).encoded(), encoded)

    def test_every_refusal_is_explained(self):
        """Of recipes with changed bytes: the engine's number is the model's, and each has its record told."""
        draw, met = Draw(412), set()
        for case in range(3000):
            encoded = bytearray(model.encode(**with_bounds(draw)))
            for _ in range(1 + draw.below(2)):
                place = 16 * draw.below(len(encoded) // 16) + draw.below(9)
                encoded[place] = [draw.below(256), draw.below(6), 0][draw.below(3)]
            if draw.below(10) == 0 and 2 in encoded[::16]:
                # a distance of the other kind: its step is then in other bytes
                encoded[16 * list(encoded[::16]).index(2)] = 4
            if draw.below(20) == 0:
                encoded = encoded[:draw.below(len(encoded))]
            number = number_of(rolwyddac.sizes, bytes(encoded))
            self.assertEqual(number, model.read(encoded)[0])
            if number:
                met.add(number)
                self.assertTrue(explained(number, parts_of(bytes(encoded)), bytes(encoded)), (number, encoded.hex()))
        self.assertEqual(READERS, met)

    def test_needs_a_reader_of_toml(self):
        with without('tomllib', 'tomli'), self.assertRaisesRegex(Usage, 'Python 3.11, or the module tomli: pip install tomli'):
            toml.parts_of_text(SMALL)


class Told(InFolder):

    def test_texts(self):
        for text, wanted in REFUSED:
            path = self.put('a.toml', text)
            with self.assertRaises(Refusal, msg=wanted) as met:
                toml.recipe_of(path)
            self.assertTrue(str(met.exception).startswith(path + ': ' + wanted) or wanted in ('UTF-16', 'no ') and wanted in str(met.exception),
                            (str(met.exception), wanted))

    def test_bytes(self):
        small = toml.parts_of_text(SMALL).encoded()
        for changes, more, wanted in CHANGED:
            content = bytearray(small + more)
            for record, at, value in changes:
                content[16 * record + at] = value
            path = self.put('a.recipe', bytes(content))
            with self.assertRaises(Refusal, msg=wanted) as met:
                toml.recipe_of(path)
            self.assertEqual(str(met.exception), path + ': ' + wanted)

    def test_told_apart_by_content(self):
        """Bytes in a file .toml, TOML in one without an ending, with a mark of UTF-8, with CR LF."""
        small = toml.parts_of_text(SMALL).encoded()
        self.assertEqual(toml.recipe_of(self.put('bytes.toml', small)).encoded, small)
        for name, text in (('plain', SMALL), ('marked', '\ufeff' + SMALL), ('lines', SMALL.replace('\n', '\r\n'))):
            self.assertEqual(toml.recipe_of(self.put(name, text)).encoded, small)

    def test_command(self):
        path, out = self.put('a.toml', SMALL), self.path('a')
        self.ends(0, 'recipe', path, '-o', out)
        self.assertEqual(content_of(out), toml.parts_of_text(SMALL).encoded())
        self.assertEqual(self.ends(0, 'recipe', '-', given=content_of(out)), content_of(out))
        self.assertEqual(self.ends(0, 'recipe', '--list', out).decode(), ''.join('%d ∷ ' % byte for byte in content_of(out)) + '[]\n')
        self.ends(0, 'recipe', '--show', out, '-o', self.path('b.toml'))
        self.assertEqual(self.ends(0, 'recipe', self.path('b.toml')), content_of(out))
        self.ends(1, 'recipe', self.put('c', REFUSED[0][0]), '-o', self.path('d'), told='refused 3, length: dimension 1 has length 0')
        self.assertFalse(os.path.exists(self.path('d')))
        self.ends(3, 'recipe', self.path('none'), told='none: No such file or directory')
        self.ends(3, 'recipe', self.folder, told='Is a directory')
        self.ends(2, 'recipe', told='the following arguments are required: RECIPE')
        self.ends(2, 'recipe', path, '--colour', told='unrecognized arguments: --colour')

    def test_bytes_by_hand(self):
        """Records written out from the format: numbers of two and of four bytes, a distance of kind 4, bounds of both sides."""
        text = """
            shift = 11
            boundary = 67305985
            dimension = [{length = 600, tile = 400, processors = 2}, {length = 513, tile = 258}]
            distance = [{step = [300, 1], weight = 9}, {step = [0, 1], weight = 515}]
            bound = [{side = "lower", dimension = 2, slope = -1, offset = -2}, {side = "upper", dimension = 2, offset = 772}]"""
        small = changed(text, ('length = 600', 'length = 30'))
        written = self.ends(0, 'recipe', self.put('a.toml', small))
        records = [[1, 0, 30, 0, 144, 1, 2], [1, 0, 1, 2, 2, 1], [5, 0, 1, 0, 255, 0, 254, 255], [5, 1, 1, 0, 0, 0, 4, 3],
                   [4, 0, 44, 1, 1, 0, 0, 0, 0, 0, 9], [2, 0, 0, 1, 0, 0, 3, 2], [3, 11, 0, 0, 1, 2, 3, 4]]
        self.assertEqual(written, b''.join(bytes(record + [0] * (16 - len(record))) for record in records))
        self.ends(1, 'recipe', self.put('b.toml', text), told='refused 4, too large')
        for old, new, told in (('300', '401', 'refused 6, tile'), ('300', '65536', 'step is 65536'), ('offset = 772', 'offset = -1', 'refused 20, empty'),
                               ('slope = -1', 'slope = 2', 'refused 2, stray record'), ('"upper"', '"middle"', 'side must be'),
                               ('offset = 772', 'offset = 32768', 'offset is 32768'), ('shift = 11', 'shift = 32', 'refused 2, stray record')):
            self.ends(1, 'recipe', self.put('c.toml', changed(small, (old, new))), told=told)

    def test_stored_row_d(self):
        with open(os.path.join(ROOT, 'bindings', 'row_d.toml'), encoding='utf-8') as file:
            self.assertEqual(toml.parts_of_text(file.read()).encoded(), bytes(model.ROWS['D']))

    def test_not_to_a_terminal(self):
        path, (master, terminal) = self.put('a.toml', SMALL), os.openpty()
        self.addCleanup(os.close, master)
        self.ends(2, 'recipe', path, stdout=terminal, told='bytes would go to a terminal')
        os.close(terminal)


if __name__ == '__main__':
    unittest.main()
