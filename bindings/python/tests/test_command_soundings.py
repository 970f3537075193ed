"""Soundings of the command: points from CSV and XYZ, the cells that they fall on, what is told of them."""

import fractions
import importlib.util
import os
import struct
import unittest

from command_support import BASIN, HARBOUR, SMALL, SURVEYS, InFolder, command, content_of, setUpModule  # noqa: F401
from support import Draw, model, rolwyddac

import harbour_points  # noqa: I001
from rolwyddac.command.exact import Exact, day_of, number_of, word_of
from rolwyddac.command.points import Layout

# 3 rows by 4 columns
RECIPE = SMALL.replace('length = 4', 'length = 3').replace('length = 1\n', 'length = 4\n')
PLACE = ['--corner', '100', '-50', '--cell', '10']


def read_chart(text):
    """Rows, columns, corner and cell size that a chart's text has, and the words by row and column: read here, by the format's own rules."""
    lines = text.splitlines()
    head = dict(line.split() for line in lines[:6])
    columns, rows, x, y, size = (int(head[name]) for name in ('ncols', 'nrows', 'xllcorner', 'yllcorner', 'cellsize'))
    words = [line.split() for line in lines[6:]]
    # where each word is drawn: its left and right edge, its lower and upper edge
    return {(row, column): (x + column * size, x + (column + 1) * size, y + (rows - 1 - row) * size, y + (rows - row) * size)
            for row in range(rows) for column in range(columns) if words[row][column]}, columns


def decimal(draw, least, most):
    """A number with up to two places."""
    return '%d%s' % (least + draw.below(most - least), ['', '.0', '.5', '.25', '.01', '.99'][draw.below(6)])


class Places(unittest.TestCase):

    def test_as_the_chart_draws(self):
        """A point falls on the cell whose box in the chart's text has it; on an edge, on the one to the right and below."""
        draw, edges, off = Draw(413), 0, 0
        for case in range(300):
            rows, columns, x, y, size = 1 + draw.below(5), 1 + draw.below(5), draw.below(99) - 50, draw.below(99) - 50, 1 + draw.below(7)
            encoded = rolwyddac.Fields().dimension(rows, rows, 1).dimension(columns, columns).distance((1, 0)).close()
            boxes, wide = read_chart(rolwyddac.chart(encoded, [5] * (rows * columns), x, y, size))
            texts = decimal(draw, x - 1, x + columns * size + 2), decimal(draw, y - 1, y + rows * size + 2)
            px, py = map(fractions.Fraction, texts)
            found = [row * wide + column for (row, column), (left, right, low, high) in boxes.items()
                     if (left <= px < right or px == right == x + columns * size) and (low < py <= high or py == low == y)]
            on_edge = bool(found) and ((px - x) % size == 0 or (py - y) % size == 0)
            got = Layout(rows, columns, x, y, size).cell_of(number_of(texts[0]), number_of(texts[1]))
            self.assertEqual(got, (found[0] if found else None, on_edge), (case, texts))
            self.assertLessEqual(len(found), 1)
            edges, off = edges + on_edge, off + (not found)
        self.assertGreater(min(edges, off), 30)

    @unittest.skipUnless(importlib.util.find_spec('osgeo'), "GDAL's module is not installed")
    def test_as_gdal_reads(self):
        """GDAL finds at the point the word of the cell that the point falls on, edges included."""
        from osgeo import gdal
        gdal.UseExceptions()
        draw = Draw(414)
        rows, columns, x, y, size = 5, 7, 400, -90, 4
        encoded = rolwyddac.Fields().dimension(rows, rows, 1).dimension(columns, columns).distance((1, 0)).close()
        text = rolwyddac.chart(encoded, list(range(rows * columns)), x, y, size)
        gdal.FileFromMemBuffer('/vsimem/place.asc', text.encode())
        # a band is gone with its file
        opened = gdal.Open('/vsimem/place.asc')
        band, inverse = opened.GetRasterBand(1), gdal.InvGeoTransform(opened.GetGeoTransform())
        for _ in range(200):
            texts = decimal(draw, x, x + columns * size), decimal(draw, y + 1, y + rows * size)
            column, row = (int(part // 1) for part in gdal.ApplyGeoTransform(inverse, *map(float, texts)))
            word = struct.unpack('<i', band.ReadRaster(column, row, 1, 1, buf_type=gdal.GDT_Int32))[0]
            self.assertEqual(Layout(rows, columns, x, y, size).cell_of(*map(number_of, texts))[0], word, texts)

    def test_numbers(self):
        for text, wanted in (('12.34', Exact(1234, 2)), ('-0.5', Exact(-5, 1)), ('+7', Exact(7, 0)), ('.5', Exact(5, 1)), ('5.', Exact(5, 0)),
                             ('1e2', Exact(100, 0)), ('1.5E-1', Exact(15, 2)), ('', None), ('.', None), ('1_0', None), ('nan', None), ('inf', None),
                             ('٣', None), ('1e31', None), ('1e999999999', None), ('1' * 41, None), ('0x10', None), ('1 2', None)):
            self.assertEqual(number_of(text), wanted, text)
        for digits, places in ((1234, 2), (-5, 1), (5, 3), (0, 0), (-12, 0)):
            self.assertEqual(number_of(str(Exact(digits, places))), Exact(digits, places))
        self.assertEqual([Exact(digits, 1).nearest() for digits in (14, 15, 25, -15, -14)], [1, 2, 3, -2, -1])
        self.assertEqual([word_of(text) for text in ('4294967295', '4294967296', '-1', '1.0', '')], [2 ** 32 - 1, None, None, None, None])
        self.assertEqual([day_of(text) for text in ('20570', '2026-04-27', '2026-04-27T10:30:00Z', '2026-04-27 10:30', '1969-12-31', '2026-02-30',
                                                    '27.04.2026')],
                         [(20570, False), (20570, False), (20570, True), (20570, True), None, None, None])


class Converted(InFolder):

    def setUp(self):
        super().setUp()
        self.recipe = self.put('recipe.toml', RECIPE)

    def records(self, text, *options, told='', status=0):
        """The records that the command makes of a text."""
        path, out = self.put('in', text), self.path('out')
        self.said = self.ends(status, 'soundings', path, '-o', out, '--recipe', self.recipe, *PLACE, *options, told=told).decode()
        return list(struct.iter_unpack('<4I', content_of(out))) if status == 0 else None

    def test_forms(self):
        """The same points in many forms."""
        wanted = [(0, 5, 2, 1234), (11, 6, 3, 7)]
        for text, *options in (
                ['x,y,depth,day,survey\n101,-21,1234,5,2\n139.5,-49.5,7,6,3\n'],
                ['101,-21,1234,5,2\n139.5,-49.5,7,6,3\n'],
                ['# a boat\n\n101 -21 1234 5 2\n  139.5\t-49.5  7 6 3'],
                ['Survey;Day;Z;Northing;Easting\r\n2;5;1234;-21;101\r\n3;6;7;-49,5;139,5\r\n'],
                ['\ufeffx\ty\tdepth\tday\tsurvey\n101\t-21\t1234\t5\t2\n139,5\t-49,5\t7\t6\t3\n'],
                ['"x","y","depth","day","survey"\n"101","-21",1234,1970-01-06,2\n139.5, -49.5, 7 ,1970-01-07,3\n'],
                ['a,b,c,d,e\n5,2,101,-21,12.34\n6,3,139.5,-49.5,.07\n', '--x', 'C', '--y', '4', '--depth', 'e', '--day', '1', '--survey', 'b',
                 '--scale', '100'],
                ['101 -21 -1.234 5 2\n139.5 -49.5 -.007 6 3\n', '--scale', '-1000'],
                ['101,-21,9,1234,5,2\n139.5,-49.5,9,7,6,3\n', '--depth', '4', '--day', '5', '--survey', '6'],
                ['x,y,depth\r101,-21,1234\r', '--default-day', '5', '--default-survey', '2'],
                ['x\ty\tdepth\tday\tsurvey\r\n101\t-21\t1234\t5\t2\r\n'.encode('utf-16')],
                ['x,y,depth,day,survey\r\n101,-21,1234,5,2\r\n\x1a']):
            got = self.records(text, *options)
            self.assertGreater(len(got), 0)
            self.assertEqual(got, wanted[:len(got)], text)

    def test_reports(self):
        self.records('x,y,depth,day\n101,-21,3,\n101,-21,4,5\n', told='1 point has no day, and day 0 instead')
        self.assertIn('2 points on 1 of 12 cells\nmost on one cell: 2, cell 0 (row 0, column 0)\n', self.said)
        self.records('101 -21 3\n', told='1 point has no day, and day 0 instead, so that any other is later; --default-day gives one; the first is '
                     '%s: line 1' % self.path('in'))
        self.assertEqual(self.records('101 -21 3\n', '--default-day', '1970-01-03'), [(0, 2, 0, 3)])
        self.records('x,y,depth\n99,-21,3\n101,-21,3\n101,-19.99,3\n', told=(
            '2 points are off the box (x 100 to 140, y -50 to -20) and left out:\n'
            '  %s: line 2: x 99, y -21\n  %s: line 4: x 101, y -19.99\n' % (self.path('in'), self.path('in'))))
        self.records('110 -30 3 1\n140 -50 3 1\n', told='2 points are on an edge of a cell, and counted for the cell to the right or below')
        self.records('101 -21 1.26 1\n', '--scale', '10', '--round', told='1 depth is rounded to whole numbers: %s: line 1: 12.60 became 13' % self.path('in'))
        self.records('101,-21,3,2026-04-27T08:00\n', told='1 point has a time of the day, which is left out')
        self.records(''.join('0 0 %d 1\n' % at for at in range(14)) + '101 -21 3 1\n', told='line 10: x 0, y 0\n  and 4 more')

    def test_refused(self):
        """Nothing is written, and each line that is wrong is told."""
        for text, told in (
                ('x,y,depth\n1,2\n', 'line 2: depth is missing'),
                ('x,y,depth\n101,-21,3\n101,abc,3\n101,-21,\n', 'line 3: y `abc` is no number\n%s: line 4: depth is missing' % self.path('in')),
                ('x,y,depth\n101,-21,1.5\n', 'line 2: depth 1.5 times 1 is 1.5, and depths are whole numbers: give a larger --scale, or --round'),
                ('x,y,depth\n101,-21,-3\n', 'line 2: depth -3 gives -3, and depths are 0 to 4294967295; --scale -1 turns heights into depths'),
                ('x,y,depth\n101,-21,4294967296\n', 'line 2: depth 4294967296 gives 4294967296, and depths are 0 to 4294967295'),
                ('x,y,depth,day\n101,-21,3,yesterday\n', 'line 2: day `yesterday` is neither a whole number nor a date'),
                ('x,y,depth,day,survey\n101,-21,3,4,-1\n', 'line 2: survey `-1` is no whole number'),
                ('a,b,depth\n101,-21,3\n', 'no column for x; the first line has a, b and depth; --x NAME or NUMBER says which it is'),
                ('x,y\n101,-21\n', 'no column for depth'),
                ('1 2 3 1\n', 'no point is on the box: are --corner and --cell those of the chart?'),
                ('x,y,depth\n101,\x1b[2J,3\n', 'line 2: y `\\x1b[2J` is no number'),
                ('x,y,depth\n101,\u202e,3\n', 'y `\\u202e` is no number'),
                ('x,y,depth\n1e999999999,1,3\n', 'x `1e999999999` is no number'),
                (b'\0' * 16, 'no text; records of 16 bytes are soundings already')):
            self.records(text, told=told, status=1)
            self.assertFalse(os.path.exists(self.path('out')))
        self.records('101,-21,3\n', '--x', 'west', told='--x: no column is called `west`; the first line has 101, -21 and 3', status=1)
        self.records('101,-21,3\n', '--day', '7', told='--day: there is no column 7, for the first line has 3', status=1)
        self.records('101,-21,3\n', '--scale', 'much', told='--scale: `much` is no number but 0', status=2)
        self.ends(1, 'soundings', self.put('in', '1 2 3'), '-o', self.path('out'), '--recipe',
                  self.put('cube', SMALL.replace('[1, 0]', '[1, 0, 0]') + '[[dimension]]\nlength = 2\ntile = 2\n'), *PLACE, told='it has 3 dimensions')
        self.ends(2, 'soundings', self.path('in'), '-o', self.path('in'), '--recipe', self.recipe, *PLACE, told='is named twice: it would be written over')
        self.ends(2, 'soundings', self.path('in'), '-o', self.path('out'), '--recipe', self.recipe, '--corner', '0', '0', '--cell', '0',
                  told='argument --cell: `0` is no whole number from 1 to 65535')

    def test_empty(self):
        self.assertEqual(self.records(''), [])
        self.assertEqual(self.records('x,y,depth\n'), [])
        self.assertEqual(self.said, '0 points on 0 of 12 cells\n')

    def test_cells(self):
        self.records('x,y,depth\n101,-21,3\n102,-22,3\n139,-49,3\n', '--cells', self.path('cells.csv'))
        self.assertEqual(content_of(self.path('cells.csv')), b'cell,row,column,points\n0,0,0,2\n11,2,3,1\n')

    def test_off(self):
        """All of them, though only the first are told."""
        self.records('x,y,depth\n' + ''.join('99,%d,3\n' % at for at in range(12)) + '101,-21,3\n', '--off', self.path('off.csv'), told='and 2 more')
        lines = content_of(self.path('off.csv')).decode().splitlines()
        self.assertEqual((lines[0], lines[1], len(lines)), ('file,line,x,y', '%s,2,99,0' % self.path('in'), 13))

    def test_points_outside_the_shape(self):
        shape = RECIPE.replace('[[distance]]', '[[bound]]\nside = "lower"\ndimension = 2\nearlier = 1\nslope = 1\n[[distance]]')
        self.recipe = self.put('shape.toml', shape)
        self.records('101 -49 3 1\n', told='1 point is in cells outside the shape, where no value is computed')

    def test_harbours_files(self):
        """The points are those that are made from the records."""
        self.assertEqual(harbour_points.main(['check']), 0)

    def test_harbour(self):
        """The points of data/harbour give its records again, byte for byte."""
        for name in ('spring', 'autumn'):
            found = command('soundings', os.path.join(HARBOUR, name + '.csv'), '-o', '-', '--recipe', BASIN, '--corner', '0', '0', '--cell', '10')
            self.assertEqual(found[:2], (0, content_of(os.path.join(HARBOUR, name + '.soundings'))))
        both = command('soundings', *SURVEYS, '-o', '-', '--recipe', BASIN, '--corner', '0', '0', '--cell', '10')[1]
        encoded = model.encode([60, 80], [10, 16], [6, 0], [[1, 0], [0, 1], [1, 1]], shift=2, boundary=4000, bounds=[(0, 1, 0, 1, -40)])
        wanted = [0] * 4800
        self.assertEqual(model.soundings(encoded, both, 3000, wanted), 0)
        self.assertEqual(len(set(wanted)) > 500, True)


if __name__ == '__main__':
    unittest.main()
