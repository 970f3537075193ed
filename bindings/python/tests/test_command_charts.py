"""Charts of the command: the text against the model, other formats against GDAL, what is told of large words, modules that are missing."""

import argparse
import importlib.util
import os
import struct
import subprocess
import sys
import unittest

from command_support import BASIN, HARBOUR, HAS_BOARDS, ROOT, SMALL, SURVEYS, InFolder, command, content_of, environment, setUpModule, without  # noqa: F401
from support import Draw, model, recipe_of
from rolwyddac.command import chart, drawings
from rolwyddac.command.faults import Usage
from rolwyddac.command.points import Layout

GDAL = importlib.util.find_spec('osgeo')
MATPLOTLIB = importlib.util.find_spec('matplotlib')

HARBOUR_RECIPE = model.encode([60, 80], [10, 16], [6, 0], [[1, 0], [0, 1], [1, 1]], shift=2, boundary=4000, bounds=[(0, 1, 0, 1, -40)])
RECORDS = [os.path.join(HARBOUR, name) for name in ('spring.soundings', 'autumn.soundings')]


# two rows of three cells on two processors; each cell adds the one above it
ROWS = model.encode([2, 3], [1, 3], [2, 0], [[1, 0]])


def harbour_text(x, y, size):
    """The harbour's chart, by the model alone."""
    nest, source = model.read(HARBOUR_RECIPE)[1], [0] * 4800
    assert model.soundings(HARBOUR_RECIPE, b''.join(map(content_of, RECORDS)), 3000, source) == 0
    return model.chart_text(nest, model.plan_of(HARBOUR_RECIPE)[1].swept(source), x, y, size)


def words_of(source):
    return struct.pack('<%dI' % len(source), *source)


class Texts(InFolder):

    def test_harbour(self):
        """From points and from records, and as the boards make it; the files' order is nothing to it."""
        wanted, out = harbour_text(0, 0, 10), self.path('harbour.asc')
        for kind in ('chart', 'boards') if HAS_BOARDS else ('chart',):
            for files in (SURVEYS[::-1], RECORDS, [SURVEYS[0], RECORDS[1]]):
                self.ends(0, kind, BASIN, '--soundings', *files, '--value', 3000, '--cell', 10, '--out', out)
                self.assertEqual(content_of(out), wanted)
                os.unlink(out)

    def test_a_file_off_the_box(self):
        """One file that is off the box is told and left out; where all are, the place is wrong."""
        off, out = self.put('off.csv', 'x,y,depth,day\n9000,0,1,1\n'), self.path('h.asc')
        self.ends(0, 'chart', BASIN, '--soundings', off, *SURVEYS, '--value', 3000, '--cell', 10, '--out', out, told='1 point is off the box')
        self.assertEqual(content_of(out), harbour_text(0, 0, 10))
        self.ends(1, 'chart', BASIN, '--soundings', off, '--cell', 10, '--out', out, told='no point is on the box')

    def test_cells_without_a_sounding(self):
        """Their depth is 0 where no other is given, and that is told."""
        encoded, sounded = HARBOUR_RECIPE, set()
        for content in map(content_of, RECORDS):
            sounded |= {model.word32(content, at) for at in range(0, len(content), 16)}
        missing = [cell for cell in range(4800) if model.plan_of(encoded)[1].inside[cell] and cell not in sounded]
        self.ends(0, 'chart', BASIN, '--soundings', *RECORDS, '--out', '-',
                  told='%d cells of the shape have no sounding, and depth 0; --value gives another\n' % len(missing))
        done = command('chart', BASIN, '--soundings', *RECORDS, '--value', 0, '--out', '-')
        self.assertEqual((done[0], done[2]), (0, ''))

    def test_corner(self):
        written = self.ends(0, 'chart', BASIN, '--soundings', *RECORDS, '--value', 3000, '--corner', 412300, -71850, '--cell', 25, '--out', '-')
        self.assertEqual(written, harbour_text(412300, -71850, 25))

    def test_by_hand(self):
        """Two rows of three cells, each adding the one above it: texts written out by hand. Of two soundings of a cell the later day counts, on one
        day the greater survey; a cell without one has the value."""
        recipe = self.put('recipe', ROWS)
        head = 'ncols 3\nnrows 2\nxllcorner %d\nyllcorner %d\ncellsize %d\nNODATA_value -9999\n'
        spring = self.put('spring', words_of([0, 9, 1, 100, 5, 9, 1, 7, 2, 9, 1, 300, 3, 9, 1, 1]))
        autumn = self.put('autumn', words_of([5, 10, 2, 50, 0, 9, 2, 110, 4, 10, 2, 40]))
        out = self.put('out.asc', 'as before')
        done = command('chart', recipe, '--soundings', spring, autumn, '--out', out, '--value', 20, '--corner', -3, 20, '--cell', 50)
        self.assertEqual(done, (0, b'', ''))
        self.assertEqual(content_of(out).decode(), head % (-3, 20, 50) + '110 20 300\n111 60 350\n')
        # 4,294,967,295 and 3 are 2 modulo 2^32
        source = self.put('source', words_of([1, 2, 3, 40, 50, 2 ** 32 - 1]))
        self.assertEqual(command('chart', recipe, '--source', source, '--out', out), (0, b'', ''))
        self.assertEqual(content_of(out).decode(), head % (0, 0, 1) + '1 2 3\n41 52 2\n')
        self.assertEqual(sorted(os.listdir(self.folder)), ['autumn', 'out.asc', 'recipe', 'source', 'spring'])

    def test_faults_leave_the_file(self):
        """What is refused, or can't be read or written, changes no file, and leaves none beside it."""
        recipe, source, out = self.put('recipe', ROWS), self.put('source', bytes(24)), self.put('out.asc', 'as before')
        off = self.put('off', words_of([0, 1, 1, 1, 6, 1, 1, 1]))
        before = sorted(os.listdir(self.folder))
        for status, words, told in (
                (3, ['none', '--source', source, '--out', out], 'none: '), (1, [source, '--source', source, '--out', out], 'source: refused 1, '),
                (1, [recipe, '--source', off, '--out', out], 'off: 32 bytes, and 24 are needed, 4 a cell'),
                (1, [recipe, '--soundings', off, '--out', out], 'off: refused 22, '), (2, [recipe, '--source', source, '--out', out, '--cell', 0], '--cell'),
                (3, [recipe, '--source', source, '--out', self.path('none/out')], 'none/out: '),
                (2, [recipe, '--source', source, '--out', out, '--corner', 1], '--corner: expected 2 arguments')):
            self.ends(status, 'chart', *words, told=told, cwd=self.folder)
        self.assertEqual((content_of(out), sorted(os.listdir(self.folder))), (b'as before', before))

    def test_endless_files(self):
        recipe, out = self.put('recipe', ROWS), self.path('out.asc')
        for words in (['/dev/zero', '--source', '/dev/zero'], [recipe, '--source', '/dev/zero'], [recipe, '--soundings', '/dev/zero']):
            status, _, errors = command('chart', *words, '--out', out)
            self.assertIn(status, (1, 3))
            self.assertRegex(errors, '^/dev/zero: it has more than the [0-9]+ bytes')

    def test_where_standard_error_is_full(self):
        """The status is told all the same."""
        with open('/dev/full', 'wb') as full:
            for words, status in ((['chart', 'none', '--source', 'none', '--out', 'o.asc'], 3), (['chart', 'none'], 2), (['rounds', 'none'], 3)):
                done = subprocess.run([sys.executable, '-m', 'rolwyddac.command', *words], stderr=full, stdout=subprocess.PIPE, env=environment())
                self.assertEqual(done.returncode, status, words)

    def test_drawn(self):
        """Recipes and sources drawn, by the model's sweep and text."""
        draw, met = Draw(415), 0
        while met < 6:
            values = recipe_of(draw)
            if len(values['lengths']) != 2:
                continue
            met += 1
            encoded = bytes(model.encode(**values))
            plan = model.plan_of(encoded)[1]
            source = [draw.word() >> 4 for _ in range(plan.cells)]
            written = self.ends(0, 'chart', self.put('r', encoded), '--source', self.put('s', words_of(source)), '--cell', met, '--out', '-')
            self.assertEqual(written, model.chart_text(plan.nest, plan.swept(source), 0, 0, met))

    def test_refused(self):
        recipe, source = self.put('r', SMALL), self.put('s', words_of([1, 2, 3, 4]))
        points = self.put('p', '0.5 0.5 3 1')
        cube = self.put('cube', SMALL.replace('[1, 0]', '[1, 0, 0]') + '[[dimension]]\nlength = 2\ntile = 2\n')
        out = ['--out', self.path('o.asc')]
        for status, words, told in (
                (1, [cube, '--source', source, *out], 'cube: refused 23, no chart: the recipe has 3 dimensions, and a chart has 2'),
                (1, [recipe, '--source', recipe, *out], 'bytes, and 16 are needed, 4 a cell'),
                (1, [recipe, '--soundings', self.put('off', struct.pack('<4I', 4, 0, 0, 1)), *out],
                 'off: refused 22, off the box: the record at byte 0 names cell 4, and the box has 4'),
                (1, [recipe, '--soundings', self.put('ragged', bytes(17)), *out], 'ragged: refused 1, ragged: 17 bytes are no multiple of 16'),
                (2, [recipe, '--soundings', points, *out], 'p: these are points with x and y, and --cell has to say how large a cell is'),
                (2, [recipe, '--source', source, '--value', 3, *out], '--value goes with --soundings'),
                (2, [recipe, '--source', source, '--soundings', points, *out], 'not allowed with argument'),
                (2, [recipe, *out], 'one of the arguments --soundings --source is required'),
                (2, [recipe, '--source', source], 'the following arguments are required: --out'),
                (2, [recipe, '--source', source, '--out', self.path('o.png')], '--png draws a picture'),
                (2, [recipe, '--source', source, '--out', self.path('o.jpg')], 'charts are .asc, .tif or .nc'),
                (2, [recipe, '--source', source, '--out', source], 's is named twice'),
                (2, [recipe, '--source', source, '--out', '-', '--crs', 'EPSG:25832'], 'a text on standard output has no place for it'),
                (2, [recipe, '--source', source, *out, '--crs', 'utm'], '--crs: `utm` is not like EPSG:25832'),
                (2, [recipe, '--source', source, *out, '--corner', 2 ** 31, 0], 'is no whole number from -2147483648 to 2147483647'),
                (3, [recipe, '--source', self.path('none'), *out], 'none: No such file or directory')):
            self.ends(status, 'chart', *words, told=told)
            self.assertFalse(os.path.exists(self.path('o.asc')), told)

    def test_large_words(self):
        """Words of 2^31 and more are told, and the text has them as they are."""
        recipe = self.put('r', SMALL.replace('[1, 0]', '[1, 0]\nweight = 0'))
        source = [2 ** 31 - 1, 2 ** 31, 4294957297, 5]
        text = self.ends(0, 'chart', recipe, '--source', self.put('s', words_of(source)), '--out', '-', told=(
            '2 cells have words of 2147483648 or more; GDAL reads them in .asc as negative numbers, and 4294957297 as a missing cell: '
            'cell 1 (row 1, column 0) has 2147483648, cell 2 (row 2, column 0) has 4294957297'))
        self.assertEqual(text.split()[12:], [b'2147483647', b'2147483648', b'4294957297', b'5'])
        self.assertIsNone(chart.unsigned_words([2 ** 31, 5], {0}, 1))
        self.assertIn('and 5 more', chart.unsigned_words([2 ** 31] * 15, set(), 3))


class Formats(InFolder):

    def made(self, source, *options):
        """A chart of D's recipe with weight 0, so that the grid is the source."""
        recipe = self.put('r', SMALL.replace('[1, 0]', '[1, 0]\nweight = 0'))
        names = [self.path('c' + kind) for kind in ('.asc', '.tif', '.nc')]
        self.ends(0, 'chart', recipe, '--source', self.put('s', words_of(source)), '--corner', -7, 40, '--cell', 3, *options,
                  *(word for name in names for word in ('--out', name)))
        return names

    def opened(self, name):
        from osgeo import gdal
        gdal.UseExceptions()
        file = gdal.Open(name)
        band = file.GetRasterBand(1)
        values = struct.unpack('<%dd' % (band.XSize * band.YSize), band.ReadRaster(buf_type=gdal.GDT_Float64))
        return (band.XSize, band.YSize), file.GetGeoTransform(), band.GetNoDataValue(), list(values), file.GetSpatialRef()

    @unittest.skipUnless(GDAL, "GDAL's module is not installed")
    def test_gdal_reads_the_same(self):
        """The harbour in three formats: GDAL has size, place, missing cells and every value as the model."""
        names = [self.path('h' + kind) for kind in ('.asc', '.tif', '.nc')]
        self.ends(0, 'chart', BASIN, '--soundings', *SURVEYS, '--value', 3000, '--cell', 10, *(word for name in names for word in ('--out', name)))
        wanted = [int(word) for line in harbour_text(0, 0, 10).splitlines()[6:] for word in line.split()]
        for name in names:
            size, transform, missing, values, crs = self.opened(name)
            self.assertEqual((size, transform, missing), ((80, 60), (0, 10, 0, 600, 0, -10), -9999), name)
            self.assertEqual(values, wanted, name)
            self.assertIsNone(crs, name)

    @unittest.skipUnless(GDAL, "GDAL's module is not installed")
    def test_crs(self):
        names = self.made([1, 2, 3, 4], '--crs', 'epsg:25832')
        self.assertIn(b'ETRS_1989_UTM_Zone_32N', content_of(self.path('c.prj')))
        for name in names:
            size, transform, _, values, crs = self.opened(name)
            self.assertEqual((size, transform, values), ((1, 4), (-7, 3, 0, 52, 0, -3), [1, 2, 3, 4]), name)
            self.assertEqual(crs.GetAttrValue('projcs'), 'ETRS89 / UTM zone 32N', name)
        self.ends(2, 'chart', self.path('r'), '--source', self.path('s'), '--out', self.path('d.asc'), '--crs', 'EPSG:999999',
                  told='GDAL knows no EPSG:999999')

    @unittest.skipUnless(GDAL, "GDAL's module is not installed")
    def test_large_words(self):
        """In .tif and .nc words of 2^31 and more are as they are."""
        source = [2 ** 31 - 1, 2 ** 31, 4294957297, 2 ** 32 - 1]
        for name in self.made(source)[1:]:
            self.assertEqual(self.opened(name)[3], source, name)

    def test_without_gdal(self):
        with without('osgeo', 'osgeo.gdal'):
            with self.assertRaisesRegex(Usage, "a file .tif needs the Python module osgeo, .* the extra `gdal`, or Debian's python3-gdal"):
                drawings.raster('.tif', [1], set(), Layout(1, 1, 0, 0, 1), None)
            with self.assertRaisesRegex(Usage, '--crs needs the Python module osgeo'):
                drawings.prj('EPSG:25832')

    def test_without_matplotlib(self):
        """All else works; and of a chart with a picture nothing is written."""
        with without('matplotlib'), self.assertRaisesRegex(Usage, "--png needs the Python module matplotlib, .* `png`, or Debian's python3-matplotlib"):
            words = argparse.Namespace(recipe=self.put('r', SMALL), source=self.put('s', words_of([1, 2, 3, 4])), soundings=None, value=None,
                                       corner=[0, 0], cell=1, out=[self.path('o.asc')], crs=None, png=self.path('o.png'))
            chart.run(words)
        self.assertFalse(os.path.exists(self.path('o.asc')))

    @unittest.skipUnless(MATPLOTLIB, 'matplotlib is not installed')
    def test_picture(self):
        """A cell is drawn where it lies: the deep one dark, the shallow one light, the one outside in the colour of land."""
        import io

        import matplotlib.image
        import numpy
        content = drawings.picture([9000, 0, 0, 9000, 0, 0], {5}, Layout(2, 3, 0, 0, 10), 'a')
        self.assertEqual(content[:8], b'\x89PNG\r\n\x1a\n')
        pixels = (255 * matplotlib.image.imread(io.BytesIO(content))[:, :, :3]).round().astype(int)
        land = [int(drawings._LAND[at:at + 2], 16) for at in (1, 3, 5)]
        # the lower right cell alone is land: it lies right of and below the first third of the picture
        places = numpy.argwhere((pixels == land).all(axis=2))
        self.assertGreater(len(places), 1000)
        self.assertGreater(places[:, 1].min(), pixels.shape[1] // 3)
        self.assertGreater(places[:, 0].min(), pixels.shape[0] // 3)


class Modules(unittest.TestCase):

    def test_core_needs_none(self):
        """Without numpy, GDAL and matplotlib the harbour's chart is the same."""
        block = 'import sys; sys.modules.update(dict.fromkeys(("numpy", "osgeo", "matplotlib")))\n'
        done = subprocess.run([sys.executable, '-c', block + 'from rolwyddac.command import main; sys.exit(main())', 'chart', BASIN, '--soundings', *SURVEYS,
                               '--value', '3000', '--cell', '10', '--out', '-'], stdout=subprocess.PIPE, env=environment(), cwd=ROOT)
        self.assertEqual((done.returncode, done.stdout), (0, harbour_text(0, 0, 10)))


if __name__ == '__main__':
    unittest.main()
