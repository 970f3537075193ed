"""Sources and grids: their shapes, what of them is copied, and what is no row of whole numbers."""

import array
import ctypes
import fractions
import mmap
import unittest

from support import ROW_D, flat, model, rolwyddac

numpy = rolwyddac.numpy
with_numpy = unittest.skipIf(numpy is None, 'numpy is not installed')

ROWS, COLUMNS = 3, 5
OBLONG = model.encode([ROWS, COLUMNS], [2, 2], [2, 0], [[1, 0, 0, 0], [0, 1, 0, 0]])
CUBE = model.encode([2, 3, 4], [1, 2, 2], [2, 0, 0], [[1, 0, 0, 0], [0, 1, 0, 0], [0, 0, 1, 0]])
DIRECT = rolwyddac.DIRECT


def counted(rows, columns):
    return [[row * columns + column for column in range(columns)] for row in range(rows)]


def swept(encoded, source):
    return model.plan_of(encoded)[1].swept(list(source))


class Table:
    """As tables of other packages: an array on demand, and the names of its columns to whom goes through it."""

    def __init__(self, made):
        self.made = made

    def __array__(self, *words, **named):
        return self.made

    def __iter__(self):
        return iter(['cell', 'day', 'survey', 'depth'])


# each call that is given a word for each cell
TAKERS = {
    'sweep': lambda source: rolwyddac.sweep(OBLONG, source),
    'chart': lambda source: rolwyddac.chart(OBLONG, source),
    'part_source': lambda source: rolwyddac.part_source(OBLONG, source, 0),
    'Run': lambda source: rolwyddac.Run(OBLONG, DIRECT, source),
    'rounds': lambda source: rolwyddac.rounds(OBLONG, source),
    'Board': lambda source: rolwyddac.Board(OBLONG, DIRECT, source, 0),
    'Rig, first': lambda source: rolwyddac.Rig(OBLONG, DIRECT, [source, [0] * (ROWS * COLUMNS)]),
    'Rig, second': lambda source: rolwyddac.Rig(OBLONG, DIRECT, [[0] * (ROWS * COLUMNS), source]),
}


class Shapes(unittest.TestCase):

    def test_turned_rows_are_refused(self):
        turned = counted(COLUMNS, ROWS)
        forms = [turned, tuple(tuple(row) for row in turned), [array.array('I', row) for row in turned],
                 memoryview(array.array('I', range(15))).cast('B').cast('I', (COLUMNS, ROWS))]
        if numpy is not None:
            forms += [numpy.array(turned, dtype=kind) for kind in ('uint32', 'int64', 'uint8', '>u4')]
            forms += [numpy.array(counted(ROWS, COLUMNS), dtype='uint32').T]
        for name, call in TAKERS.items():
            for form in forms:
                with self.subTest(name, form=type(form).__name__):
                    with self.assertRaisesRegex(ValueError, r'its shape is \(5, 3\), and not \(3, 5\)'):
                        call(form)

    def test_other_shapes_are_refused(self):
        for form in ([counted(ROWS, COLUMNS)], [[word] for word in range(15)], [list(range(15))], [[], [], []], [[]]):
            for name, call in TAKERS.items():
                with self.subTest(name, form=form), self.assertRaisesRegex(ValueError, 'its shape is'):
                    call(form)

    def test_ragged_rows_are_refused(self):
        for form in ([[1, 2], [3], [4, 5, 6]], [1, [2, 3]], [[1], 2], [[[1]], [2]]):
            with self.assertRaisesRegex(ValueError, 'source: rows of different lengths'):
                rolwyddac.sweep(OBLONG, form)

    def test_flat_and_shaped_are_the_same(self):
        rows = counted(ROWS, COLUMNS)
        words = array.array('I', range(15))
        forms = [list(words), range(15), tuple(words), rows, tuple(map(tuple, rows)), words, memoryview(words), array.array('Q', words),
                 array.array('b', words), memoryview(words).toreadonly(), memoryview(words).cast('B').cast('I', (ROWS, COLUMNS)),
                 (ctypes.c_uint32 * 15)(*words), (ctypes.c_uint16 * 15)(*words), (ctypes.c_uint32.__ctype_be__ * 15)(*words),
                 ((ctypes.c_uint32 * COLUMNS) * ROWS)(*map(tuple, rows)), memoryview(array.array('I', [w for x in words for w in (x, 9)]))[::2],
                 [array.array('I', row) for row in rows]]
        wanted = swept(OBLONG, range(15))
        for form in forms:
            with self.subTest(type(form).__name__):
                self.assertEqual(flat(rolwyddac.sweep(OBLONG, form)), wanted)

    @with_numpy
    def test_arrays(self):
        rows = numpy.array(counted(ROWS, COLUMNS))
        forms = [rows.astype(kind) for kind in ('uint32', '>u4', '<i8', '>i8', 'uint8', 'int8', '>u2', 'uint64')]
        # not side by side: other order, a part, backwards
        forms += [numpy.asfortranarray(rows.astype('uint32')), numpy.repeat(rows, 2, axis=1)[:, ::2], rows[::-1, ::-1][::-1, ::-1], rows.ravel(),
                  list(rows), [list(row) for row in rows], Table(rows), numpy.array(counted(COLUMNS, ROWS)).reshape(ROWS, COLUMNS)]
        frozen = rows.astype('uint32')
        frozen.flags.writeable = False
        wanted = swept(OBLONG, range(15))
        for form in forms + [frozen]:
            with self.subTest(str(getattr(form, 'dtype', 'list'))):
                self.assertEqual(flat(rolwyddac.sweep(OBLONG, form)), wanted)
        turned = numpy.array([[row * COLUMNS + column for row in range(ROWS)] for column in range(COLUMNS)], dtype='uint32').T
        self.assertEqual(flat(rolwyddac.sweep(OBLONG, turned)), wanted)

    def test_three_dimensions(self):
        words = list(range(24))
        cube = [[words[12 * i + 4 * j:][:4] for j in range(3)] for i in range(2)]
        self.assertEqual(flat(rolwyddac.sweep(CUBE, cube)), swept(CUBE, words))
        for form in ([words[:12], words[12:]], [words[at:at + 4] for at in range(0, 24, 4)], [cube]):
            with self.assertRaisesRegex(ValueError, r'its shape is .*, and not \(2, 3, 4\)'):
                rolwyddac.sweep(CUBE, form)

    def test_lengths_are_the_engines(self):
        for form in ([], [1] * 14, [1] * 16, array.array('I'), (), (ctypes.c_uint32 * 0)(), array.array('q'), memoryview(array.array('I'))):
            for name, call in TAKERS.items():
                with self.subTest(name, form=form), self.assertRaises(rolwyddac.Area):
                    call(form)

    def test_parts_are_flat(self):
        own = rolwyddac.part_source(ROW_D, [1, 2, 3, 4], 1)
        self.assertEqual(list(own), [3, 4])
        with self.assertRaisesRegex(ValueError, 'source: its shape is'):
            rolwyddac.PartBoard(ROW_D, DIRECT, [[3], [4]], 1)
        with self.assertRaises(rolwyddac.Area):
            rolwyddac.PartBoard(ROW_D, DIRECT, [3, 4, 5], 1)
        board = rolwyddac.Board(ROW_D, DIRECT, [1] * 4, 1)
        with self.assertRaisesRegex(ValueError, 'words: its shape is'):
            board.take_in(0, [[1]])

    def test_hours(self):
        table = [0, 10080] + [0] * 26 + [5, 10] + [0] * 26
        pairs = [table[at:at + 2] for at in range(0, 56, 2)]
        for form in (table, pairs, [table[:28], table[28:]], [pairs[:14], pairs[14:]]):
            self.assertEqual([rolwyddac.opens(ROW_D, form, 0, processor) for processor in (0, 1)], [0, 5])
            rolwyddac.Run(ROW_D, DIRECT, [1] * 4).turn_at(form, 0, 0)
        turned = [list(column) for column in zip(table[:28], table[28:])][:27]
        for form in (turned, [table[:56]], [pairs], [table[at:at + 7] for at in range(0, 56, 7)]):
            with self.assertRaisesRegex(ValueError, 'hours: its shape is'):
                rolwyddac.opens(ROW_D, form, 0, 0)
            with self.assertRaisesRegex(ValueError, 'hours: its shape is'):
                rolwyddac.Run(ROW_D, DIRECT, [1] * 4).turn_at(form, 0, 0)
        with self.assertRaises(rolwyddac.Area):
            rolwyddac.opens(ROW_D, table[:-1], 0, 0)

    def test_grids_that_are_written(self):
        board = rolwyddac.PartBoard(ROW_D, DIRECT, [1, 1], 0)
        while True:
            try:
                board.turn()
            except rolwyddac.Finished:
                break
        words = array.array('I', [9] * 4)
        board.collect(memoryview(words).cast('B').cast('I', (4, 1)))
        self.assertEqual(list(words), [1, 2, 9, 9])
        with self.assertRaisesRegex(ValueError, r'grid: its shape is \(2, 2\), and not \(4, 1\)'):
            board.collect(memoryview(words).cast('B').cast('I', (2, 2)))
        for grid in (memoryview(words).toreadonly(), [0] * 4, bytes(16), array.array('Q', [0] * 4), array.array('i', [0] * 4)):
            with self.assertRaises(TypeError):
                board.collect(grid)
        with self.assertRaisesRegex(ValueError, 'side by side'):
            board.collect(memoryview(array.array('I', [0] * 8))[::2])
        with self.assertRaises(rolwyddac.Area):
            board.collect(array.array('I', [0] * 5))
        self.assertEqual(list(words), [1, 2, 9, 9])


class Elements(unittest.TestCase):

    def test_no_whole_numbers(self):
        forms = [[1.0] * 15, ['1'] * 15, '1' * 15, b'\1' * 15, bytearray(15), None, 15, 1.5, {1: 2}, set(range(15)), iter([1] * 15), [None] * 15,
                 [fractions.Fraction(1)] * 15, array.array('f', [1] * 15), array.array('d', [1] * 15), (ctypes.c_bool * 15)(),
                 memoryview(bytes(60)).cast('f'), memoryview(bytes(15)).cast('?'), memoryview(bytes(15)).cast('c'), [b'1'] * 15,
                 (rolwyddac.Progress * 15)()]
        if numpy is not None:
            forms += [numpy.ones(15, dtype=kind) for kind in ('float32', 'float64', 'bool', 'complex64', 'object')]
            forms += [numpy.zeros(15, dtype=kind) for kind in ('S4', 'U1', 'M8[s]', 'V4', [('depth', 'u4')])]
            forms += [[numpy.float64(1)] * 15, [numpy.ones(5)] * 3]
        for name, call in TAKERS.items():
            for form in forms:
                with self.subTest(name, form=str(form)[:40]), self.assertRaises(TypeError):
                    call(form)

    def test_what_is_closed_says_so(self):
        released = memoryview(array.array('I', range(15)))
        released.release()
        closed = mmap.mmap(-1, 64)
        closed.close()
        for name, call in TAKERS.items():
            with self.subTest(name), self.assertRaisesRegex(ValueError, 'released'):
                call(released)
        for call in (rolwyddac.summary, rolwyddac.rounds_of, lambda form: rolwyddac.soundings(OBLONG, form, 0),
                     lambda form: rolwyddac.calls.EXPORTED['sweep'](OBLONG, form, form)):
            for form, told in ((released, 'released'), (closed, 'closed')):
                with self.assertRaisesRegex(ValueError, told):
                    call(form)

    def test_none_wraps(self):
        forms = [array.array('b', [0] * 14 + [-1]), array.array('i', [0] * 14 + [-1]), array.array('q', [0] * 14 + [2 ** 32]),
                 array.array('Q', [2 ** 63] + [0] * 14), (ctypes.c_uint64.__ctype_be__ * 15)(2 ** 32)]
        if numpy is not None:
            words = (-1, 'int8'), (-1, '>i4'), (2 ** 32, '>i8'), (2 ** 64 - 1, 'uint64')
            forms += [numpy.array([0] * 14 + [word], dtype=kind) for word, kind in words]
        for name, call in TAKERS.items():
            for form in forms:
                with self.subTest(name, form=str(form)[:60]):
                    with self.assertRaisesRegex(OverflowError, '-1|%d|%d|%d' % (2 ** 32, 2 ** 63, 2 ** 64 - 1)):
                        call(form)

    @with_numpy
    def test_masks_are_not_lost(self):
        words = numpy.arange(15, dtype='uint32')
        masked = numpy.ma.array(words, mask=words > 7)
        rows = masked.reshape(ROWS, COLUMNS)
        for form in (masked, rows, masked.astype('int64'), numpy.ma.array(words), list(rows), list(masked)):
            for name, call in TAKERS.items():
                with self.subTest(name), self.assertRaises(TypeError):
                    call(form)
        for form in (masked, numpy.ma.array(words)):
            with self.assertRaisesRegex(TypeError, 'source: a masked array.*filled'):
                rolwyddac.sweep(OBLONG, form)
            with self.assertRaisesRegex(TypeError, 'grid: a masked array'):
                rolwyddac.calls.EXPORTED['sweep'](OBLONG, words, form)
        with self.assertRaisesRegex(TypeError, 'source: a masked array'):
            rolwyddac.sweep(OBLONG, Table(masked))
        with self.assertRaisesRegex(TypeError, 'processor: a masked array'):
            rolwyddac.Run(ROW_D, DIRECT, [1] * 4).turn(numpy.ma.array(1, mask=True))
        with self.assertRaisesRegex(TypeError, 'records: a masked array'):
            rolwyddac.soundings(OBLONG, numpy.ma.array([[0, 0, 0, 5]], mask=[[0, 0, 0, 1]]), 0)

    def test_soundings(self):
        wanted = [7] * 15
        wanted[2] = 40
        records = [rolwyddac.Sounding(2, 1, 1, 30), (2, 2, 1, 40)]
        content = b''.join(word.to_bytes(4, 'little') for record in records for word in record)
        forms = [records, tuple(records), iter(records), (record for record in records), [list(record) for record in records], content,
                 bytearray(content), memoryview(content), array.array('B', content), (ctypes.c_char * 32)(*content)]
        if numpy is not None:
            forms += [numpy.array(records, dtype=kind) for kind in ('uint32', 'int64', '>u4')] + [numpy.frombuffer(content, dtype='uint8')]
            forms += [Table(numpy.array(records))]
        for form in forms:
            with self.subTest(type(form).__name__):
                self.assertEqual(flat(rolwyddac.soundings(OBLONG, form, 7)), wanted)
        self.assertEqual(flat(rolwyddac.soundings(OBLONG, [], 7)), [7] * 15)
        for form in ([(1, 2, 3)], [(1, 2, 3, 4, 5)], [1, 2, 3, 4], [(1, 2, 3, 4), (1, 2)]):
            with self.assertRaisesRegex(ValueError, 'records: '):
                rolwyddac.soundings(OBLONG, form, 7)
        for form in ('text', 4, [('1', '2', '3', '4')], [(1.5, 1, 1, 1)]):
            with self.assertRaises(TypeError):
                rolwyddac.soundings(OBLONG, form, 7)


class Copies(unittest.TestCase):
    """What an object keeps of a source is its own, whatever the form: changing the caller's array changes no grid."""

    def forms(self):
        yield [1] * 4
        yield array.array('I', [1] * 4)
        yield (ctypes.c_uint32 * 4)(*[1] * 4)
        yield memoryview(array.array('I', [1] * 4))
        if numpy is not None:
            for kind in ('uint32', 'int64', '>u4'):
                yield numpy.ones(4, dtype=kind)

    def test_run(self):
        for source in self.forms():
            run = rolwyddac.Run(ROW_D, DIRECT, source)
            source[3] = 100
            run.finish()
            self.assertEqual(flat(run.collect()), [1, 2, 3, 4])

    def test_resumed_run(self):
        for source in self.forms():
            run = rolwyddac.Run.resume(ROW_D, DIRECT, source, rolwyddac.Run(ROW_D, DIRECT, source).areas)
            source[3] = 100
            run.finish()
            self.assertEqual(flat(run.collect()), [1, 2, 3, 4])

    def test_rig(self):
        for source in self.forms():
            rig = rolwyddac.Rig(ROW_D, DIRECT, [source, source])
            source[3] = 100
            rig.finish()
            self.assertEqual([flat(rig.collect(office)) for office in (0, 1)], [[1, 2, 3, 4]] * 2)

    def test_boards(self):
        for source in self.forms():
            boards = [rolwyddac.Board(ROW_D, DIRECT, source, processor) for processor in (0, 1)]
            source[3] = 100
            for _ in range(3):
                boards[0].turn()
            boards[1].take_in(0, boards[0].post(0)[1])
            for _ in range(2):
                boards[1].turn()
            self.assertEqual(flat(boards[1].memory())[2:], [3, 4])

    def test_own_boards(self):
        for source in self.forms():
            part = source[:2]
            board = rolwyddac.PartBoard(ROW_D, DIRECT, part, 0)
            part[1] = 100
            board.turn()
            board.turn()
            self.assertEqual(list(board.memory), [1, 2])

    def test_two_sources(self):
        for sources in ([], [[1] * 4], [[1] * 4] * 3):
            with self.assertRaisesRegex(ValueError, 'sources: two are needed, not %d' % len(sources)):
                rolwyddac.Rig(ROW_D, DIRECT, sources)
