"""What may be lent, and how a refusal or a fault is told."""

import array
import unittest

from support import ROW_D, calls, flat, rolwyddac


class Forms(unittest.TestCase):
    """What may be lent, and how a refusal is told."""

    def test_refusals(self):
        run = rolwyddac.Run(ROW_D, rolwyddac.DIRECT, [1] * 4)
        with self.assertRaises(rolwyddac.Waiting) as told:
            run.turn(1)
        self.assertEqual(str(told.exception), 'refused 12, waiting: '
                         'the processor is to gather and a message due at its tile is not delivered')
        self.assertEqual((told.exception.number, told.exception.term), (12, 'waiting'))
        with self.assertRaises(rolwyddac.NoMail):
            run.deliver(0)
        with self.assertRaises(rolwyddac.Area):
            rolwyddac.sweep(ROW_D, [1] * 5)
        self.assertEqual(str(calls.refused(4000)), 'refused 4000, other: a number that this library has no name for')
        self.assertEqual(calls.REFUSALS[22].__name__, 'OffTheBox')

    def test_sources(self):
        wanted = [[1], [2], [3], [4]]
        words = array.array('I', [1] * 4)
        forms = [[1] * 4, (1, 1, 1, 1), [[1], [1], [1], [1]], words, memoryview(words).cast('B').cast('I', (4, 1))]
        if rolwyddac.numpy is not None:
            forms += [rolwyddac.numpy.ones(4, dtype=kind) for kind in ('uint32', 'int64', 'uint8')]
            forms += [rolwyddac.numpy.ones((4, 1), dtype='uint32')]
        for source in forms:
            grid = rolwyddac.sweep(ROW_D, source)
            self.assertEqual(grid.tolist() if hasattr(grid, 'tolist') else grid, wanted)

    def test_faults_are_told(self):
        sweep = calls.EXPORTED['sweep']
        grid = array.array('I', [0] * 4)
        with self.assertRaisesRegex(OverflowError, 'source: -1 is not from 0 to 4294967295'):
            sweep(ROW_D, [1, 1, 1, -1], grid)
        with self.assertRaisesRegex(TypeError, 'grid: list has no buffer'):
            sweep(ROW_D, [1] * 4, [0] * 4)
        with self.assertRaisesRegex(TypeError, 'grid: elements must be unsigned, 4 bytes each'):
            sweep(ROW_D, [1] * 4, array.array('f', [0] * 4))
        with self.assertRaisesRegex(TypeError, 'grid: elements must be unsigned, 4 bytes each'):
            sweep(ROW_D, [1] * 4, array.array('Q', [0] * 2))
        with self.assertRaisesRegex(TypeError, 'grid: the area is written, and can only be read'):
            sweep(ROW_D, [1] * 4, memoryview(grid).toreadonly())
        with self.assertRaisesRegex(ValueError, 'side by side'):
            sweep(ROW_D, [1] * 4, memoryview(array.array('I', [0] * 8))[::2])
        with self.assertRaisesRegex(OverflowError, 'processor: -1'):
            rolwyddac.Run(ROW_D, rolwyddac.DIRECT, [1] * 4).turn(-1)
        self.assertEqual(list(grid), [0] * 4)

    def test_areas_without_elements(self):
        row_f = rolwyddac.Fields().dimension(1, 2, 2).dimension(2, 1, 0).distance((1, 0)).close()
        run = rolwyddac.Run(row_f, rolwyddac.DIRECT, [5, 7])
        self.assertEqual((len(run.areas.buffer), len(run.areas.status), run.finish()), (0, 0, 4))
        self.assertEqual(flat(run.collect()), [5, 7])

    def test_versions(self):
        self.assertEqual(rolwyddac.version(), rolwyddac.__version__)
