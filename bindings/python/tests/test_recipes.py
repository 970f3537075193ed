"""Recipes as they are given: bytes-like objects, and nothing else."""

import array
import copy
import ctypes
import pickle
import unittest

from support import ROW_D, flat, rolwyddac

numpy = rolwyddac.numpy
DIRECT = rolwyddac.DIRECT


class Recipes(unittest.TestCase):

    TAKERS = {
        'sizes': rolwyddac.sizes, 'summary': rolwyddac.summary, 'dimensions': rolwyddac.dimensions, 'messages': rolwyddac.messages,
        'owners': rolwyddac.owners, 'rounds_of': rolwyddac.rounds_of, 'hops': lambda e: rolwyddac.hops(e, 0),
        'message': lambda e: rolwyddac.message(e, DIRECT, 0), 'part_sizes': lambda e: rolwyddac.part_sizes(e, DIRECT, 0),
        'part_messages': lambda e: rolwyddac.part_messages(e, DIRECT, 0), 'part_source': lambda e: list(rolwyddac.part_source(e, [1] * 4, 0)),
        'sweep': lambda e: flat(rolwyddac.sweep(e, [1] * 4)), 'chart': lambda e: rolwyddac.chart(e, [1] * 4),
        'soundings': lambda e: flat(rolwyddac.soundings(e, [], 1)), 'opens': lambda e: rolwyddac.opens(e, [0] * 56, 0, 0),
        'Run': lambda e: rolwyddac.Run(e, DIRECT, [1] * 4).finish(), 'Rig': lambda e: rolwyddac.Rig(e, DIRECT, [[1] * 4] * 2).finish(),
        'Board': lambda e: rolwyddac.Board(e, DIRECT, [1] * 4, 0).turn(), 'PartBoard': lambda e: rolwyddac.PartBoard(e, DIRECT, [1] * 2, 0).turn(),
        'calls': lambda e: rolwyddac.calls.EXPORTED['rounds_of'](e, array.array('I', [0] * 2)),
    }

    def test_bytes_alone(self):
        forms = [64, True, None, 1.5, ROW_D.decode('latin-1'), list(ROW_D), tuple(ROW_D), iter(ROW_D), array.array('I', ROW_D),
                 memoryview(ROW_D).cast('I'), memoryview(ROW_D).cast('b'), memoryview(ROW_D).cast('?')]
        if numpy is not None:
            octets = numpy.frombuffer(ROW_D, dtype='uint8')
            forms += [octets.astype('int64'), octets.view('uint32'), octets.view('int8'), numpy.ma.array(octets, mask=octets > 1)]
        for name, call in self.TAKERS.items():
            for form in forms:
                with self.subTest(name, form=str(form)[:40]), self.assertRaises(TypeError):
                    call(form)

    def test_what_is_bytes_like(self):
        forms = [bytearray(ROW_D), memoryview(ROW_D), memoryview(bytearray(ROW_D)), array.array('B', ROW_D), (ctypes.c_uint8 * 64)(*ROW_D),
                 memoryview(ROW_D).cast('c')]
        if numpy is not None:
            forms += [numpy.frombuffer(ROW_D, dtype='uint8'), numpy.frombuffer(ROW_D, dtype='uint8').copy()]
        for name, call in self.TAKERS.items():
            wanted = call(ROW_D)
            for form in forms:
                with self.subTest(name, form=type(form).__name__):
                    got = call(form)
                    self.assertEqual(got.tolist() if hasattr(got, 'tolist') else got, wanted.tolist() if hasattr(wanted, 'tolist') else wanted)

    def test_no_recipe(self):
        for form in (b'', b'\1', b'\1' * 15, b'\1' * 17, ROW_D[:-1], ROW_D + b'\0'):
            for name, call in self.TAKERS.items():
                with self.subTest(name, form=form), self.assertRaises(rolwyddac.Ragged):
                    call(form)


class Copies(unittest.TestCase):

    def test_fields(self):
        """What is added to a copy is not added to the first."""
        first = rolwyddac.Fields().dimension(4, 2, 2).dimension(1, 1, 0).distance((1, 0), 1)
        for way in (copy.copy, copy.deepcopy, lambda fields: pickle.loads(pickle.dumps(fields))):
            second = way(first).distance((0, 1), 1).at_most(1, 0, 1, 5)
            self.assertEqual((len(first.close()), len(second.close())), (64, 96))


class Records(unittest.TestCase):

    def test_records_equal_records_alone(self):
        progress, sizes = rolwyddac.Progress(), rolwyddac.sizes(ROW_D)
        self.assertEqual(progress, rolwyddac.Progress(0, 0, 0))
        self.assertEqual(sizes, rolwyddac.sizes(bytearray(ROW_D)))
        for other in (12, bytes(12), bytes(sizes), None, rolwyddac.Progress(0, 0, 1)):
            self.assertNotEqual(progress, other)
            self.assertNotEqual(sizes, other)

    def test_what_is_no_record(self):
        """Twelve bytes an element are not yet three words."""
        turn, words = rolwyddac.calls.EXPORTED['awaited'], array.array('I', [0] * 6)
        for progress in (memoryview(words), memoryview(words).cast('B').cast('I', (2, 3)), (rolwyddac.Progress * 2)()):
            turn(ROW_D, DIRECT, progress, bytes(1), 0, bytearray(1))
        forms = [memoryview(words).cast('B').cast('I', (3, 2)), array.array('f', [0] * 6), bytes(24), ((ctypes.c_char * 12) * 2)()]
        if numpy is not None:
            forms += [numpy.zeros(2, dtype=kind) for kind in ('S12', 'V12', [('a', 'f4'), ('b', 'f4'), ('c', 'f4')], [('a', 'u8'), ('b', 'u4')])]
            forms += [numpy.zeros(2, dtype=[('a', '>u4'), ('b', '>u4'), ('c', '>u4')])]
            records = numpy.zeros(2, dtype=[('finished', 'u4'), ('stage', 'u4'), ('sent', 'u4')])
            turn(ROW_D, DIRECT, records, bytes(1), 0, bytearray(1))
        for form in forms:
            with self.subTest(str(form)[:50]), self.assertRaises(TypeError):
                turn(ROW_D, DIRECT, form, bytes(1), 0, bytearray(1))
