"""Areas that overlap: what a call writes shares no memory with another area that it is lent."""

import array
import unittest

from support import ROW_D, calls, records, rolwyddac

numpy = rolwyddac.numpy
DIRECT = rolwyddac.DIRECT


class Overlaps(unittest.TestCase):
    """An area that a call writes shares no memory with another that it is lent."""

    def test_sweep(self):
        words = array.array('I', [1, 2, 3, 4, 5, 6, 7, 8])
        view = memoryview(words)
        for source, grid in ((view[:4], view[:4]), (view[:4], view[3:7]), (view[3:7], view[:4]), (view[:4], view[1:5])):
            with self.assertRaisesRegex(ValueError, 'source and grid overlap'):
                calls.EXPORTED['sweep'](ROW_D, source, grid)
        self.assertEqual(list(words), [1, 2, 3, 4, 5, 6, 7, 8])
        same = array.array('I', [1] * 4)
        with self.assertRaisesRegex(ValueError, 'source and grid overlap'):
            calls.EXPORTED['sweep'](ROW_D, same, same)
        self.assertEqual(list(same), [1] * 4)
        calls.EXPORTED['sweep'](ROW_D, view[:4], view[4:])
        self.assertEqual(list(words), [1, 2, 3, 4, 1, 3, 6, 10])

    @unittest.skipIf(numpy is None, 'numpy is not installed')
    def test_arrays(self):
        words = numpy.arange(8, dtype='uint32')
        for source, grid in ((words[:4], words[:4]), (words[:4], words[2:6]), (words.reshape(2, 4)[0], words[3:7])):
            with self.assertRaisesRegex(ValueError, 'source and grid overlap'):
                calls.EXPORTED['sweep'](ROW_D, source, grid)
        self.assertEqual(words.tolist(), list(range(8)))

    def test_every_pair(self):
        """Every call, every area that it writes beside every other of its areas, both in the same memory."""
        tried = 0
        for name, call in calls.EXPORTED.items():
            parameters = call.parameters
            for written in parameters:
                for other in parameters:
                    if not written.write or not other.area or other is written:
                        continue
                    memory = memoryview(bytearray(96))
                    lent = {each.name: self.area(each) if each.area else 0 for each in parameters}
                    lent[written.name] = self.area(written, memory)
                    lent[other.name] = self.area(other, memory[24:])
                    with self.subTest(name, written=written.name, other=other.name):
                        with self.assertRaisesRegex(ValueError, 'overlap'):
                            call(**lent)
                        self.assertEqual(bytes(memory), bytes(96))
                    tried += 1
        self.assertGreater(tried, 180)

    def area(self, parameter, memory=None):
        memory = memoryview(bytearray(96)) if memory is None else memory
        return memory.cast({'u8': 'B', 'i8': 'b', 'u16': 'H', 'i16': 'h', 'u32': 'I', 'u64': 'Q', 'Progress': 'I'}[parameter.kind])

    def test_what_is_only_read_may_be_the_same(self):
        words = array.array('I', [1] * 4)
        memories = array.array('I', [5] * 8)
        self.assertEqual(calls.EXPORTED['view'](ROW_D, memories, memories, 0, 1).told(), [4, 4])
        grid = array.array('I', [0] * 4)
        calls.EXPORTED['sweep'](ROW_D, words, grid)
        self.assertEqual(list(grid), [1, 2, 3, 4])

    def test_empty_areas_overlap_nothing(self):
        row_f = rolwyddac.Fields().dimension(1, 2, 2).dimension(2, 1, 0).distance((1, 0)).close()
        none, progress, memories = array.array('I'), (rolwyddac.Progress * 2)(), array.array('I', [0] * 4)
        calls.EXPORTED['fresh'](row_f, DIRECT, [5, 7], memories, none, progress, bytearray())
        self.assertEqual(records(progress), [0] * 6)


