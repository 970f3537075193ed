"""Whole numbers only, and none that wraps: what is no whole number is a TypeError, what its C type can't hold an OverflowError."""

import array
import decimal
import unittest

from support import ROW_D, calls, rolwyddac

NO_NUMBERS = 1.5, 1.0, '0', b'0', None, ..., decimal.Decimal(0), 1j
TOO_LARGE = 2 ** 32, 2 ** 32 + 1, 2 ** 64, 2 ** 64 + 1, 10 ** 5000
BEYOND = (-1, -2 ** 32, -2 ** 32 + 1) + TOO_LARGE

SOURCE = [1] * 4
ALWAYS_OPEN = [0, 10080] + [0] * 26
HOURS = ALWAYS_OPEN * 2
RECORD = rolwyddac.Sounding(0, 1, 1, 5)


def run():
    return rolwyddac.Run(ROW_D, rolwyddac.DIRECT, SOURCE)


def rig():
    return rolwyddac.Rig(ROW_D, rolwyddac.DIRECT, [SOURCE, SOURCE])


def board():
    return rolwyddac.Board(ROW_D, rolwyddac.DIRECT, SOURCE, 0)


def own_board():
    return rolwyddac.PartBoard(ROW_D, rolwyddac.DIRECT, [1, 1], 0)


# each whole number that is a word of 32 bits without a sign
WORDS = {
    'summary, route': lambda n: rolwyddac.summary(ROW_D, n),
    'sizes, route': lambda n: rolwyddac.sizes(ROW_D, n),
    'message, route': lambda n: rolwyddac.message(ROW_D, n, 0),
    'message, m': lambda n: rolwyddac.message(ROW_D, 0, n),
    'messages, route': lambda n: rolwyddac.messages(ROW_D, n),
    'awaited, processor': lambda n: rolwyddac.awaited(ROW_D, 0, run().areas.progress, run().areas.status, n),
    'part_sizes, route': lambda n: rolwyddac.part_sizes(ROW_D, n, 0),
    'part_sizes, processor': lambda n: rolwyddac.part_sizes(ROW_D, 0, n),
    'part_messages, processor': lambda n: rolwyddac.part_messages(ROW_D, 0, n),
    'part_source, processor': lambda n: rolwyddac.part_source(ROW_D, SOURCE, n),
    'part_source, source': lambda n: rolwyddac.part_source(ROW_D, [1, 1, n, 1], 0),
    'hops, m': lambda n: rolwyddac.hops(ROW_D, n),
    'opens, hours': lambda n: rolwyddac.opens(ROW_D, HOURS[:-1] + [n], 0, 0),
    'opens, minute': lambda n: rolwyddac.opens(ROW_D, HOURS, n, 0),
    'opens, processor': lambda n: rolwyddac.opens(ROW_D, HOURS, 0, n),
    'sweep, source': lambda n: rolwyddac.sweep(ROW_D, [1, 1, n, 1]),
    'soundings, value': lambda n: rolwyddac.soundings(ROW_D, [RECORD], n),
    'soundings, depth': lambda n: rolwyddac.soundings(ROW_D, [RECORD._replace(depth=n)], 0),
    'soundings, cell': lambda n: rolwyddac.soundings(ROW_D, [RECORD, (n, 0, 0, 0)], 0),
    'chart, grid': lambda n: rolwyddac.chart(ROW_D, [1, 1, n, 1]),
    'chart, cell_size': lambda n: rolwyddac.chart(ROW_D, SOURCE, 0, 0, n),
    'Run, route': lambda n: rolwyddac.Run(ROW_D, n, SOURCE),
    'Run, source': lambda n: rolwyddac.Run(ROW_D, 0, [1, n, 1, 1]),
    'Run.turn': lambda n: run().turn(n),
    'Run.turn_at, hours': lambda n: run().turn_at([n] + HOURS[1:], 0, 0),
    'Run.turn_at, minute': lambda n: run().turn_at(HOURS, n, 0),
    'Run.turn_at, processor': lambda n: run().turn_at(HOURS, 0, n),
    'Run.deliver': lambda n: run().deliver(n),
    'Rig, route': lambda n: rolwyddac.Rig(ROW_D, n, [SOURCE, SOURCE]),
    'Rig, sources': lambda n: rolwyddac.Rig(ROW_D, 0, [SOURCE, [1, 1, n, 1]]),
    'Rig.turn, office': lambda n: rig().turn(n, 0),
    'Rig.turn, processor': lambda n: rig().turn(0, n),
    'Rig.turn_at, minute': lambda n: rig().turn_at(HOURS, n, 0, 0),
    'Rig.turn_at, office': lambda n: rig().turn_at(HOURS, 0, n, 0),
    'Rig.turn_at, processor': lambda n: rig().turn_at(HOURS, 0, 0, n),
    'Rig.deliver, office': lambda n: rig().deliver(n, 0),
    'Rig.deliver, message': lambda n: rig().deliver(0, n),
    'Rig.in_flight': lambda n: rig().in_flight(n),
    'Rig.collect': lambda n: rig().collect(n),
    'Rig.view, office': lambda n: rig().view(n, 0),
    'Rig.view, processor': lambda n: rig().view(0, n),
    'Board, route': lambda n: rolwyddac.Board(ROW_D, n, SOURCE, 0),
    'Board, source': lambda n: rolwyddac.Board(ROW_D, 0, [1, 1, 1, n], 0),
    'Board, processor': lambda n: rolwyddac.Board(ROW_D, 0, SOURCE, n),
    'Board.post': lambda n: board().post(n),
    'Board.take_in, message': lambda n: board().take_in(n, [1]),
    'Board.take_in, words': lambda n: board().take_in(0, [n]),
    'PartBoard, route': lambda n: rolwyddac.PartBoard(ROW_D, n, [1, 1], 0),
    'PartBoard, source': lambda n: rolwyddac.PartBoard(ROW_D, 0, [1, n], 0),
    'PartBoard, processor': lambda n: rolwyddac.PartBoard(ROW_D, 0, [1, 1], n),
    'PartBoard.post': lambda n: own_board().post(n),
    'PartBoard.arrive, message': lambda n: own_board().arrive(n, [1]),
    'PartBoard.arrive, words': lambda n: own_board().arrive(0, [n]),
    'Fields.close, boundary': lambda n: fields().close(0, n),
    'term': rolwyddac.term,
    'text': rolwyddac.text,
    'calls, processor': lambda n: calls.EXPORTED['part_sizes'](ROW_D, 0, n),
    'calls, source': lambda n: calls.EXPORTED['sweep'](ROW_D, [1, 1, n, 1], array.array('I', [0] * 4)),
}


def fields():
    return rolwyddac.Fields().dimension(4, 2, 2).dimension(1, 1, 0).distance((1, 0), 1)


# the others: how they are given, and the first number on either side that they can't hold
NARROW = {
    'Fields.dimension, length': (lambda n: fields().dimension(n, 1, 0), -1, 2 ** 16),
    'Fields.dimension, tile': (lambda n: fields().dimension(1, n, 0), -1, 2 ** 16),
    'Fields.dimension, processors': (lambda n: fields().dimension(1, 1, n), -1, 2 ** 16),
    'Fields.distance, components': (lambda n: fields().distance((0, n), 1), -1, 2 ** 16),
    'Fields.distance, weight': (lambda n: fields().distance((0, 1), n), -1, 2 ** 16),
    'Fields.at_least, dimension': (lambda n: fields().at_least(n, 0, 0, 0), -1, 2 ** 8),
    'Fields.at_least, earlier': (lambda n: fields().at_least(1, n, 0, 0), -1, 2 ** 8),
    'Fields.at_most, slope': (lambda n: fields().at_most(1, 0, n, 0), -2 ** 7 - 1, 2 ** 7),
    'Fields.at_most, offset': (lambda n: fields().at_most(1, 0, 0, n), -2 ** 15 - 1, 2 ** 15),
    'Fields.close, shift': (lambda n: fields().close(n, 0), -1, 2 ** 8),
    'chart, x': (lambda n: rolwyddac.chart(ROW_D, SOURCE, n, 0, 1), -2 ** 31 - 1, 2 ** 31),
    'chart, y': (lambda n: rolwyddac.chart(ROW_D, SOURCE, 0, n, 1), -2 ** 31 - 1, 2 ** 31),
}


class Numbers(unittest.TestCase):

    def test_whole_numbers_only(self):
        for name, call in list(WORDS.items()) + [(name, call) for name, (call, _, _) in NARROW.items()]:
            for value in NO_NUMBERS:
                with self.subTest(name, value=value), self.assertRaises(TypeError):
                    call(value)

    def test_none_wraps(self):
        for name, call in WORDS.items():
            for number in BEYOND:
                with self.subTest(name, bits=number.bit_length()), self.assertRaises(OverflowError):
                    call(number)
        for name, (call, low, high) in NARROW.items():
            for number in (low, high, low - 2 ** 32, high + 2 ** 32):
                with self.subTest(name, number=number), self.assertRaises(OverflowError):
                    call(number)

    def test_what_a_type_holds_is_the_engines(self):
        """The greatest numbers that fit are refused by the engine, by its own numbers."""
        with self.assertRaises(rolwyddac.NoSuch):
            run().turn(2 ** 32 - 1)
        with self.assertRaises(rolwyddac.NoSuch):
            rig().turn(2 ** 32 - 1, 0)
        with self.assertRaises(rolwyddac.Length):
            fields().dimension(2 ** 16 - 1, 1, 0).close()
        self.assertIn('xllcorner -2147483648\n', rolwyddac.chart(ROW_D, SOURCE, -2 ** 31, 2 ** 31 - 1))
        self.assertEqual(rolwyddac.term(2 ** 32 - 1), 'other')

    def test_what_has_an_index_is_a_number(self):
        class Second:
            def __index__(self):
                return 1

        numbers = [1, True, Second()]
        if rolwyddac.numpy is not None:
            numbers += [kind(1) for kind in (rolwyddac.numpy.uint8, rolwyddac.numpy.int64, rolwyddac.numpy.uint32)]
        for number in numbers:
            with self.assertRaises(rolwyddac.Waiting):
                run().turn(number)
            self.assertEqual(int(rolwyddac.sweep(ROW_D, [number, 0, 0, 0])[3][0]), 1)

    def test_a_fault_leaves_all_as_it_was(self):
        begun, half = run(), fields()
        begun.turn(0)
        before = [bytes(area) for area in begun.areas]
        for value in (1.5, '0', -1, 2 ** 32 + 1):
            for call in (begun.turn, begun.deliver, lambda n: begun.turn_at(HOURS, n, 0)):
                with self.assertRaises((TypeError, OverflowError)):
                    call(value)
            with self.assertRaises((TypeError, OverflowError)):
                half.dimension(1, 1, value)
            with self.assertRaises((TypeError, OverflowError)):
                half.distance((1, value), 1)
            with self.assertRaises((TypeError, OverflowError)):
                half.at_least(1, 0, 0, value * 10 ** 5 if value == -1 else value)
        self.assertEqual([bytes(area) for area in begun.areas], before)
        self.assertEqual(half.close(), ROW_D)

    def test_routes(self):
        """A word that names no route is told: behind it may stand parameters in another order."""
        for call in (lambda n: rolwyddac.summary(ROW_D, n), lambda n: rolwyddac.part_sizes(ROW_D, n, 0), lambda n: rolwyddac.Run(ROW_D, n, SOURCE),
                     lambda n: rolwyddac.sizes(ROW_D, n)):
            with self.assertRaisesRegex(ValueError, 'route: 2 is neither 0, direct, nor 1, indirect'):
                call(2)

    def test_offices(self):
        for office in (2, 3, 2 ** 32 - 1):
            for call in (lambda n: rig().turn(n, 0), lambda n: rig().deliver(n, 0), rig().in_flight, rig().collect, lambda n: rig().view(n, 0)):
                with self.assertRaises(rolwyddac.NoSuch):
                    call(office)

    def test_processors(self):
        for processor in (2, 2 ** 32 - 1):
            with self.assertRaises(rolwyddac.NoSuch):
                rolwyddac.Board(ROW_D, rolwyddac.DIRECT, SOURCE, processor)
            with self.assertRaises(rolwyddac.NoSuch):
                rolwyddac.PartBoard(ROW_D, rolwyddac.DIRECT, [1, 1], processor)
