"""Makes the stored test vectors of the case programs from the model, always the same ones.

    python3 tools/vectors.py          write every stored file anew
    python3 tools/vectors.py check    compare every stored file with a fresh generation
    python3 tools/vectors.py explain [NAME]
                                      print a script in words, each call with its line: that of cases unless named

README.md beside this file has the formats.
"""

import os
import sys

import model

ROOT = os.path.join(os.path.dirname(os.path.abspath(__file__)), '..')


class Draw:
    """The written-down generator: x <- 1664525 x + 1013904223 modulo 2^32, numbers from its upper half."""

    def __init__(self, seed):
        self.x = seed

    def word(self):
        self.x = (1664525 * self.x + 1013904223) % model.WORD
        return self.x

    def below(self, n):
        return (self.word() >> 16) % n

    def between(self, low, high):
        return low + self.below(high - low + 1)

    def pick(self, choices):
        return choices[self.below(len(choices))]


# Recipes

def drawn_recipe(draw, most_cells, most_words=None, n=None, m=None, distances=None, plain=False, least=2):
    """An accepted recipe; n, m and the count of distances are drawn unless given, spread dimensions have the least count of boards and
    two more at most. Tries until the limits hold."""
    while True:
        dims = n or draw.between(2, 4)
        spread = min(m or draw.between(1, dims - 1), dims - 1)
        lengths = [draw.between(1, draw.pick([3, 5, 7, 12])) for _ in range(dims)]
        # k up to one more than the length: the last tile is often short, some tiles are longer than their dimension
        tiling = [draw.between(2, max(2, length + 1)) if draw.below(5) else 1 for length in lengths]
        tiling = [min(k, draw.between(2, 5)) if k > 1 else 1 for k in tiling]
        if draw.below(4) == 0:
            at = draw.below(dims)
            tiling[at] = lengths[at] + draw.between(1, 5)
        counts = [draw.between(least, least + 2) if j < spread else 0 for j in range(dims)]
        wanted = distances or draw.between(1, 8)
        found = []
        for _ in range(60):
            d = tuple(draw.below(min(k, 4) + 1) for k in tiling)
            if any(d) and d not in found and len(found) < wanted:
                found.append(d)
        if len(found) != wanted and distances or not found:
            continue
        weights = [1 if plain else draw.pick([0, 1, 2, 3, 255, 65535]) for _ in found]
        shift = 0 if plain else draw.pick([0, 0, 1, 3, 16, 31])
        boundary = 0 if plain else draw.pick([0, 1, 7, 4294967295])
        encoded = model.encode(lengths, tiling, counts, found, weights, shift, boundary)
        # cells first: a plan takes its time
        if model.read(encoded)[0] != 0 or model.all_product(lengths) > most_cells:
            continue
        plan = model.plan_of(encoded)[1]
        if plan.tiles >= 3 * spread and len(plan.messages) >= 2 * spread:
            if most_words is None or plan.cells * plan.boards <= most_words:
                return encoded


def drawn_shape(draw, most_cells, most_words=None, n=None, m=None, distances=None, least=1):
    """A drawn recipe with one to four bounds, of which some cell, two tiles and a message are left, and not all cells."""
    while True:
        box = drawn_recipe(draw, most_cells, most_words, n, m, distances, least=least)
        nest = model.read(box)[1]
        for _ in range(12):
            found = []
            for _ in range(draw.pick([1, 1, 2, 2, 3, 4])):
                j = draw.between(1, nest.n - 1)
                earlier = draw.below(j)
                side, slope = draw.below(2), draw.pick([-1, 0, 1, 1])
                most = max(nest.lengths[j], nest.lengths[earlier])
                # an offset near the box, or one that is far off
                offset = draw.between(0, most) if slope < 0 else draw.between(0, 2 * most) - most
                if draw.below(12) == 0:
                    offset = -32768 if side == 0 else 32767
                found.append((side, j, earlier, slope, offset))
            encoded = with_bounds(box, found)
            number, plan = model.plan_of(encoded)
            if number == 0 and plan.tiles >= 2 and len(plan.messages) >= 1 and not all(plan.inside):
                return encoded


def with_bounds(encoded, bounds):
    """The recipe with records of kind 5 behind its dimensions."""
    at = 16 * len([record for record in model.records_of(encoded) if record[0] == 1])
    return encoded[:at] + b''.join(model.bound_record(*bound) for bound in bounds) + encoded[at:]


def changed(encoded, at, value):
    out = bytearray(encoded)
    out[at] = value
    return bytes(out)


def widened(encoded, record):
    """A distance of kind 2 as one of kind 4, which is refused 18."""
    at = 16 * record
    assert encoded[at] == 2
    wide = model.distance_record(encoded[at + 2:at + 6], model.word16(encoded, at + 6), True)
    return encoded[:at] + wide + encoded[at + 16:]


# the lines on the recipe, in the order in which they are tested
ORDER = (1, 2, 3, 4, 18, 20, 5, 6, 16, 17, 7, 8)


def faults():
    """A fault of each line on the recipe but 1, in their order, as changes of a recipe of three dimensions and two distances."""
    def first_length(value):
        return lambda e: changed(changed(e, 2, value % 256), 3, value // 256)

    def all_lengths(e):
        for record in range(3):
            e = first_length(26)(e) if record == 0 else changed(changed(e, 16 * record + 2, 26), 16 * record + 3, 0)
        return e

    return [
        (2, lambda e: changed(e, 1, 1)),
        (3, first_length(0)),
        (3, first_length(1025)),
        (4, all_lengths),
        (18, lambda e: widened(e, 4)),
        (20, lambda e: with_bounds(e, [(model.UPPER, 2, 1, 0, -1)])),
        (5, lambda e: changed(e, 16 * 3 + 5, 1)),
        (6, lambda e: changed(e, 16 + 4, 1)),
        (16, lambda e: changed(e, 6, 0)),
        (17, lambda e: changed(e, 16 * 2 + 6, 2)),
        (7, lambda e: changed(e, 16 + 6, 65)),
        (8, lambda e: changed(changed(changed(changed(e, 2, 0), 3, 4), 16 + 2, 7), 16 * 2 + 2, 2)),
    ]


def refused_recipes():
    """Each number of the lines on the recipe in several ways, and recipes in which two lines are true at once."""
    d = model.ROWS['D']
    one, two, three = d[:16], d[32:48], d[48:64]
    assert one[0] == 1 and two[0] == 2 and three[0] == 3
    found = [(1, b''), (1, d[:63]), (1, d + b'\0'), (1, b'\1'), (1, bytes(15))]
    found += [(2, bytes(16)), (2, d[16:]), (2, one * 5 + two + three), (2, one * 2 + three), (2, one * 2 + two),
              (2, two + one * 2 + three), (2, one * 2 + three + two), (2, d + three), (2, d + bytes(16)),
              (2, one + two + one + three), (2, one * 2 + three)]
    nine = [(1 + e % 3, e // 3, 0) for e in range(9)]
    found.append((2, model.encode([9, 9, 9], [4, 4, 4], [2, 0, 0], nine)))
    found += [(2, changed(d, 0, 4)), (2, changed(d, 16, 0)), (2, changed(d, 32, 5)), (2, changed(d, 48, 255))]
    for record, kind in ((0, 1), (1, 1), (2, 2), (3, 3)):
        for at in model.unnamed(kind):
            if (at + record) % 3 == 0 or at in (1, 2, 3, 8, 15):
                found.append((2, changed(d, 16 * record + at, 1 + at)))
    found += [(2, changed(d, 49, 32)), (2, changed(d, 49, 255))]
    found += [(3, model.encode([0, 4], [2, 2], [2, 0], [(1, 0)])), (3, model.encode([4, 1025], [2, 2], [2, 0], [(1, 0)])),
              (3, model.encode([4, 4, 65535], [2, 2, 2], [2, 0, 0], [(1, 0, 0)])),
              (3, model.encode([4, 4, 0], [2, 2, 2], [2, 0, 0], [(1, 0, 0)]))]
    found += [(4, model.encode([128, 129], [64, 64], [2, 0], [(1, 0)])),
              (4, model.encode([1024] * 4, [1024] * 4, [2, 0, 0, 0], [(1, 0, 0, 0)])),
              (4, model.encode([16, 1024, 2], [16, 1024, 2], [2, 0, 0], [(1, 0, 0)])),
              (4, model.encode([1024, 17], [1024, 17], [2, 0], [(1, 0)]))]
    found += [(5, model.encode([4, 4], [2, 2], [2, 0], [(0, 0)])), (5, model.encode([4, 4], [2, 2], [2, 0], [(1, 0), (1, 0)], [1, 2])),
              (5, model.encode([4, 4], [2, 2], [2, 0], [(1, 0), (0, 1), (1, 1), (0, 1)])),
              (5, model.encode([4, 4], [2, 2], [2, 0], [(1, 0, 1)])), (5, model.encode([4, 4], [2, 2], [2, 0], [(0, 0, 1)])),
              (5, model.encode([4, 4, 4], [2, 2, 2], [2, 0, 0], [(1, 0, 0, 1)])),
              (5, model.encode([4, 4], [2, 2], [2, 0], [(0, 1, 0, 255)]))]
    found += [(6, model.encode([4, 4], [0, 2], [2, 0], [(0, 1)])), (6, model.encode([4, 4], [2, 1025], [2, 0], [(1, 0)])),
              (6, model.encode([4, 4], [2, 2], [2, 0], [(3, 0)])), (6, model.encode([4, 4], [4, 4], [2, 0], [(1, 0), (0, 5)])),
              (6, model.encode([4, 4, 4], [4, 4, 65535], [2, 0, 0], [(1, 0, 0)])),
              (6, model.encode([300, 1], [254, 1], [2, 0], [(255, 0)]))]
    found += [(16, model.encode([4, 4], [2, 2], [0, 2], [(1, 0)])), (16, model.encode([4, 4], [2, 2], [0, 0], [(1, 0)])),
              (16, model.encode([4, 4], [2, 2], [0, 1], [(1, 0)])), (16, model.encode([4, 4, 4], [2, 2, 2], [2, 0, 2], [(1, 0, 0)])),
              (16, model.encode([4, 4, 4], [2, 2, 2], [65, 0, 1], [(1, 0, 0)])), (16, model.encode([2] * 4, [2] * 4, [2, 0, 2, 0], [(1, 0, 0, 0)]))]
    found += [(17, model.encode([4, 4], [2, 2], [2, 2], [(1, 0)])), (17, model.encode([4, 4], [2, 2], [1, 1], [(1, 0)])),
              (17, model.encode([4, 4, 4], [2, 2, 2], [2, 65, 2], [(1, 0, 0)])), (17, model.encode([2] * 4, [2] * 4, [65535] * 4, [(1, 0, 0, 0)]))]
    found += [(7, model.encode([4, 4], [2, 2], [65535, 0], [(1, 0)])), (7, model.encode([4, 4, 4], [2, 2, 2], [65, 1, 0], [(1, 0, 0)])),
              (7, model.encode([4, 4], [2, 2], [65, 0], [(1, 0)])), (7, model.encode([4, 4, 4], [2, 2, 2], [13, 5, 0], [(1, 0, 0)])),
              (7, model.encode([2] * 4, [2] * 4, [32768, 32768, 4, 0], [(1, 0, 0, 0)])),
              (7, model.encode([2] * 4, [2] * 4, [4096, 4096, 256, 0], [(1, 0, 0, 0)]))]
    found += [(8, model.encode([64, 34], [2, 1], [2, 0], [(1, 0)])), (8, model.encode([1024, 16], [2, 7], [2, 0], [(1, 0)])),
              (8, model.encode([41, 50], [2, 1], [2, 0], [(1, 0)])), (8, model.encode([4, 16, 16, 16], [2, 2, 2, 1], [2, 0, 0, 0], [(1, 0, 0, 0)]))]
    line = model.encode([600, 1], [300, 1], [2, 0], [(300, 0), (1, 0), (256, 0)])
    found += [(18, widened(line, 3)), (18, widened(d, 2)), (18, widened(model.encode([4, 4], [2, 2], [2, 0], [(1, 1), (0, 0)]), 3)),
              (2, changed(line, 32 + 1, 1)), (2, changed(line, 32 + 12, 1)), (2, changed(line, 32 + 15, 255)),
              (5, model.encode([600, 1], [300, 1], [2, 0], [(300, 0), (300, 0)], [1, 2])), (5, model.encode([4, 4], [512, 2], [2, 0], [(1, 0, 256)])),
              (6, model.encode([600, 1], [299, 1], [2, 0], [(300, 0)])), (6, model.encode([4, 4], [1024, 2], [2, 0], [(1025, 0)])),
              (2, model.encode([600, 1], [300, 1], [2, 0], [(252 + x, 0) for x in range(9)]))]
    found += [(number, with_bounds(e, bounds)) for number, e, bounds in faulty_shapes()]
    right = model.encode([4, 6, 5], [3, 3, 2], [2, 2, 0], [(1, 0, 1), (0, 2, 0)])
    assert model.read(right)[0] == 0
    for number, fault in faults():
        found.append((number, fault(right)))
    for i, (first, fault) in enumerate(faults()):
        found += [(first, fault(other(right))) for second, other in faults()[i + 1:] if second != first]
    for number, encoded in found:
        assert model.read(encoded)[0] == number != 0, (number, encoded)
    assert set(number for number, _ in found) == set(ORDER)
    return [encoded for _, encoded in found]


def faulty_shapes():
    """W-209: a number, a recipe and the bounds that give it this number."""
    plane = model.encode([4, 4], [2, 2], [2, 0], [(1, 0)])
    space = model.encode([3, 3, 3], [2, 2, 2], [2, 0, 0], [(1, 0, 0)])
    many = model.encode([128, 128], [4, 2], [2, 0], [(1, 0)])
    triangle, empty = model.TRIANGLE, (model.LOWER, 1, 0, 0, 4)
    return [
        (2, plane, [(2, 1, 0, 0, 0)]), (2, plane, [(0, 2, 0, 0, 0)]), (2, plane, [(0, 1, 1, 0, 0)]), (2, plane, [(0, 0, 0, 0, 0)]),
        (2, plane, [(0, 1, 0, 2, 0)]), (2, plane, [(1, 1, 0, -2, 0)]), (2, plane, [triangle] * 5), (2, space, [triangle, (0, 3, 0, 0, 0)]),
        (2, space, [(0, 1, 2, 0, 0)]), (20, plane, [empty]), (20, plane, [triangle, (0, 1, 0, 1, 1)]), (20, plane, [(1, 1, 0, 1, -4)]),
        (20, plane, [(0, 1, 0, 0, 32767)]), (20, plane, [(1, 1, 0, -1, -32768)]),
        (20, space, [(0, 2, 1, 1, 1), (0, 2, 0, 0, 2), (1, 1, 0, 0, 0), (1, 2, 1, -1, 1)]),
        (8, many, [(0, 1, 0, 0, 0)]), (8, many, [triangle]), (8, many, [(1, 1, 0, 0, 64)]),
    ]


def shape_recipes():
    """W-209: accepted shapes at the places where a reader goes wrong."""
    encode, lower, upper = model.encode, model.LOWER, model.UPPER
    three = [(1, 0), (0, 1), (1, 1)]
    return [
        # triangles by either side, either way round
        encode([8, 8], [2, 2], [2, 0], three, bounds=[(upper, 1, 0, 1, 0)]),
        encode([8, 8], [2, 2], [2, 0], three, [3, 2, 65535], 1, 9, [(lower, 1, 0, 1, 0)]),
        encode([8, 8], [2, 2], [3, 0], three, [1, 2, 3], 0, 4294967295, [(upper, 1, 0, -1, 7)]),
        encode([7, 9], [3, 2], [2, 0], [(2, 1), (0, 2)], boundary=6, bounds=[(lower, 1, 0, -1, 8)]),
        # bands, and one bound twice
        encode([9, 9], [2, 3], [2, 0], three, boundary=1, bounds=[(lower, 1, 0, 1, -2), (upper, 1, 0, 1, 2)]),
        encode([9, 9], [2, 2], [4, 0], [(2, 2), (1, 0)], bounds=[(lower, 1, 0, -1, 6), (upper, 1, 0, -1, 10), (lower, 1, 0, -1, 6)]),
        # t + v is empty; all for the corner; the first tile of the column reads nothing of it
        encode([4, 4], [2, 2], [2, 0], [(1, 1)], boundary=9, bounds=[(lower, 1, 0, 1, 0)]),
        encode([4, 8], [2, 2], [2, 0], [(2, 2)], bounds=[(lower, 1, 0, 1, 0)]),
        encode([6, 12], [2, 2], [2, 0], [(2, 2), (1, 0)], bounds=[(lower, 1, 0, 1, 1), (upper, 1, 0, 1, 6)]),
        # bounds that cut nothing, at the ends of an offset too
        encode([8, 8], [2, 2], [2, 0], three, bounds=[(lower, 1, 0, 0, 0)]),
        encode([5, 1], [2, 1], [2, 0], [(1, 0)], bounds=[(lower, 1, 0, 1, -32768), (upper, 1, 0, -1, 32767), (upper, 1, 0, 0, 0)]),
        # one cell; a row; a cell in each of two tiles that nothing joins
        encode([4, 4], [2, 2], [2, 0], [(1, 0), (0, 1)], boundary=5, bounds=[(lower, 1, 0, 1, 3), (lower, 1, 0, -1, 3)]),
        encode([6, 6], [2, 2], [2, 0], three, bounds=[(lower, 1, 0, 0, 5)]),
        encode([4, 4], [2, 2], [2, 0], [(1, 1)], bounds=[(lower, 1, 0, -1, 3), (upper, 1, 0, -1, 3)]),
        # whole chains and processors without a tile
        encode([8, 6, 4], [2, 2, 2], [2, 3, 0], [(1, 1, 0), (0, 1, 1), (1, 0, 0)], bounds=[(upper, 1, 0, 0, 1)]),
        encode([6, 6, 3], [2, 2, 1], [3, 3, 0], [(1, 1, 1), (2, 0, 0)], [2, 5], 1, 3, [(upper, 1, 0, 1, 0), (lower, 2, 1, 0, 1)]),
        encode([4, 4, 9], [1, 2, 3], [2, 2, 0], [(1, 1, 0), (0, 2, 3)], bounds=[(lower, 2, 0, 1, 2), (upper, 2, 1, 1, 5)]),
        encode([5, 5, 5], [2, 2, 2], [2, 2, 0], [(1, 1, 1), (2, 0, 2)], boundary=8, bounds=[(lower, 2, 1, 1, 0), (upper, 1, 0, 1, 0)]),
        # four dimensions, four bounds, each dimension bounded by each earlier one
        encode([3, 4, 4, 3], [2, 2, 2, 2], [2, 2, 2, 0], [(1, 1, 1, 0), (0, 1, 0, 1), (2, 0, 1, 1)], boundary=2,
               bounds=[(lower, 3, 0, 1, -1), (upper, 2, 1, 1, 0), (lower, 1, 0, -1, 1), (upper, 3, 2, 0, 2)]),
        encode([2, 2, 5, 6], [1, 1, 1, 1], [2, 0, 0, 0], [(1, 1, 0, 0)], bounds=[(lower, 1, 0, 1, 0)]),
        # single processors, and distances of 256 and more
        encode([5, 6, 2], [2, 2, 1], [1, 3, 0], [(1, 1, 0), (2, 0, 1)], bounds=[(upper, 1, 0, 1, 1)]),
        encode([5, 6, 2], [2, 2, 1], [2, 1, 0], [(1, 1, 0), (2, 2, 1)], bounds=[(lower, 1, 0, 1, -1)]),
        encode([5, 5], [2, 2], [1, 0], three, boundary=4, bounds=[(lower, 1, 0, 1, 1)]),
        encode([400, 2], [300, 2], [2, 0], [(300, 1), (257, 0), (1, 0)], boundary=7, bounds=[(lower, 1, 0, -1, 40)]),
        encode([2, 500], [1, 260], [2, 0], [(1, 260), (0, 256), (1, 4)], bounds=[(lower, 1, 0, 1, 200), (upper, 1, 0, -1, 480)]),
    ]


def chosen_recipes():
    """Accepted recipes for the places where a careful reader goes wrong."""
    return [
        # the widened set would hold more
        model.encode([9, 1], [3, 2], [2, 0], [(1, 0), (0, 1), (2, 1)]),
        # a corner message alone, at a short edge
        model.encode([3, 4, 1], [2, 2, 1], [2, 2, 0], [(1, 1, 0)]),
        # weight 0 is read all the same
        model.encode([6, 6], [2, 3], [3, 0], [(1, 2)], [0]),
        # tiles longer than their dimension; distances longer than theirs
        model.encode([3, 3], [1024, 5], [2, 0], [(200, 0), (1, 4)]),
        model.encode([5, 2, 2], [2, 9, 9], [2, 3, 0], [(1, 8, 8), (1, 0, 0)]),
        # more boards than tiles
        model.encode([4, 3], [3, 2], [64, 0], [(1, 1), (2, 0)]),
        # the extreme values of weight, shift and boundary
        model.encode([5, 5], [2, 2], [2, 0], [(1, 0), (0, 1), (1, 1)], [65535, 65535, 65535], 31, 4294967295),
        model.encode([5, 5], [2, 2], [2, 0], [(1, 0), (0, 1), (1, 1)], [65535, 65535, 65535], 0, 4294967295),
        # unspread distances alone: no message
        model.encode([4, 8, 3], [2, 2, 2], [2, 2, 0], [(0, 0, 1)]),
        # a distance that stays in the column and one that leaves it
        model.encode([6, 9], [3, 4], [2, 0], [(0, 3), (2, 3)]),
        # one cell
        model.encode([1, 1], [2, 2], [2, 0], [(1, 1)]),
        # directions of three spread dimensions: the order of the bits shows
        model.encode([4, 4, 4, 2], [2, 2, 2, 2], [2, 2, 2, 0], [(1, 1, 1, 0), (0, 0, 1, 0), (1, 0, 0, 0)]),
        model.encode([3, 5, 3, 3], [2, 3, 2, 2], [2, 3, 2, 0], [(1, 2, 1, 1), (0, 1, 0, 1)]),
        # the longest dimension
        model.encode([1024, 1], [16, 1], [8, 0], [(15, 0), (1, 0)]),
        model.encode([1, 1024], [2, 16], [2, 0], [(1, 15)]),
        # tiles exactly as long as the reach: every cell crosses; nothing for tile t + v, all for later ones of its column
        model.encode([6, 6], [2, 3], [2, 0], [(2, 0)]),
        model.encode([4, 4], [2, 2], [2, 0], [(2, 2)]),
        model.encode([6, 9], [3, 3], [2, 0], [(3, 3), (0, 3), (1, 0)], [3, 2, 1], 1, 9),
        model.encode([4, 4, 1], [2, 2, 1], [2, 2, 0], [(2, 2, 0)]),
        model.encode([5, 7, 3], [2, 3, 1], [2, 3, 0], [(2, 3, 1), (0, 3, 0), (2, 0, 1)]),
        model.encode([3, 3, 3, 4], [1, 1, 1, 2], [2, 2, 2, 0], [(1, 1, 1, 2), (0, 1, 0, 2), (1, 0, 1, 0)]),
        model.encode([510, 1], [255, 1], [2, 0], [(255, 0)]),
    ]


def largest_recipe():
    """16,384 cells, 1,024 tiles, 8 distances, 3 spread dimensions, 64 boards."""
    distances = [(1, 0, 0, 1), (0, 1, 0, 0), (0, 0, 1, 1), (1, 1, 0, 0), (0, 1, 1, 0), (1, 0, 1, 1), (1, 1, 1, 1), (0, 0, 0, 1)]
    return model.encode([16, 16, 8, 8], [2, 2, 2, 2], [4, 4, 4, 0], distances)


def rows():
    return [model.ROWS[row] for row in 'ABCDEFGH']


# Files of recipes: those of cases that are planned, and those that are swept both ways

# added to the length of a recipe that is planned with indirect passing (W-204)
INDIRECT_MARK = 32768


def cases_file(recipes, indirect=()):
    content = b''.join(len(encoded).to_bytes(2, 'little') + encoded for encoded in recipes)
    content += b''.join((len(encoded) + INDIRECT_MARK).to_bytes(2, 'little') + encoded for encoded in indirect)
    # the room of the programs that read it whole
    assert len(content) <= 65536, len(content)
    return content


def cases_text(recipes, text_of):
    return ''.join('case %d\n' % k + text_of(encoded) for k, encoded in enumerate(recipes)).encode()


def plans_text(recipes, indirect):
    """The plans of both routes; behind those of the indirect one the hops of the direct messages."""
    texts = [model.plan_text(encoded) for encoded in recipes]
    # of a shape, whose plan is refused there, the hops are told all the same: that call is given no route
    texts += [model.plan_text(encoded, model.INDIRECT) + model.hops_text(encoded) for encoded in indirect]
    return ''.join('case %d\n' % k + text for k, text in enumerate(texts)).encode()


def plan_recipes():
    draw = Draw(1)
    recipes = rows() + chosen_recipes()
    for n in (2, 3, 4):
        for m in range(1, n):
            for distances in (1, 2, 3, 4, 5, 6, 7, 8):
                recipes.append(drawn_recipe(draw, 400, n=n, m=m, distances=distances))
    recipes += refused_recipes()
    recipes.append(model.encode([128, 128], [128, 4], [2, 0], [(1, 1)]))
    recipes.append(largest_recipe())
    # at the printer's limit of 512 bytes, and above it
    recipes += [model.ROWS['D'][:16] * 32, model.ROWS['D'][:16] * 33]
    recipes += single_recipes() + wide_recipes() + shape_recipes()
    for n in (2, 3, 4):
        for m in range(1, n):
            recipes += [drawn_shape(draw, 300, n=n, m=m, distances=distances) for distances in (1, 3, 6)]
    # as many tiles as there can be, of a box that has twice as many; any number of messages due at one tile
    recipes.append(model.encode([128, 128], [4, 2], [2, 0], [(1, 0)], bounds=[(model.UPPER, 1, 0, 0, 63)]))
    recipes.append(model.encode([2, 2, 5, 13], [1] * 4, [2, 0, 0, 0], [(1, 1, 0, 0)], bounds=[(model.LOWER, 1, 0, 1, 0)]))
    return recipes


def route_recipes():
    """Accepted recipes for the places where a reader of W-204 goes wrong."""
    return [
        # the report's example with a second distance that crosses at the corner: parts that overlap are merged
        model.encode([8, 8, 8], [4, 4, 4], [2, 2, 0], [(2, 1, 0), (1, 2, 0), (1, 0, 3)]),
        # forwarded alone at a short edge, in the first and in the second dimension, and under W-201 at full tiles
        model.encode([3, 4, 1], [2, 2, 1], [2, 2, 0], [(1, 1, 0)]),
        model.encode([4, 3, 2], [2, 2, 1], [2, 2, 0], [(1, 1, 0)]),
        model.encode([6, 6, 1], [2, 2, 1], [2, 2, 0], [(2, 2, 0)]),
        model.encode([7, 5, 3], [3, 2, 2], [2, 3, 0], [(3, 2, 1)]),
        # three hops, alone and joined by others; corners of every two dimensions
        model.encode([4, 4, 4, 1], [2, 2, 2, 1], [2, 2, 2, 0], [(1, 1, 1, 0)]),
        model.encode([4, 4, 4, 2], [2, 2, 2, 1], [2, 2, 2, 0], [(2, 2, 2, 1)]),
        model.encode([5, 5, 5, 2], [2, 3, 2, 2], [2, 2, 2, 0], [(2, 3, 2, 0), (1, 0, 1, 1), (0, 1, 1, 0), (1, 1, 0, 0)]),
        model.encode([3, 3, 3, 3], [1, 1, 1, 2], [2, 2, 2, 0], [(1, 1, 1, 2), (0, 1, 0, 2), (1, 0, 1, 0)]),
        model.encode([3, 5, 3, 3], [2, 3, 2, 2], [2, 3, 2, 0], [(1, 2, 1, 1), (0, 1, 0, 1)]),
        # a middle dimension that is not crossed: its hop is left out
        model.encode([4, 4, 4, 2], [2, 2, 2, 2], [2, 2, 2, 0], [(1, 0, 1, 0)]),
        # fewer tiles than processors, tiles longer than their dimension, no message at all
        model.encode([3, 3, 4], [2, 2, 9], [4, 4, 0], [(1, 1, 3)]),
        model.encode([3, 2, 4], [5, 2, 2], [2, 2, 0], [(1, 1, 1)]),
        model.encode([4, 8, 3], [2, 2, 2], [2, 2, 0], [(0, 0, 1)]),
        # a chain that comes back to its processor
        model.encode([9, 7, 2], [2, 2, 1], [2, 3, 0], [(1, 2, 0), (2, 1, 1), (2, 2, 0)]),
    ]


def single_recipes():
    """W-205: one processor in a spread dimension, the first, the middle and the last one, and in all."""
    encode = model.encode
    return [
        # a port's six boards in a line, either way round
        encode([7, 12, 2], [3, 2, 1], [1, 6, 0], [(1, 0, 0), (0, 1, 0), (2, 1, 1)]),
        encode([12, 7, 2], [2, 3, 1], [6, 1, 0], [(1, 0, 0), (0, 1, 0), (1, 2, 1)]),
        # corners over one board: (1,1) and (0,1) go to the same one, in two messages
        encode([4, 4, 1], [2, 2, 1], [1, 2, 0], [(1, 1, 0)]),
        encode([4, 4, 1], [2, 2, 1], [2, 1, 0], [(1, 1, 0)]),
        encode([6, 6, 2], [2, 2, 1], [1, 3, 0], [(2, 2, 0), (1, 2, 1)], [3, 2], 1, 9),
        encode([5, 4, 4, 2], [2, 2, 2, 1], [1, 2, 2, 0], [(1, 1, 1, 0), (2, 0, 1, 1), (0, 1, 0, 0)]),
        encode([4, 5, 4, 2], [2, 2, 2, 1], [2, 1, 2, 0], [(1, 1, 1, 0), (0, 2, 1, 1), (1, 1, 0, 0)]),
        encode([4, 4, 5, 2], [2, 2, 2, 1], [2, 2, 1, 0], [(1, 1, 1, 0), (1, 0, 2, 1), (0, 1, 1, 0)]),
        encode([3, 3, 4, 2], [1, 2, 2, 1], [1, 1, 2, 0], [(1, 1, 1, 0), (1, 2, 2, 1)]),
        encode([4, 3, 3, 2], [2, 1, 2, 1], [2, 1, 1, 0], [(2, 1, 2, 1), (1, 1, 1, 0)]),
        # one board for all: no message
        encode([5, 4], [2, 2], [1, 0], [(2, 1), (1, 0)], [65535, 2], 3, 4294967295),
        encode([4, 4, 3], [2, 2, 2], [1, 1, 0], [(1, 1, 1), (2, 0, 0)]),
        encode([3, 3, 3, 2], [2, 1, 2, 1], [1, 1, 1, 0], [(1, 1, 1, 0), (2, 1, 2, 1)]),
    ]


def wide_recipes():
    """W-207: distances of 256 and more, kinds in any order, tiles as long as the reach and longer than their dimension."""
    encode = model.encode
    return [
        encode([700, 1], [300, 1], [2, 0], [(300, 0)]),
        encode([700, 1], [300, 1], [2, 0], [(1, 0), (300, 0), (44, 0), (256, 0)], [1, 3, 2, 65535], 4, 9),
        encode([1024, 1], [512, 1], [2, 0], [(512, 0), (257, 0)]),
        encode([1024, 1], [1024, 1], [3, 0], [(1023, 0), (1024, 0)]),
        encode([2, 500], [1, 260], [2, 0], [(1, 260), (0, 256), (1, 4)]),
        encode([330, 3, 1], [260, 2, 1], [2, 2, 0], [(256, 1, 0), (4, 1, 0)]),
        encode([3, 3, 60], [2, 1, 1024], [2, 3, 0], [(1, 1, 300), (1, 1, 44), (1, 0, 0)], [2, 3, 1], 0, 7),
        encode([2, 2, 2, 70], [1, 1, 1, 320], [2, 1, 2, 0], [(1, 1, 1, 320), (1, 1, 1, 64)], [5, 1], 0, 3),
        encode([600, 1], [300, 1], [2, 0], [(252 + x, 0) for x in range(8)], list(range(8)), 2, 11),
    ]


def indirect_recipes():
    """Those that are planned with indirect passing."""
    draw = Draw(6)
    recipes = rows() + route_recipes() + chosen_recipes()
    for n in (3, 4):
        for m in range(2, n):
            for distances in (1, 2, 3, 5, 8):
                recipes.append(drawn_recipe(draw, 300, n=n, m=m, distances=distances))
    recipes += single_recipes() + wide_recipes()[4:8]
    refused = refused_recipes()
    for number in ORDER:
        recipes.append([encoded for encoded in refused if model.read(encoded)[0] == number][-1])
    recipes.append(model.encode([16, 16, 8, 8], [4, 4, 4, 4], [4, 4, 4, 0], [(1, 0, 2, 1), (3, 4, 0, 0), (0, 1, 4, 4), (4, 4, 4, 4)]))
    # 21: a shape, one that cuts nothing; 20 and 8 before it
    return recipes + [shape_recipes()[0], shape_recipes()[9]] + [with_bounds(*faulty_shapes()[at][1:]) for at in (9, 15, 16)]


def sweep_recipes():
    draw = Draw(2)
    encode = model.encode
    recipes = rows() + [
        # 1,024 cells, and 1,025
        encode([32, 32], [8, 16], [2, 0], [(1, 0), (0, 1), (1, 1)]),
        encode([32, 32], [16, 16], [4, 0], [(15, 7), (0, 3)], [3, 2], 1, 9),
        encode([25, 41], [8, 8], [2, 0], [(1, 0)]),
        encode([1024, 1], [128, 1], [4, 0], [(127, 0), (1, 0)], [3, 65535], 2, 5),
        encode([1024, 1], [8, 1], [5, 0], [(7, 0)]),
        encode([1, 1024], [2, 256], [4, 0], [(1, 63), (0, 1)]),
        encode([5, 205], [3, 20], [2, 0], [(2, 1)]),
        encode([16, 8, 8], [8, 4, 8], [2, 2, 0], [(1, 1, 1), (7, 0, 2)], [1, 65535], 5, 4294967295),
        encode([8, 8, 4, 4], [8, 4, 4, 4], [2, 2, 0, 0], [(3, 3, 1, 1), (0, 1, 0, 1)]),
        encode([5, 5, 41], [3, 3, 8], [2, 2, 0], [(1, 1, 1)]),
        encode([205, 5], [50, 5], [2, 0], [(1, 1)]),
        encode([32, 32], [8, 32], [4, 0], [(1, 31), (0, 31)]),
        # cells x boards 4,096, and just above
        encode([512, 1], [64, 1], [8, 0], [(63, 0), (3, 0)], [2, 1], 1, 0),
        encode([16, 16], [4, 16], [16, 0], [(1, 3), (3, 0)]),
        encode([8, 8, 8], [4, 4, 8], [4, 2, 0], [(1, 1, 7)]),
        encode([8, 8, 8], [2, 2, 8], [3, 3, 0], [(1, 1, 7)]),
        encode([8, 4, 4], [4, 2, 4], [8, 4, 0], [(3, 1, 1), (0, 1, 0)]),
        encode([8, 8, 4], [4, 4, 4], [4, 4, 0], [(1, 0, 1), (0, 1, 0)]),
        encode([4, 4, 4, 1], [3, 2, 4, 1], [4, 4, 4, 0], [(1, 1, 1, 0)]),
        encode([4, 4, 2, 2], [4, 4, 1, 2], [2, 4, 8, 0], [(1, 2, 0, 1)], [65535], 3, 77),
        encode([8, 4, 4, 4], [4, 4, 2, 4], [2, 2, 2, 0], [(3, 1, 1, 1)]),
        encode([8, 4, 4, 4], [4, 2, 2, 2], [3, 3, 2, 0], [(3, 1, 1, 1)]),
        encode([64, 1], [22, 1], [64, 0], [(7, 0), (1, 0)]),
        encode([65, 1], [33, 1], [63, 0], [(1, 0)]),
        encode([65, 1], [9, 1], [64, 0], [(1, 0)]),
        encode([819, 1], [100, 1], [5, 0], [(99, 0)]),
        encode([820, 1], [20, 1], [5, 0], [(19, 0)]),
        encode([22, 31], [8, 16], [6, 0], [(7, 5), (0, 1)]),
        encode([683, 1], [30, 1], [6, 0], [(29, 0)]),
        encode([241, 1], [10, 1], [17, 0], [(9, 0)]),
        encode([240, 1], [60, 1], [17, 0], [(59, 0), (1, 0)], [1, 2], 0, 3),
        encode([2, 1024], [2, 64], [2, 0], [(1, 1)]),
        encode([128, 128], [16, 16], [2, 0], [(1, 1)]),
        # tiles exactly as long as the reach
        encode([32, 32], [8, 16], [4, 0], [(8, 16), (0, 16), (1, 0)], [3, 65535, 2], 1, 7),
        encode([10, 10, 10], [3, 5, 2], [2, 2, 0], [(3, 5, 2), (3, 0, 0), (0, 5, 1)]),
        encode([4, 4, 4, 4], [2, 1, 2, 3], [2, 2, 2, 0], [(2, 1, 2, 3), (0, 1, 0, 3)], [65535, 65535], 4, 4294967295),
        # many small tiles
        encode([2, 16, 2], [2, 2, 1], [2, 2, 0], [(1, 1, 0), (0, 1, 0)]),
        encode([40, 1], [2, 1], [3, 0], [(1, 0)]),
    ]
    assert len(recipes) >= 8 + 37
    for n in (2, 3, 4):
        for m in range(1, n):
            recipes.append(drawn_recipe(draw, 100, most_words=800, n=n, m=m))
    refused = refused_recipes()
    for number in ORDER:
        recipes.append([encoded for encoded in refused if model.read(encoded)[0] == number][-1])
    recipes += [model.ROWS['D'][:16] * 32, model.ROWS['D'][:16] * 33]
    recipes += single_recipes() + wide_recipes() + shape_recipes()
    # `beyond` goes by the box
    recipes += [encode([33, 32], [8, 16], [2, 0], [(1, 0)], bounds=[(model.UPPER, 1, 0, 0, 0)]),
                encode([32, 32], [8, 16], [5, 0], [(1, 0)], bounds=[(model.UPPER, 1, 0, 0, 0)]),
                encode([32, 32], [8, 16], [4, 0], [(1, 0), (8, 16)], bounds=[(model.UPPER, 1, 0, 1, 0)])]
    return recipes + [drawn_shape(draw, 100, most_words=800, n=n, m=m) for n in (2, 3, 4) for m in range(1, n)]


# The script of cases

AREAS = ['', 'source', 'memories', 'buffer', 'progress', 'status', 'grid']
ROOM = {'source': 1024, 'memories': 4096, 'buffer': 7168, 'progress': 192, 'status': 7168, 'grid': 1024}
CASE, RECIPE, LEND, FILL, POKE, FRESH, TURN, DELIVER, COLLECT, SWEEP, SHOW, ROUTE = range(1, 13)
EACH, COUNT, DRAWN, DRAWN_FEW = range(4)


class Script:
    """Records for the program, and beside them what the model says that it prints."""

    def __init__(self):
        self.records = []
        self.lines = []
        self.words = []
        self.arrays = {name: [0] * room for name, room in ROOM.items()}
        self.lent = {name: 0 for name in ROOM}
        self.encoded = b''
        self.route = model.DIRECT
        self.count = 0
        self.numbers = {}

    def record(self, op, area='', rule=0, a=0, b=0):
        at = AREAS.index(area)
        self.records.append(bytes([op, at, rule, 0]) + a.to_bytes(4, 'little') + b.to_bytes(4, 'little') + bytes(4))

    def explain(self, text, line=''):
        self.words.append('%-44s%s' % (text, line))

    def case(self, what):
        """A new case; what it tries stands in the explanation only."""
        self.record(CASE, a=self.count)
        self.lines.append('case %d' % self.count)
        self.explain('case %d: %s' % (self.count, what))
        self.count += 1
        self.encoded = b''
        self.route = model.DIRECT
        self.lent = {name: 0 for name in ROOM}

    def recipe(self, encoded):
        assert len(encoded) <= 512
        self.record(RECIPE, a=len(encoded))
        padded = encoded + bytes(-len(encoded) % 16)
        self.records += [padded[at:at + 16] for at in range(0, len(padded), 16)]
        self.encoded = encoded
        self.explain('  recipe of %d bytes' % len(encoded))

    def by(self, route):
        """The route that calls are given from now on; direct passing needs no record at the start of a case."""
        if route != self.route:
            self.record(ROUTE, a=route)
            self.explain('  route %d' % route)
        self.route = route

    def lend(self, area, length):
        assert 0 <= length <= ROOM[area]
        self.record(LEND, area, a=length)
        self.lent[area] = length
        self.explain('  lend %s %d' % (area, length))

    def fill(self, area, rule, a=0):
        self.record(FILL, area, rule, a)
        draw = Draw(a)
        for at in range(self.lent[area]):
            word = [lambda: a, lambda: at + 1, draw.word, lambda: draw.word() >> 30][rule]()
            self.arrays[area][at] = word % 256 if area == 'status' else word
        self.explain('  fill %s rule %d of %d' % (area, rule, a))

    def poke(self, area, at, word):
        assert at < self.lent[area] and (area != 'status' or word < 256)
        self.record(POKE, area, a=at, b=word)
        self.arrays[area][at] = word
        self.explain('  poke %s[%d] = %d' % (area, at, word))

    def areas(self):
        areas = model.Areas()
        for name in ROOM:
            setattr(areas, name, self.arrays[name][:self.lent[name]])
        return areas

    def text(self):
        return ''.join(line + '\n' for line in self.lines).encode()

    def checksum(self):
        h = 2166136261
        for name in AREAS[1:]:
            for x in [self.lent[name]] + self.arrays[name][:self.lent[name]]:
                h = (h * 16777619 + x) % model.WORD
        return h

    def call(self, op, name, a, answer):
        areas = self.areas()
        before = self.checksum()
        number = answer(areas)
        for area in ROOM:
            words = getattr(areas, area)
            assert len(words) == self.lent[area]
            self.arrays[area][:len(words)] = words
        assert number == 0 or self.checksum() == before
        self.record(op, a=a)
        line = '%d %08x' % (number, self.checksum())
        self.lines.append(line)
        self.explain('  %s %s' % (name, a), line)
        self.numbers.setdefault(name, set()).add(number)
        return number

    def fresh(self):
        return self.call(FRESH, 'fresh', 0, lambda areas: model.fresh(self.encoded, areas, self.route))

    def turn(self, b):
        return self.call(TURN, 'turn', b, lambda areas: model.turn(self.encoded, areas, b, self.route))

    def deliver(self, m):
        return self.call(DELIVER, 'deliver', m, lambda areas: model.deliver(self.encoded, areas, m, self.route))

    def collect(self):
        return self.call(COLLECT, 'collect', 0, lambda areas: model.collect(self.encoded, areas, self.route))

    def sweep(self):
        return self.call(SWEEP, 'sweep', 0, lambda areas: model.sweep(self.encoded, areas.source, areas.grid))

    def show(self, area):
        self.record(SHOW, area)
        line = ''.join('%d ' % word for word in self.arrays[area][:self.lent[area]])
        self.lines.append(line)
        self.explain('  show %s' % area, line)

    # what several cases share

    def lengths(self, plan):
        return {'source': plan.cells, 'memories': plan.cells * plan.boards, 'buffer': plan.words,
                'progress': 3 * plan.boards, 'status': len(plan.messages), 'grid': plan.cells}

    def start(self, what, encoded, source=(DRAWN, 5), others=0, route=model.DIRECT):
        """A case with every area lent at its length: the source by its rule, the others drawn, records and marks zero."""
        number, plan = model.plan_of(encoded, route)
        assert number == 0
        self.case(what)
        self.recipe(encoded)
        self.by(route)
        for area, length in self.lengths(plan).items():
            self.lend(area, length)
        self.fill('source', *source)
        for at, area in enumerate(('memories', 'buffer', 'grid')):
            self.fill(area, DRAWN, 100 + others + at)
        self.fill('progress', EACH, 0)
        self.fill('status', EACH, 0)
        return plan

    def calls(self, plan, every=True):
        """Each call once, the turn and the delivery of number 0, and the refused ones of numbers too high."""
        answers = [self.turn(0), self.deliver(0), self.collect()]
        if every:
            answers += [self.turn(plan.boards), self.turn(4294967295), self.deliver(len(plan.messages)), self.deliver(4294967295)]
        return answers


def facts_of_the_paper(s):
    plan = s.start('row D, every word 1', model.ROWS['D'], (EACH, 1))
    assert s.fresh() == 0
    assert s.turn(1) == 12
    assert [s.turn(0) for _ in range(3)] == [0, 0, 0]
    assert s.turn(0) == 13 and s.turn(1) == 12 and s.collect() == 15
    assert s.deliver(0) == 0 and s.deliver(0) == 14
    assert [s.turn(1) for _ in range(3)] == [0, 0, 13]
    assert s.collect() == 0
    s.show('grid')
    assert s.lines[-1] == '1 2 3 4 '
    s.fill('grid', DRAWN, 9)
    assert s.sweep() == 0
    s.show('grid')
    s.start('row F', model.ROWS['F'], (COUNT, 0))
    assert s.fresh() == 0
    assert s.turn(1) == 13 and s.deliver(0) == 11 and s.turn(2) == 11
    assert [s.turn(0) for _ in range(5)] == [0, 0, 0, 0, 13]
    assert s.collect() == 0
    s.show('grid')


def refused_by_reading(s):
    """The numbers of the lines on the recipe by every call, whatever is lent."""
    seen = {}
    for encoded in refused_recipes():
        number = model.read(encoded)[0]
        seen[number] = seen.get(number, 0) + 1
        if seen[number] > 3 or len(encoded) > 512:
            continue
        s.case('a recipe refused %d' % number)
        s.recipe(encoded)
        for at, area in enumerate(AREAS[1:]):
            s.lend(area, 3 * at)
            s.fill(area, DRAWN, number + at)
        assert [s.fresh(), s.turn(0), s.deliver(0), s.collect(), s.sweep()] == [number] * 5


def refused_by_length(s):
    """Number 9: each area one word short, one too long, and none lent; before 10, 11 and the rest."""
    for name in 'DFC':
        encoded = model.ROWS[name]
        plan = s.start('row %s, areas of wrong lengths' % name, encoded)
        right = s.lengths(plan)
        for area, length in right.items():
            for wrong in sorted({0, length - 1, length + 1} - {-1, length}):
                s.lend(area, wrong)
                numbers = [s.fresh(), s.turn(0), s.deliver(0), s.collect(), s.sweep()]
                state = area not in ('source', 'grid')
                assert numbers[3] == 9 and (numbers[4] == 9) == (not state) and (numbers[0] == 9) == (area != 'grid')
                s.fill('progress', EACH, 77)
                s.turn(4294967295)
                s.deliver(4294967295)
                s.collect()
                s.fill('progress', EACH, 0)
                s.lend(area, length)
    s.case('nothing lent')
    s.recipe(model.ROWS['A'])
    assert [s.fresh(), s.turn(0), s.deliver(0), s.collect(), s.sweep()] == [9] * 5


def unfit_states(s):
    """Number 10, by every kind of unfit record and mark; a fresh start does not ask."""
    for name in 'AFC':
        encoded = model.ROWS[name]
        plan = model.plan_of(encoded)[1]
        last = plan.boards - 1
        for b in sorted({0, last}):
            tiles = len(plan.tiles_of[b])
            sends = [len(plan.sends_of[t]) for t in plan.tiles_of[b]]
            kinds = [(tiles + 1, 0, 0), (4294967295, 0, 0), (tiles, 1, 0), (tiles, 2, 0), (tiles, 0, 1), (tiles, 0, 4294967295)]
            if tiles:
                kinds += [(0, 3, 0), (0, 4294967295, 0), (0, 0, 1), (0, 1, 1), (0, 1, 4294967295), (tiles - 1, 0, 2)]
                kinds += [(f, 2, sends[f]) for f in range(tiles)] + [(0, 2, 4294967295)]
                kinds += [(0, 3, 4294967295)]
            plan = s.start('row %s, board %d unfit' % (name, b), encoded)
            for kind in kinds:
                for j in range(3):
                    s.poke('progress', 3 * b + j, kind[j])
                assert s.calls(plan) == [10] * 7
            assert s.fresh() == 0
        if plan.messages:
            plan = s.start('row %s, a mark unfit' % name, encoded)
            for m in sorted({0, len(plan.messages) - 1}):
                for mark in (4, 5, 255):
                    s.poke('status', m, mark)
                    assert s.calls(plan) == [10] * 7
                s.poke('status', m, 3)
                assert 10 not in s.calls(plan)
            s.poke('status', 0, 200)
            assert s.fresh() == 0
    plan = s.start('numbers above the counts', model.ROWS['C'])
    for b in (plan.boards, plan.boards + 1, 65536, 4294967295):
        assert s.turn(b) == 11
    for m in (len(plan.messages), len(plan.messages) + 1, 65536, 4294967295):
        assert s.deliver(m) == 11


def set_record(s, b, finished, stage, sent):
    for j, word in enumerate((finished, stage, sent)):
        s.poke('progress', 3 * b + j, word)


def states_no_run_reaches(s):
    """Single rules in fit states: 12 by any mark but 2, a send from any mark, deliveries, records set apart."""
    encoded = model.ROWS['A']
    plan = model.plan_of(encoded)[1]
    for mark in (0, 1, 3):
        s.start('row A, a due message marked %d' % mark, encoded)
        # board 1 stands at its first tile with a due message; the other marks are 2
        s.fill('status', EACH, 2)
        tile = plan.tiles_of[1][0]
        assert s.turn(1) == 0
        set_record(s, 1, 0, 0, 0)
        s.fill('status', EACH, 2)
        s.poke('status', plan.due_at[tile][0], mark)
        assert s.turn(1) == 12
    for mark in range(4):
        s.start('row A, a send from mark %d' % mark, encoded)
        s.fill('status', EACH, mark)
        set_record(s, 0, 0, 2, 0)
        assert s.turn(0) == 0
        s.show('status')
        assert s.deliver(0) == 0 and s.deliver(0) == 14
        assert s.deliver(1) == (0 if mark == 1 else 14)
    s.start('row A, all boards set to the end', encoded)
    for b in range(plan.boards):
        assert s.collect() == 15
        set_record(s, b, len(plan.tiles_of[b]), 0, 0)
    assert s.collect() == 0 and s.turn(0) == 13 and s.turn(1) == 13
    encoded = model.ROWS['C']
    plan = s.start('row C, each send of a tile from every place', encoded)
    for b in range(plan.boards):
        for finished, tile in enumerate(plan.tiles_of[b]):
            for sent in range(len(plan.sends_of[tile])):
                set_record(s, b, finished, 2, sent)
                assert s.turn(b) == 0
    # two recipes of equal lengths: each call goes by the bytes it is given
    heavy = model.encode([8, 8], [2, 2], [2, 0], [(1, 0), (0, 1), (1, 1)], [65535, 3, 7], 31, 4294967295)
    s.start('row A, weights, shift and boundary changed on the way', model.ROWS['A'])
    s.fresh()
    for b in (0, 0, 0):
        s.turn(b)
    s.recipe(heavy)
    for _ in range(6):
        s.turn(0)
    s.deliver(0)
    s.turn(1)
    s.turn(1)


def drawn_state(s, plan, draw):
    """Any fit state: every record and mark drawn from those that are fit."""
    s.fill('status', DRAWN_FEW, draw.word())
    for b in range(plan.boards):
        tiles = plan.tiles_of[b]
        finished = draw.below(len(tiles) + 1)
        stage, sent = 0, 0
        if finished < len(tiles):
            sends = len(plan.sends_of[tiles[finished]])
            stage = draw.below(3 if sends else 2)
            sent = draw.below(sends) if stage == 2 else 0
        set_record(s, b, finished, stage, sent)


def drawn_call(s, plan, draw):
    kind = draw.below(16)
    if kind < 9:
        return s.turn(draw.below(plan.boards))
    if kind < 14 and plan.messages:
        return s.deliver(draw.below(len(plan.messages)))
    if kind == 14:
        return s.turn(plan.boards + draw.below(2)) if draw.below(4) == 0 else s.turn(draw.below(plan.boards))
    return s.collect()


def steps_from_drawn_states(s):
    """Fit states that no run reaches, stepped by the rules, with words of any size."""
    draw = Draw(3)
    for n in (2, 3, 4):
        for m in range(1, n):
            for turns in (24, 24):
                encoded = drawn_recipe(draw, 120, most_words=1200, n=n, m=m)
                plan = s.start('a drawn fit state, %d dimensions, %d spread' % (n, m), encoded, (DRAWN, draw.word()), draw.below(50))
                drawn_state(s, plan, draw)
                for _ in range(turns):
                    assert drawn_call(s, plan, draw) != 10
                # every mark delivered: the waiting boards go on
                s.fill('status', EACH, 2)
                for b in range(plan.boards):
                    s.turn(b)


def runs_to_the_end(s):
    """Whole runs in drawn orders, refused calls among them; the grid collected is the sweep's."""
    draw = Draw(4)
    recipes = [model.ROWS[row] for row in 'ABCEG'] + [chosen_recipes()[at] for at in (0, 1, 2, 4, 6, 7, 9, 11, 16, 17, 19, 20)]
    for n in (2, 3, 4):
        for m in range(1, n):
            for _ in range(2):
                recipes.append(drawn_recipe(draw, 150, most_words=1500, n=n, m=m, distances=draw.between(2, 6)))
    for k, encoded in enumerate(recipes):
        source = [(EACH, 1), (COUNT, 0), (DRAWN, draw.word())][k % 3]
        whole_run(s, draw, encoded, source, model.DIRECT, k)


def whole_run(s, draw, encoded, source, route, grid):
    """A fresh start, then drawn calls until all steps are done, collected and held to the sweep."""
    by_route = 'a whole run, %d steps' if route == model.DIRECT else 'a whole run on the indirect route, %d steps'
    plan = s.start(by_route % model.plan_of(encoded, route)[1].steps, encoded, source, route=route)
    assert s.fresh() == 0
    steps = 0
    # some boards are favoured, so that the others wait
    favoured = draw.below(plan.boards)
    while steps < plan.steps:
        mailed = [m for m in range(len(plan.messages)) if s.arrays['status'][m] == 1]
        kind = draw.below(32)
        if kind < 12:
            number = s.turn(favoured if draw.below(3) else draw.below(plan.boards))
        elif kind < 20:
            # a turn that can be taken, if there is one: otherwise most calls would be refused
            able = [b for b in range(plan.boards) if model.turn(encoded, s.areas(), b, route) == 0]
            number = s.turn(draw.pick(able)) if able else s.deliver(draw.pick(mailed))
        elif kind < 29 and mailed:
            number = s.deliver(draw.pick(mailed))
        elif kind == 30 and draw.below(4) == 0:
            assert s.collect() == 15
            continue
        elif kind == 31 and draw.below(4) == 0 and plan.messages:
            number = s.deliver(draw.below(len(plan.messages)))
        else:
            continue
        steps += number == 0
        if draw.below(24) == 0:
            favoured = draw.below(plan.boards)
    for b in range(plan.boards):
        assert s.turn(b) == 13
    for m in range(min(len(plan.messages), 4)):
        assert s.deliver(m) == 14
    assert s.collect() == 0
    collected = s.arrays['grid'][:plan.cells]
    s.fill('grid', DRAWN, grid)
    assert s.sweep() == 0 and s.arrays['grid'][:plan.cells] == collected


def largest_areas(s):
    """Lent areas as long as the program has them."""
    draw = Draw(5)
    for encoded in (model.encode([32, 32], [8, 16], [4, 0], [(7, 15), (1, 0), (0, 2)], [65535, 2, 9], 4, 65537),
                    model.encode([8, 8, 8], [4, 4, 4], [4, 2, 0], [(1, 1, 1), (3, 2, 0), (0, 1, 3)]),
                    model.encode([8, 4, 4, 4], [4, 2, 2, 2], [2, 2, 2, 0], [(3, 1, 1, 1), (2, 0, 0, 1), (0, 1, 1, 0)])):
        plan = s.start('4,096 words of memories', encoded, (DRAWN, draw.word()))
        assert len(s.areas().memories) == 4096
        s.sweep()
        drawn_state(s, plan, draw)
        for _ in range(12):
            drawn_call(s, plan, draw)
        s.fresh()
        for b in range(plan.boards):
            s.turn(b)
            s.turn(b)
            s.turn(b)
        for m in range(0, len(plan.messages), 3):
            s.deliver(m)
        for b in range(plan.boards):
            s.turn(b)


# W-204: words that are the indirect route
OTHERS = (1, 2, 256, 65536, 4294967295)


def calls_by_route(s):
    """Row C, whose routes have other lengths; a recipe whose routes have equal ones, so that only the word tells them apart."""
    encoded = model.ROWS['C']
    for lent, given in ((model.DIRECT, 1), (1, model.DIRECT), (1, 4294967295)):
        s.start('row C, areas of route %d, calls of route %d' % (lent, given), encoded, route=lent)
        s.by(given)
        plan = model.plan_of(encoded, given)[1]
        alike = (lent == model.DIRECT) == (given == model.DIRECT)
        assert (s.fresh() == 0) == alike and (9 in s.calls(plan)) == (not alike)
    # the fitness of a record goes by the route's messages: tile 2 sends one message on either, tile 0 three or two
    plan = s.start('row C, indirect, a record unfit there', encoded, route=1)
    for sent in (0, 1, 2):
        set_record(s, 0, 0, 2, sent)
        assert s.turn(0) == (0 if sent < 2 else 10)
    alike = model.encode([3, 3, 1], [2, 1, 2], [2, 3, 0], [(1, 1, 0), (1, 0, 0)])
    for first, second in ((model.DIRECT, 1), (2, model.DIRECT)):
        plan = s.start('equal lengths, from route %d to %d on the way' % (first, second), alike, (DRAWN, 8), route=first)
        s.fresh()
        for b in (0, 0, 0, 0, 1, 1, 2):
            s.turn(b)
        s.by(second)
        for m in range(len(plan.messages)):
            s.deliver(m)
        for b in 2 * list(range(plan.boards)):
            s.turn(b)
        s.collect()


def states_on_the_indirect_route(s):
    """Fit states that no run reaches, stepped by that route's messages."""
    draw = Draw(7)
    recipes = [model.ROWS['C']] + route_recipes()[:5] + route_recipes()[6:8]
    recipes += [drawn_recipe(draw, 100, most_words=1000, n=n, m=m) for n, m in ((3, 2), (4, 2), (4, 3))]
    for k, encoded in enumerate(recipes):
        plan = s.start('a drawn fit state, indirect', encoded, (DRAWN, draw.word()), draw.below(50), OTHERS[k % 5])
        drawn_state(s, plan, draw)
        for _ in range(16):
            assert drawn_call(s, plan, draw) != 10
        s.fill('status', EACH, 2)
        for b in range(plan.boards):
            s.turn(b)


def runs_on_the_indirect_route(s):
    """Whole runs by route, the grid the sweep's."""
    draw = Draw(8)
    recipes = [model.ROWS['A'], model.ROWS['C']] + [recipe for at, recipe in enumerate(route_recipes()) if at not in (7, 13)]
    for n, m in ((3, 2), (4, 2), (4, 3)):
        recipes.append(drawn_recipe(draw, 100, most_words=1000, n=n, m=m, distances=draw.between(2, 4)))
    for k, encoded in enumerate(recipes):
        whole_run(s, draw, encoded, [(EACH, 1), (COUNT, 0), (DRAWN, draw.word())][k % 3], OTHERS[k % 5], k)


def runs_over_single_boards(s):
    """W-205 by both routes: whole runs, and fit states that no run reaches."""
    draw = Draw(10)
    for k, encoded in enumerate([model.ROWS['H']] + single_recipes()):
        # the port's boards by one route each, for their length
        for route in (model.DIRECT, OTHERS[k % 5]) if k not in (1, 2) else (OTHERS[k],) if k == 1 else (model.DIRECT,):
            whole_run(s, draw, encoded, [(EACH, 1), (COUNT, 0), (DRAWN, draw.word())][k % 3], route, k)
            if k % 3 == 0:
                plan = s.start('a drawn fit state, single processors', encoded, (DRAWN, draw.word()), draw.below(50), route)
                drawn_state(s, plan, draw)
                for _ in range(12):
                    assert drawn_call(s, plan, draw) != 10


def runs_over_wide_distances(s):
    """W-207: whole runs by both routes, and a fit state that no run reaches."""
    draw = Draw(11)
    for k, encoded in enumerate(wide_recipes()):
        for route in (model.DIRECT, OTHERS[k % 5]) if k in (5, 6, 7) else (model.DIRECT,):
            whole_run(s, draw, encoded, [(EACH, 1), (COUNT, 0), (DRAWN, draw.word())][k % 3], route, k)
        plan = s.start('a drawn fit state, wide distances', encoded, (DRAWN, draw.word()), draw.below(50))
        drawn_state(s, plan, draw)
        for _ in range(8):
            assert drawn_call(s, plan, draw) != 10


def runs_over_shapes(s):
    """W-209: 21 by each call that is given a route, whole runs, and fit states that no run reaches."""
    draw = Draw(12)
    for at in (0, 9):
        plan = s.start('a shape by the indirect route', shape_recipes()[at])
        for route in OTHERS[:2]:
            s.by(route)
            assert s.fresh() == 21 and s.calls(plan) == [21] * 7 and s.sweep() == 0
        s.lend('source', 1)
        assert s.fresh() == 21 and s.sweep() == 9
    for at in (9, 16):
        number, encoded, bounds = faulty_shapes()[at]
        s.case('a recipe refused %d before 21' % number)
        s.recipe(with_bounds(encoded, bounds))
        s.by(1)
        assert [s.fresh(), s.turn(0), s.deliver(0), s.collect(), s.sweep()] == [number] * 5
    for k, encoded in enumerate(shape_recipes()):
        if k in (1, 3, 5, 6, 7, 8, 11, 13, 14, 18, 20, 21, 22, 23):
            whole_run(s, draw, encoded, [(EACH, 1), (COUNT, 0), (DRAWN, draw.word())][k % 3], model.DIRECT, k)
        if k in (0, 2, 4, 10, 15, 16, 17, 19, 24):
            plan = s.start('a drawn fit state of a shape', encoded, (DRAWN, draw.word()), draw.below(50))
            drawn_state(s, plan, draw)
            for _ in range(10):
                assert drawn_call(s, plan, draw) != 10
            # collected from any words of the memories: outside the shape they are the boundary
            for b in range(plan.boards):
                set_record(s, b, len(plan.tiles_of[b]), 0, 0)
            assert s.collect() == 0


def run_script():
    s = Script()
    facts_of_the_paper(s)
    refused_by_reading(s)
    refused_by_length(s)
    unfit_states(s)
    states_no_run_reaches(s)
    steps_from_drawn_states(s)
    runs_to_the_end(s)
    largest_areas(s)
    calls_by_route(s)
    states_on_the_indirect_route(s)
    runs_on_the_indirect_route(s)
    runs_over_single_boards(s)
    runs_over_wide_distances(s)
    runs_over_shapes(s)
    low = {*ORDER, 9}
    wanted = {'fresh': {0, 21} | low, 'turn': {0, 10, 11, 12, 13, 21} | low, 'deliver': {0, 10, 11, 14, 21} | low,
              'collect': {0, 10, 15, 21} | low, 'sweep': {0} | low}
    assert s.numbers == wanted, s.numbers
    # the room of the program that reads it whole
    assert 16 * len(s.records) <= 262144, len(s.records)
    return s


# The stored files

def row_a_text():
    """What the examples of bindings/ print: row A's grid over a source of ones, a line a row, and its steps."""
    plan = model.plan_of(model.ROWS['A'])[1]
    grid = plan.swept([1] * plan.cells)
    rows = [grid[at:at + 8] for at in range(0, plan.cells, 8)]
    lines = [' '.join(str(word) for word in row) for row in rows]
    return '\n'.join(lines + ['steps %d of %d, equal to the sweep\n' % (plan.steps, plan.steps)])


def all_files():
    """Name to content, in a fixed order."""
    import desk
    import foreman
    import recipes
    import rigs
    model.check_paper()
    plans = plan_recipes()
    indirect = indirect_recipes()
    sweeps = sweep_recipes()
    script = run_script()
    return {
        'crates/cases/data/numbers': recipes.data(),
        'crates/cases/data/plans': cases_file(plans, indirect),
        'crates/cases/data/sweeps': cases_file(sweeps),
        'crates/cases/data/script': b''.join(script.records),
        # file by file, in the order in which the program takes them
        'crates/cases/stdout': recipes.text() + plans_text(plans, indirect) + cases_text(sweeps, model.compare_text) + script.text(),
        # row C's plan is another one on the indirect route, with which the printer has nothing to do
        'crates/print_plan/stdin': model.ROWS['C'],
        'crates/print_plan/stdout': model.plan_text(model.ROWS['C']).encode(),
        'crates/compare_sweeps/stdin': model.ROWS['D'],
        'crates/compare_sweeps/stdout': model.compare_text(model.ROWS['D']).encode(),
        'bindings/row_a.stdout': row_a_text().encode(),
        **rigs.files(rigs.office_script(), 'offices'),
        **rigs.files(rigs.hours_script(), 'hours'),
        **desk.soundings_files(),
        **desk.chart_files(),
        **foreman.rounds_files(),
        **foreman.drawing_files(),
    }


def write_all():
    for name, content in all_files().items():
        path = os.path.join(ROOT, name)
        os.makedirs(os.path.dirname(path), exist_ok=True)
        with open(path, 'wb') as out:
            out.write(content)
        print('wrote %s, %d bytes' % (name, len(content)))


def check_all():
    wrong = 0
    for name, content in all_files().items():
        path = os.path.join(ROOT, name)
        stored = open(path, 'rb').read() if os.path.exists(path) else None
        same = stored == content
        wrong += not same
        print('%s: %s' % (name, 'as generated' if same else 'DIFFERS'))
    sys.exit(1 if wrong else 0)


def scripts():
    """Name of the program to what makes its script."""
    import rigs
    return {'cases': run_script, 'offices': rigs.office_script, 'hours': rigs.hours_script}


if __name__ == '__main__':
    words = sys.argv[1:]
    if words == []:
        write_all()
    elif words == ['check']:
        check_all()
    elif words[:1] == ['explain'] and len(words) < 3 and words[-1] in ['explain'] + list(scripts()):
        print('\n'.join(scripts()['cases' if words[1:] == [] else words[1]]().words))
    else:
        sys.exit(__doc__)
