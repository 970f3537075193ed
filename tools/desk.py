"""What the desk brings and loads: the stored vectors of bindings/cases/soundings and charts. README.md has the formats,
`python3 tools/vectors.py` writes them."""

import model
import schedules
import vectors
from vectors import Draw


def header(*words):
    return b''.join(word.to_bytes(4, 'little') for word in words)


def stored(name, content, lines):
    return {'bindings/cases/%s/cases' % name: content, 'bindings/cases/%s/answers' % name: ''.join(line + '\n' for line in lines).encode()}


# W-210

def sounding_cases():
    """(recipe, file, value, lent words, number)"""
    records = model.sounding_records
    d, high, top = model.ROWS['D'], 4294967295, 2147483648
    good = records((0, 1, 1, 10), (3, 1, 1, 13))
    cases = [(d, records(*found), 77, 4, number) for number, found in (
        (0, []), (0, [(0, 1, 1, 10)]), (0, [(3, 1, 1, 13)]), (0, [(0, 1, 1, 10), (3, 1, 1, 13), (1, 5, 5, 77)]),
        # ties in the day, in day and survey, in all; the same record twice
        (0, [(1, 2, 8, 10), (1, 2, 7, 11)]), (0, [(1, 2, 7, 11), (1, 2, 8, 10)]), (0, [(1, 2, 8, 10), (1, 2, 8, 9)]),
        (0, [(1, 2, 8, 9), (1, 2, 8, 10)]), (0, [(2, 2, 8, 9), (2, 2, 8, 9)]),
        # the day weighs more than the survey, and both more than the place in the file
        (0, [(1, 2, 1, 10), (1, 1, 9, 11)]), (0, [(1, 1, 9, 11), (1, 2, 1, 10)]), (0, [(2, 9, 0, 1), (2, 8, 9, 2), (2, 8, 9, 3)]),
        # numbers without a sign
        (0, [(0, top, 0, 1), (0, top - 1, 9, 2)]), (0, [(0, 5, 9, 2), (0, high, 0, 1)]), (0, [(1, 3, high, 3), (1, 3, top - 1, 4)]),
        (0, [(1, 3, 0, 3), (1, 3, top, 4)]), (0, [(0, 0, 0, 0)]), (0, [(0, 0, 0, 0), (0, 0, 0, high), (3, high, high, high)]),
        # 22 by any record, superseded and first, last and far off
        (22, [(4, 1, 1, 1)]), (22, [(0, 1, 1, 1), (4, 1, 1, 1)]), (22, [(4, 1, 1, 1), (0, 9, 9, 1)]), (22, [(high, 0, 0, 0)]),
        (22, [(65536, 1, 1, 1), (0, 1, 1, 1)]), (22, [(256, 1, 1, 1)]))]
    # each line beside its neighbours: a ragged file, the recipe's lines, 9, 22
    cases += [(d, good + bytes(more), 7, 4, 1) for more in (1, 15)] + [(d, good[:-1], 7, 4, 1), (d, b'\0', 7, 4, 1)]
    cases += [(d[16:], good + b'\0', 7, 4, 1), (d[16:], good, 7, 4, 2), (d[:-1], good, 7, 4, 1), (b'', b'', 7, 4, 1), (b'', b'\0', 7, 0, 1)]
    refused = vectors.refused_recipes()
    for number in vectors.ORDER[1:]:
        encoded = [e for e in refused if model.read(e)[0] == number][-1]
        cases += [(encoded, records((high, 1, 1, 1)), 7, 3, number)]
    cases += [(encoded, good + b'\0', 7, 4, 1)]
    cases += [(d, good, 7, lent, 9) for lent in (0, 3, 5)]
    cases += [(d, records((4, 1, 1, 1)), 7, 5, 9), (d, good + b'\0', 7, 5, 1), (d, b'', 7, 3, 9)]
    # more dimensions
    c = model.encode([2, 3, 2, 2], [2, 2, 2, 2], [2, 2, 0, 0], [(1, 0, 0, 0)])
    cases += [(c, records((23, 1, 1, 5), (0, 1, 1, 6)), high, 24, 0), (c, records((24, 1, 1, 5)), high, 24, 22)]
    draw = Draw(41)
    for encoded, cells, count in ((d, 4, 40), (c, 24, 100), (model.ROWS['A'], 64, 128), (model.ROWS['A'], 64, 40)):
        cases.append((encoded, records(*schedules.drawn_soundings(draw, cells, count)), draw.word(), cells, 0))
    return cases


def soundings_files():
    content, lines = b'', []
    for k, (encoded, file, value, lent, number) in enumerate(sounding_cases()):
        assert lent <= 256 and len(encoded) <= 512
        content += header(len(encoded), len(file), value, lent) + encoded + file
        source = [3000000000 + j for j in range(lent)]
        assert model.soundings(encoded, file, value, source) == number, (k, number)
        assert number == 0 or source == [3000000000 + j for j in range(lent)]
        lines += ['case %d' % k, str(number), ''.join('%d ' % word for word in source)]
    return stored('soundings', content, lines)


# W-211

def chart_cases():
    """(recipe, grid, x, y, cell size, room, number); the room is that beside the text where it is written as a pair ('text', more)"""
    plane = model.encode([2, 3], [2, 2], [2, 0], [(1, 0)])
    cube = model.encode([2, 3, 1], [2, 2, 1], [2, 0, 0], [(1, 0, 0)])
    triangle = model.encode([4, 4], [2, 2], [2, 0], [(1, 0)], boundary=3, bounds=[model.TRIANGLE])
    free = model.encode([2, 3], [2, 2], [2, 0], [(1, 0)], bounds=[(model.LOWER, 1, 0, 0, 0)])
    corner = model.encode([3, 3], [2, 2], [2, 0], [(1, 0)], bounds=[(model.LOWER, 1, 0, -1, 4)])
    low, top, high = -2147483648, 2147483647, 4294967295
    grid = [0, 10, high, 9, high - 9998, 100]
    exact = ('text', 0)
    cases = [(plane, grid, -3, 20, 50, exact, 0), (plane, grid, -3, 20, 50, ('text', 1), 0), (plane, grid, -3, 20, 50, ('text', 9), 0),
             (plane, grid, -3, 20, 50, ('text', -1), 9), (plane, grid, -3, 20, 50, 0, 9), (plane, grid, -3, 20, 50, 6, 9)]
    # every count of digits, in a value, a corner and the cell size
    ladder = [0, 1] + [x for e in range(1, 10) for x in (10 ** e - 1, 10 ** e)] + [9999, top, top + 1, high]
    line = model.encode([1, len(ladder)], [2, 2], [2, 0], [(1, 0)])
    column = model.encode([len(ladder), 1], [2, 2], [2, 0], [(1, 0)])
    cases += [(line, ladder, 0, 0, 1, ('text', 3), 0), (column, ladder, 0, 0, 1, exact, 0)]
    for x, y, size in ((low, top, 65535), (top, low, 1), (0, -1, 9), (1, -10, 10), (-99, 99, 999), (-100, 100, 1000), (-9999, 9999, 9999),
                       (-1000000000, 999999999, 10000)):
        cases.append((plane, grid, x, y, size, exact, 0))
    # cells outside by the shape, whatever their words; an equal word inside is printed as it is
    cases += [(triangle, [high - 9998] * 16, 5, 6, 7, exact, 0), (triangle, list(range(16)), 5, 6, 7, ('text', 2), 0),
              (free, grid, 5, 6, 7, exact, 0), (corner, [0] * 9, 0, 0, 1, exact, 0), (corner, [0] * 9, 0, 0, 1, ('text', -1), 9)]
    row_a = model.plan_of(model.ROWS['A'])[1]
    cases += [(model.ROWS['A'], row_a.swept([1] * 64), 0, 0, 100, ('text', 5), 0), (model.ROWS['D'], [1, 2, 3, 4], 0, 0, 1, exact, 0)]
    # the grid's length; 23 before 9, the recipe's lines before 23
    cases += [(plane, wrong, 0, 0, 1, 300, 9) for wrong in (grid[1:], grid + [1], [])] + [(triangle, [1] * 10, 0, 0, 1, 300, 9)]
    cases += [(plane, grid, 0, 0, size, 300, 23) for size in (0, 65536, 65537, 2 ** 31, high)]
    cases += [(cube, grid, 0, 0, 1, 300, 23), (cube, [], 0, 0, 0, 0, 23), (plane, [], 0, 0, 0, 0, 23), (plane, grid, 0, 0, 0, 20, 23)]
    cases += [(model.encode([2, 2, 2, 2], [2] * 4, [2, 0, 0, 0], [(1, 0, 0, 0)]), [1] * 16, 0, 0, 1, 300, 23)]
    refused = vectors.refused_recipes()
    for number in vectors.ORDER:
        encoded = [e for e in refused if model.read(e)[0] == number][-1]
        cases.append((encoded, [1, 2, 3], 1, 2, number % 2, 20, number))
    return cases


def chart_files():
    content, lines = b'', []
    for k, (encoded, grid, x, y, size, room, number) in enumerate(chart_cases()):
        if isinstance(room, tuple):
            room = len(model.chart_text(model.read(encoded)[1], grid, x, y, size)) + room[1]
        assert len(grid) <= 256 and len(encoded) <= 512 and room <= 1024
        content += header(len(encoded), len(grid), x % model.WORD, y % model.WORD, size, room) + encoded + header(*grid)
        space = [35] * room
        got = model.chart(encoded, grid, x, y, size, space)
        assert got[0] == number, (k, got, number)
        lines += ['case %d' % k, '%d %d' % got, '%d %d' % model.chart_length(encoded, grid, x, y, size), bytes(space).decode()]
    return stored('charts', content, lines)
