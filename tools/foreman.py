"""What the foreman's screen shows: the stored vectors of bindings/cases/rounds and the drawn schedules of docs. README.md has the formats,
`python3 tools/vectors.py` writes them. A tile's round and board are the model's; nothing here comes from the library."""

import os

import model
import vectors
from desk import header, stored

ROOT = os.path.join(os.path.dirname(os.path.abspath(__file__)), '..')

# data/harbour/basin.toml
HARBOUR = model.encode([60, 80], [10, 16], [6, 0], [(1, 0), (0, 1), (1, 1)], shift=2, boundary=4000, bounds=[(model.LOWER, 1, 0, 1, -40)])

LENT = ('source', 'memories', 'buffer', 'progress', 'status', 'rounds')


def right_lengths(encoded):
    """What each area has, progress in records; of a refused recipe those of row D."""
    number, plan = model.plan_of(encoded)
    if number != 0:
        return right_lengths(model.ROWS['D'])
    words = sum(len(message.cells) for message in plan.messages)
    return [plan.cells, plan.boards * plan.cells, words, plan.boards, len(plan.messages), plan.tiles]


def accepted_recipes():
    """Rows A to H; shapes, some with processors that have no tile; one tile; short edge tiles, one processor, four dimensions."""
    encode, low, high = model.encode, model.LOWER, model.UPPER
    return [model.ROWS[row] for row in 'ABCDEFGH'] + [
        encode([4, 4], [2, 2], [2, 0], [(1, 1)], bounds=[(low, 1, 0, 1, 0)]),
        encode([8, 8], [2, 2], [4, 0], [(1, 0), (0, 1), (1, 1)], bounds=[(low, 1, 0, 1, 0)], boundary=9),
        encode([8, 8], [2, 2], [4, 0], [(1, 0), (0, 1)], bounds=[(high, 1, 0, -1, 5)]),
        encode([6, 9], [2, 3], [3, 0], [(1, 0), (0, 2)], bounds=[(low, 1, 0, 0, 4)], shift=1),
        encode([8, 8], [2, 2], [4, 0], [(1, 1), (2, 0)], bounds=[(low, 1, 0, 1, -2), (high, 1, 0, 1, 2)]),
        # processors without a tile: by the shape, and by the count
        encode([8, 4], [1, 2], [8, 0], [(1, 1)], bounds=[(low, 1, 0, 1, -3)]),
        encode([3, 4], [1, 2], [5, 0], [(1, 0), (0, 1)]),
        encode([4, 6], [2, 2], [2, 0], [(1, 0)], bounds=[(low, 1, 0, 1, 3)]),
        # one tile, with and without bounds
        encode([4, 4], [2, 2], [2, 0], [(1, 0)], bounds=[(low, 1, 0, 1, 3)]),
        encode([3, 3], [3, 3], [1, 0], [(1, 0)]), encode([3, 3], [1024, 5], [3, 0], [(1, 0)]),
        encode([5, 7], [2, 3], [2, 0], [(1, 0), (0, 1), (2, 3)]), encode([6, 6], [1, 2], [1, 0], [(1, 0), (0, 1)]),
        encode([4, 4, 4], [2, 1, 2], [2, 3, 0], [(1, 0, 0), (0, 1, 0), (0, 0, 1), (1, 1, 1)]),
        encode([2, 3, 2, 2], [2, 2, 2, 2], [2, 2, 0, 0], [(1, 0, 0, 0)]),
        encode([4, 4, 4], [2, 2, 2], [2, 2, 0], [(1, 1, 0), (0, 0, 1)], bounds=[(low, 2, 0, 1, 0), (high, 1, 0, 0, 2)]),
    ]


def cases():
    """(recipe, lengths, number of the driver, number of rounds_of)"""
    found = [(encoded, right_lengths(encoded), 0, 0) for encoded in accepted_recipes()]
    # 9 by each area, one element less and one more; the last is not the driver's, and the others are not those of rounds_of
    for encoded in (model.ROWS['A'], model.ROWS['D'], accepted_recipes()[8]):
        right = right_lengths(encoded)
        for at in range(len(LENT)):
            for more in (-1, 1):
                lengths = [length + more * (k == at) for k, length in enumerate(right)]
                if min(lengths) >= 0:
                    found.append((encoded, lengths, 9 if LENT[at] != 'rounds' else 0, 9 if LENT[at] == 'rounds' else 0))
        found.append((encoded, [0] * len(right), 9, 9))
        found.append((encoded, [right[0], right[1], right[2], 65, right[4], right[5]], 9, 0))
    # each of the reader's lines before 9, and before the lines behind it, as vectors.refused_recipes pairs them
    for encoded in vectors.refused_recipes():
        number = model.read(encoded)[0]
        right = right_lengths(encoded)
        found.append((encoded, right if number % 2 else [0, 1, 2, 3, 4, 6], number, number))
    # more records than any recipe has, behind the reader's lines
    found.append((model.ROWS['D'][16:], [4, 8, 1, 65, 1, 2], 2, 2))
    return found


def hashed(words, h):
    for x in words:
        h = (h * 16777619 + x) % model.WORD
    return h


def rounds_files():
    content, lines = b'', []
    for k, (encoded, lengths, number, number_of) in enumerate(cases()):
        assert len(encoded) <= 1024 and max(lengths) <= 4096
        content += header(len(encoded), *lengths) + encoded
        source, memories, buffer, records, status, tiles = lengths
        areas = model.Areas()
        areas.source = [(j * 2654435761 + 7) % model.WORD for j in range(source)]
        areas.memories, areas.buffer = [[3000000000 + j for j in range(n)] for n in (memories, buffer)]
        areas.progress, areas.status = [77 + j for j in range(3 * records)], [j % 251 for j in range(status)]
        areas.grid = []
        found = [3000000000 + j for j in range(tiles)]
        got = model.rounds(encoded, areas)
        got_of = model.rounds_of(encoded, found)
        assert (got[0], got_of) == (number, number_of), (k, got, got_of)
        told = 0
        if number == 0:
            # told by the recurrence, and the driver's own count agrees
            told = max(model.tile_rounds(model.plan_of(encoded)[1]))
            assert told == got[1], (k, told, got)
        h = 2166136261
        for words in (areas.memories, areas.buffer, areas.progress, areas.status):
            h = hashed([len(words)] + words, h)
        lines += ['case %d' % k, '%d %d' % (number, number_of), str(told), str(h), ' '.join(map(str, found))]
    return stored('rounds', content, lines)


# The schedule as a drawing: boards down, rounds across, tile numbers in the boxes

def schedule(encoded):
    """For each board the tile of each round, or None."""
    plan = model.plan_of(encoded)[1]
    rounds = model.tile_rounds(plan)
    table = [[None] * max(rounds) for _ in range(plan.boards)]
    for tile, round in enumerate(rounds):
        table[plan.board_of[tile]][round - 1] = tile
    return table


def drawing(encoded):
    """As text."""
    table = schedule(encoded)
    rounds, tiles = len(table[0]), sum(tile is not None for row in table for tile in row)
    wide = max(len(str(rounds)), len(str(tiles - 1)))
    left = len('processor %d' % (len(table) - 1))
    lines = ['%d rounds, %d tiles, %d processors' % (rounds, tiles, len(table))]
    lines.append('%*s |%s' % (left, 'round', ''.join(' %*d |' % (wide, r + 1) for r in range(rounds))))
    for board, row in enumerate(table):
        name = 'processor %*d' % (left - len('processor '), board)
        lines.append('%s |%s' % (name, ''.join(' %*s |' % (wide, '' if tile is None else tile) for tile in row)))
    return ''.join(line + '\n' for line in lines)


WIDE, HIGH, LEFT, TOP = 40, 28, 104, 44


def svg(encoded):
    """As a picture."""
    table = schedule(encoded)
    rounds, tiles = len(table[0]), sum(tile is not None for row in table for tile in row)
    width, height = LEFT + WIDE * rounds + 12, TOP + HIGH * len(table) + 12
    out = ['<svg xmlns="http://www.w3.org/2000/svg" width="%d" height="%d" viewBox="0 0 %d %d">' % (width, height, width, height),
           '<title>%d rounds, %d tiles, %d processors</title>' % (rounds, tiles, len(table)),
           '<style>text { font: 13px sans-serif } .tile { fill: #cfe2f3; stroke: #24507a } .idle { fill: none; stroke: #d0d0d0 }</style>',
           '<rect width="100%" height="100%" fill="white"/>',
           '<text x="12" y="20">%d rounds, %d tiles, %d processors</text>' % (rounds, tiles, len(table))]
    middle = WIDE // 2
    out += ['<text x="%d" y="%d" text-anchor="middle">%d</text>' % (LEFT + WIDE * r + middle, TOP - 6, r + 1) for r in range(rounds)]
    for board, row in enumerate(table):
        top = TOP + HIGH * board
        out.append('<text x="12" y="%d">processor %d</text>' % (top + 19, board))
        for r, tile in enumerate(row):
            kind = 'idle' if tile is None else 'tile'
            out.append('<rect class="%s" x="%d" y="%d" width="%d" height="%d"/>' % (kind, LEFT + WIDE * r + 1, top + 1, WIDE - 2, HIGH - 2))
            if tile is not None:
                out.append('<text x="%d" y="%d" text-anchor="middle">%d</text>' % (LEFT + WIDE * r + middle, top + 19, tile))
    out.append('</svg>')
    return ''.join(line + '\n' for line in out)


def drawing_files():
    """The drawings of all accepted recipes of the cases, one behind the other; and those of the documents."""
    found = {'bindings/cases/rounds/drawings': ''.join(drawing(encoded) for encoded in accepted_recipes()).encode()}
    for name, encoded in (('row-a', model.ROWS['A']), ('harbour', HARBOUR)):
        found['docs/rounds-%s.txt' % name] = drawing(encoded).encode()
        found['docs/rounds-%s.svg' % name] = svg(encoded).encode()
    return found
