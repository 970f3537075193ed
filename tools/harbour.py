"""Writes the two surveys of data/harbour, always the same bytes.

    python3 tools/harbour.py          # writes data/harbour/spring.soundings and autumn.soundings
    python3 tools/harbour.py check    # compares them with a fresh generation; status 1 where one differs

A record has 16 bytes, four words, the low byte first: cell number, survey day, survey number, depth in millimetres. In
spring a boat went over the whole basin, row after row, and along every tenth column once more; in autumn the fairway was
sounded again, after it had been dredged. So some cells have several records. Depths are those of a shore that slopes down
to the fairway, with swell of up to 15 centimetres; two moored ships leave cells that nobody sounded.
"""

import os
import struct
import sys

ROOT = os.path.join(os.path.dirname(os.path.abspath(__file__)), '..')
ROWS, COLUMNS = 60, 80
FAIRWAY = range(18, 30)
SHORE = 40  # the row at which the shore meets the western edge
MOORED = [(range(40, 43), range(50, 62)), (range(6, 9), range(15, 24))]


class Drawn:
    """x <- 1664525 x + 1013904223 modulo 2^32, as in vectors.py."""

    def __init__(self, seed):
        self.x = seed

    def below(self, n):
        self.x = (1664525 * self.x + 1013904223) % 2 ** 32
        return (self.x >> 8) * n >> 24


def is_sounded(row, column):
    moored = any(row in rows and column in columns for rows, columns in MOORED)
    return column >= row - SHORE and not moored


def depth(row, column, dredged, drawn):
    """The bottom falls 18 centimetres a cell from the shore, to 9 metres; the fairway is cut deeper."""
    bottom = min(600 + 180 * (column - row + SHORE), 9000)
    if row in FAIRWAY:
        bottom = max(bottom, 11500 if dredged else 10200)
    return bottom + drawn.below(301) - 150


def survey(day, number, lines, dredged, drawn):
    """The records of a survey: the cells of its lines, one after the other."""
    records = []
    for cells in lines:
        for row, column in cells:
            if is_sounded(row, column):
                records.append((row * COLUMNS + column, day, number, depth(row, column, dredged, drawn)))
    return b''.join(struct.pack('<4I', *record) for record in records)


def surveys():
    along = [[(row, column) for column in range(COLUMNS)] for row in range(ROWS)]
    across = [[(row, column) for row in range(ROWS)] for column in range(0, COLUMNS, 10)]
    fairway = [[(row, column) for column in range(COLUMNS)] for row in FAIRWAY]
    return {
        'spring.soundings': survey(20570, 1, along + across, False, Drawn(211)),
        'autumn.soundings': survey(20741, 2, fairway, True, Drawn(212)),
    }


def main(words):
    wrong = 0
    for name, content in surveys().items():
        path = os.path.join(ROOT, 'data', 'harbour', name)
        if words == ['check']:
            with open(path, 'rb') as file:
                if file.read() != content:
                    print('%s is not what is generated' % name)
                    wrong = 1
        else:
            with open(path, 'wb') as file:
                file.write(content)
    return wrong


if __name__ == '__main__':
    sys.exit(main(sys.argv[1:]))
