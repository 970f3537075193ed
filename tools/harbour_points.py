"""Writes the two surveys of data/harbour as a boat has them, as CSV.

    python3 tools/harbour_points.py          # writes spring.csv and autumn.csv
    python3 tools/harbour_points.py check    # compares them with a fresh generation; status 1 where one differs

The points are those of the records: each lies somewhere in its record's cell, no nearer to an edge than half a metre, and has its depth in
millimetres, its day as a date and its survey's number. The corner is 0, 0 and a cell is 10 metres wide.
The tests of the command have it make the records from the points again, and compare them byte for byte.
"""

import datetime
import os
import struct
import sys

HERE = os.path.dirname(os.path.abspath(__file__))
FOLDER = os.path.join(HERE, '..', 'data', 'harbour')
sys.path.insert(0, HERE)

import harbour  # noqa: E402

# in tenths of a metre: a cell's edge, and the strip along it that no point is in
CELL, STRIP = 100, 5
SEED = 213

HEAD = 'x,y,depth,day,survey\n'


def points(content, drawn):
    """The lines of a file of records."""
    lines = [HEAD]
    for cell, day, survey, depth in struct.iter_unpack('<4I', content):
        row, column = divmod(cell, harbour.COLUMNS)
        x, y = (CELL * at + STRIP + drawn.below(CELL - 2 * STRIP) for at in (column, harbour.ROWS - 1 - row))
        date = datetime.date(1970, 1, 1) + datetime.timedelta(days=day)
        lines.append('%d.%d,%d.%d,%d,%s,%d\n' % (x // 10, x % 10, y // 10, y % 10, depth, date, survey))
    return ''.join(lines)


def made():
    """Each file's content, by name."""
    drawn, found = harbour.Drawn(SEED), {}
    for name, content in sorted(harbour.surveys().items()):
        found[name.replace('.soundings', '.csv')] = points(content, drawn)
    return found


def main(words):
    wrong = 0
    for name, content in made().items():
        path = os.path.join(FOLDER, name)
        if words == ['check']:
            with open(path, encoding='utf-8', newline='') as file:
                if file.read() != content:
                    print('%s is not what is generated' % name)
                    wrong = 1
        else:
            with open(path, 'w', encoding='utf-8', newline='') as file:
                file.write(content)
    return wrong


if __name__ == '__main__':
    sys.exit(main(sys.argv[1:]))
