"""Writes the man page of the program boards, as it is installed, from the table of options of its manual. Run as

    python3 packaging/boards_man.py bindings/boards/MANUAL.md > rolwyddac-boards.1
"""

import re
import sys

NAME = 'rolwyddac-boards'

HEAD = '''.TH ROLWYDDAC-BOARDS 1
.SH NAME
rolwyddac\\-boards \\- a run on processes that share no memory
.SH SYNOPSIS
.B rolwyddac\\-boards
.I RECIPE
.RB ( \\-\\-source
.IR FILE " |"
.B \\-\\-seed
.IR NUMBER )
[OPTION ..]
.br
.B rolwyddac\\-boards \\-\\-board
.I NUMBER
.B \\-\\-hosts
.I FILE
[OPTION ..]
.SH DESCRIPTION
Runs a recipe with one process a board, on this machine or where a hosts file says, and holds the grid to the sweep of one processor before it is written.
Boards that die are started again, and lost packets are posted again.
The manual is /usr/share/doc/rolwyddac/boards.md.
.SH OPTIONS
'''
TAIL = '''.SH SEE ALSO
.BR rolwyddac (1)
'''


def troff(text):
    """Text that troff prints as it is; what stands in backticks is bold."""
    escaped = text.replace('\\', '\\e').replace('-', '\\-')
    return re.sub(r'`([^`]*)`', r'\\fB\1\\fR', escaped)


def options(manual):
    """Each option as it is written, and what it says."""
    table = manual.partition('\n## Options\n')[2].partition('\n## ')[0]
    rows = re.findall(r'^\| (`.*?) \| ?(.*?) ?\|$', table, flags=re.M)
    if len(rows) < 5:
        sys.exit('%s: no table of options' % NAME)
    return rows


def main(path):
    with open(path, encoding='utf-8') as file:
        rows = options(file.read())
    body = ''.join('.TP\n%s\n%s\n' % (troff(written), troff(told)) for written, told in rows)
    sys.stdout.write(HEAD + body + TAIL)


if __name__ == '__main__':
    if len(sys.argv) != 2:
        sys.exit(__doc__)
    main(sys.argv[1])
