"""Words for the user: names that can't steer a terminal, what is told on standard error, how far long work is."""

from __future__ import annotations

import os
import sys
import time
from typing import Iterable, List, Optional, Sequence

# undecodable bytes of a name are kept by Python as these, the byte in the low eight bits
_LONE_BYTES = range(0xDC80, 0xDD00)

# things of a kind that are named one by one; the others are counted
NAMED_MOST = 10

# work that takes longer shows how far it is
_SHOWN_AFTER = 1.0
_SHOWN_EVERY = 0.1
_BAR = 30


def shown(word: str) -> str:
    """A name or a word from outside as it is shown: it can neither end the line nor steer a terminal."""
    found = []
    for c in word:
        if ord(c) in _LONE_BYTES:
            found.append('\\x%02x' % (ord(c) & 0xFF))
        elif c.isprintable():
            found.append(c)
        else:
            found.append(c.encode('unicode_escape', 'surrogatepass').decode())
    return ''.join(found)


def of(name: str, what: object) -> str:
    """Something about a file, behind its name."""
    return '%s: %s' % ({'-': 'standard input'}.get(name) or shown(name), what)


def tell(what: str) -> None:
    """Tells something on standard error. Where that can't be written only the status is left to say it."""
    try:
        if sys.stderr is not None:
            os.write(sys.stderr.fileno(), (what + '\n').encode('utf-8', 'backslashreplace'))
    except (OSError, ValueError):
        pass


def many(number: int, thing: str, things: Optional[str] = None) -> str:
    """`1 cell`, `2 cells`."""
    return '%d %s' % (number, thing if number == 1 else things or thing + 's')


def listed(words: Sequence[object]) -> str:
    """`1`, `1 and 2`, `1, 2 and 3`."""
    texts = [str(word) for word in words]
    return ' and '.join([', '.join(texts[:-1]), texts[-1]] if len(texts) > 1 else texts)


def first_of(found: Sequence[str], number: int) -> List[str]:
    """The first lines of many, and how many there are besides."""
    more = number - NAMED_MOST
    return list(found[:NAMED_MOST]) + (['and %d more' % more] if more > 0 else [])


def table(rows: Iterable[Sequence[object]], indent: str = '  ') -> str:
    """Columns: the first to the left, all others to the right."""
    words = [[str(word) for word in row] for row in rows]
    widths = [max(len(row[at]) for row in words) for at in range(len(words[0]))]
    lines = [indent + '  '.join([row[0].ljust(widths[0]), *(word.rjust(width) for word, width in zip(row[1:], widths[1:]))])
             for row in words]
    return ''.join(line.rstrip() + '\n' for line in lines)


class Bar:
    """How far long work is, on a terminal alone: nothing in the first second, and the line is gone at the end."""

    def __init__(self, what: str, total: int) -> None:
        self.what, self.total = what, max(total, 1)
        self.next = time.monotonic() + _SHOWN_AFTER
        self.terminal = sys.stderr is not None and sys.stderr.isatty()
        self.drawn = False

    def __enter__(self) -> Bar:
        return self

    def at(self, done: int) -> None:
        """So much of the total is done."""
        if not self.terminal or time.monotonic() < self.next:
            return
        self.next = time.monotonic() + _SHOWN_EVERY
        full = min(_BAR, _BAR * done // self.total)
        self._draw('\r%s [%s%s] %3d %%' % (self.what, '#' * full, ' ' * (_BAR - full), 100 * done // self.total))
        self.drawn = True

    def _draw(self, text: str) -> None:
        try:
            os.write(sys.stderr.fileno(), text.encode())
        except OSError:
            self.terminal = False

    def __exit__(self, *ended: object) -> None:
        if self.drawn:
            self._draw('\r\x1b[K')
