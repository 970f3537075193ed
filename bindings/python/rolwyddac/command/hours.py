"""Hours as TOML: when processors may run.

    [[open]]
    days = ["Mon", "Tue"]     # every day where it is left out
    from = "08:00"
    to = "12:30"              # no longer open at this minute; 24:00 is the day's end
    processors = [0, 1]       # all where it is left out
"""

from __future__ import annotations

import array
import re
from typing import Any, Dict, List, Tuple

from ..hints import Words
from . import files
from .faults import Refusal
from .texts import listed, of
from .toml import toml_module

DAYS = ('Mon', 'Tue', 'Wed', 'Thu', 'Fri', 'Sat', 'Sun')
_DAY, _HOUR = 24 * 60, 60
_WINDOWS = 14
_HOURS_MOST = 2 ** 20
_KEYS = ('days', 'from', 'to', 'processors')


def _minute(name: str, window: Dict[str, Any], key: str) -> int:
    """A time of the day, in minutes."""
    found = re.fullmatch(r'(\d\d):(\d\d)', str(window.get(key, '')))
    minute = int(found[1]) * _HOUR + int(found[2]) if found and int(found[2]) < _HOUR else _DAY + 1
    if minute > _DAY:
        raise Refusal(of(name, 'every [[open]] needs `%s`, a time from 00:00 to 24:00 in quotes' % key))
    return minute


def _some(name: str, window: Dict[str, Any], key: str, of_these: List[Any]) -> List[Any]:
    """What a list of the window names; all where it has none."""
    found = window.get(key, of_these)
    if not isinstance(found, list) or any(each not in of_these or isinstance(each, bool) for each in found):
        these = listed(of_these) if key == 'days' else 'numbers from 0 to %d' % of_these[-1]
        raise Refusal(of(name, '`%s` is a list of %s' % (key, these)))
    return found


def _windows(name: str, window: Any, processors: int) -> List[Tuple[int, int, int]]:
    """Processor, open and close of all windows that a table stands for."""
    strange = [key for key in window if key not in _KEYS] if isinstance(window, dict) else ['open']
    if strange:
        raise Refusal(of(name, 'unknown key `%s`; an [[open]] has %s' % (strange[0], listed(list(_KEYS)))))
    opens, closes = _minute(name, window, 'from'), _minute(name, window, 'to')
    if opens >= closes:
        raise Refusal(of(name, 'an [[open]] begins at %s and ends at %s' % (window['from'], window['to'])))
    days = [DAYS.index(day) * _DAY for day in _some(name, window, 'days', list(DAYS))]
    return [(p, day + opens, day + closes) for p in _some(name, window, 'processors', list(range(processors))) for day in days]


def hours_of(name: str, processors: int) -> Words:
    """The engine's table: 14 windows a processor."""
    module = toml_module()
    try:
        found = module.loads(files.read(name, _HOURS_MOST).decode('utf-8'))
    except (UnicodeDecodeError, module.TOMLDecodeError) as error:
        raise Refusal(of(name, 'no TOML: %s' % error)) from None
    strange = [key for key in found if key != 'open']
    if strange or not isinstance(found.get('open'), list):
        raise Refusal(of(name, 'it has to have tables [[open]]' + (', and `%s` is none' % strange[0] if strange else '')))
    windows: List[List[int]] = [[] for _ in range(processors)]
    for window in found['open']:
        for processor, opens, closes in _windows(name, window, processors):
            windows[processor] += [opens, closes]
    for processor, each in enumerate(windows):
        if len(each) > 2 * _WINDOWS:
            raise Refusal(of(name, 'processor %d has %d windows; at most %d' % (processor, len(each) // 2, _WINDOWS)))
        if not each:
            raise Refusal(of(name, 'processor %d never opens: its run would not end' % processor))
        each += [0] * (2 * _WINDOWS - len(each))
    return array.array('I', [word for each in windows for word in each])
