"""The command's start and its end: words read, statuses, signals."""

from __future__ import annotations

import os
import signal
import sys
from typing import Any, NoReturn, Optional, Sequence

from .faults import BY_SIGNAL, FILE, Ended, Fault
from .parser import parser_of
from .texts import shown, tell

# asked to end: what is half done is cleaned up first
_ENDING = (signal.SIGTERM, signal.SIGHUP)


def _end(number: int, frame: Any) -> None:
    raise Ended(number)


def _by_signal(number: int) -> NoReturn:
    """Ends by the signal itself, so that a shell sees what ended it, and says nothing."""
    signal.signal(number, signal.SIG_DFL)
    os.kill(os.getpid(), number)
    os._exit(BY_SIGNAL + number)


def run(given: Optional[Sequence[str]] = None) -> int:
    """Does what the words say; the status."""
    words = parser_of().parse_args(given)
    try:
        status: int = words.run(words)
    except Fault as fault:
        tell(str(fault))
        return fault.status
    except BrokenPipeError:
        raise
    except OSError as error:
        tell(shown('%s: %s' % (error.filename, error.strerror) if error.filename else str(error)))
        return FILE
    except MemoryError:
        tell('no memory is left')
        return Fault.status
    return status


def main() -> int:
    """The command."""
    try:
        for number in _ENDING:
            # what was ignored at the start, as under nohup, stays so
            if signal.getsignal(number) != signal.SIG_IGN:
                signal.signal(number, _end)
        return run(sys.argv[1:])
    except KeyboardInterrupt:
        _by_signal(signal.SIGINT)
    except Ended as ended:
        _by_signal(ended.signal_number)
    except BrokenPipeError:
        _by_signal(signal.SIGPIPE)
