"""What owns areas: a lock for each, and copies that share nothing."""

from __future__ import annotations

import copy
import functools
import threading
from typing import Any, Callable, ClassVar, Dict, Tuple, TypeVar, cast

Own = TypeVar('Own', bound='Owner')
Method = TypeVar('Method', bound=Callable[..., Any])


def locked(method: Method) -> Method:
    """A method during which its object's lock is held."""

    @functools.wraps(method)
    def held(self: Owner, *words: Any, **named: Any) -> Any:
        with self._lock:
            return method(self, *words, **named)

    return cast(Method, held)


class Owner:
    """What owns areas and changes them only by its calls.

    Calls go one at a time, whichever threads they come from: ctypes lets other threads run during a call, and two calls at the same time
    must not have the same area. A copy, shallow or deep, and what a pickle gives back have areas and a lock of their own."""

    # what calls change; all else stays as it was at the start, and copies may have it in common
    CHANGED: ClassVar[Tuple[str, ...]] = ('_areas',)
    _lock: Any
    _encoded: bytes
    _route: int

    def __new__(cls, *words: Any, **named: Any) -> Any:
        made = super().__new__(cls)
        made._lock = threading.RLock()
        return made

    @property
    def encoded(self) -> bytes:
        """The recipe."""
        return self._encoded

    @property
    def route(self) -> int:
        """The route: `DIRECT` or `INDIRECT`."""
        return self._route

    @locked
    def _own(self, **parts: Any) -> None:
        """Takes over what a start has made, all at once: a start that fails leaves nothing half done."""
        self.__dict__.update(parts)

    @locked
    def __getstate__(self) -> Dict[str, Any]:
        return {name: copy.deepcopy(value) if name in self.CHANGED else value for name, value in self.__dict__.items() if name != '_lock'}

    def __setstate__(self, state: Dict[str, Any]) -> None:
        self._lock = threading.RLock()
        self.__dict__.update(state)

    def __copy__(self: Own) -> Own:
        made: Own = type(self).__new__(type(self))
        made.__setstate__(self.__getstate__())
        return made

    def __deepcopy__(self: Own, memo: Dict[int, Any]) -> Own:
        return self.__copy__()
