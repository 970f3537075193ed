"""Finds and loads the shared object librolwyddac.so."""

from __future__ import annotations

import ctypes
import ctypes.util
import os
import sys
from typing import List, SupportsIndex

from .kinds import whole

NAME = 'librolwyddac.so'

if sys.byteorder != 'little' or ctypes.sizeof(ctypes.c_size_t) != 8:
    raise ImportError('librolwyddac is for x86-64')


def _places() -> List[str]:
    """Where the shared object may be, the first that is there counts; a folder that ROLWYDDAC_LIB names is the only one."""
    here = os.path.dirname(os.path.abspath(__file__))
    named = os.environ.get('ROLWYDDAC_LIB')
    if named:
        return [os.path.join(os.path.abspath(named), NAME)]
    return [os.path.join(here, NAME), os.path.normpath(os.path.join(here, '../../../target/library/lib', NAME))]


def _load() -> ctypes.CDLL:
    places = _places()
    for place in places:
        if os.path.isfile(place):
            return ctypes.CDLL(place)
    found = None if os.environ.get('ROLWYDDAC_LIB') else ctypes.util.find_library('rolwyddac')
    if found:
        return ctypes.CDLL(found)
    raise ImportError('no %s; run bindings/library in the repository, or set ROLWYDDAC_LIB to its folder' % ', no '.join(places))


LOADED = _load()
for _name in ('version', 'term', 'text'):
    getattr(LOADED, 'rolwyddac_' + _name).restype = ctypes.c_char_p
for _name in ('term', 'text'):
    getattr(LOADED, 'rolwyddac_' + _name).argtypes = [ctypes.c_uint32]


def _read(content: bytes) -> str:
    return content.decode()


def version() -> str:
    """The version of the library that is loaded."""
    return _read(LOADED.rolwyddac_version())


def term(number: SupportsIndex) -> str:
    """The term of a number, as `early` for 15."""
    return _read(LOADED.rolwyddac_term(whole('number', 'u32', number)))


def text(number: SupportsIndex) -> str:
    """What a number says, as `collecting while a processor has tiles left` for 15."""
    return _read(LOADED.rolwyddac_text(whole('number', 'u32', number)))
