"""Files: read up to a limit, and written whole or not at all."""

from __future__ import annotations

import codecs
import errno
import itertools
import os
import signal
import stat
import sys
from typing import Any, List, Optional, Sequence, Tuple

from .faults import FileFault, Usage
from .texts import of, shown

STANDARD = '-'

# names of what the process was given open, which is written to as it stands
_DESCRIPTORS = ('/proc/', '/dev/fd/', '/dev/stdout', '/dev/stderr')

# signals that wait while a file is being replaced, so that no part of one is left behind
_ENDING = (signal.SIGINT, signal.SIGTERM, signal.SIGHUP)

# standard input, once it was read
_taken: List[str] = []


def _said(error: OSError) -> str:
    return os.strerror(error.errno) if error.errno else str(error)


def read(name: str, most: int) -> bytes:
    """A file's bytes, unless there are more; `-` is standard input."""
    try:
        if name == STANDARD:
            content = _standard_input(most)
        else:
            with open(name, 'rb') as file:
                content = file.read(most + 1)
    except OSError as error:
        raise FileFault(of(name, _said(error))) from None
    except ValueError:
        raise FileFault(of(name, 'no file can have this name')) from None
    if len(content) > most:
        raise FileFault(of(name, 'it has more than the %d bytes that it may have' % most))
    return content


def _standard_input(most: int) -> bytes:
    if _taken:
        raise Usage('standard input is named twice, and can be read once')
    _taken.append(STANDARD)
    if sys.stdin is None:
        raise OSError(errno.EBADF, os.strerror(errno.EBADF))
    return sys.stdin.buffer.read(most + 1)


def is_text(content: bytes) -> bool:
    """Is it text? Records of recipes and soundings always have a zero byte, which text has only with two bytes a character. An empty file is none."""
    return bool(content) and (is_utf_16(content) or 0 not in content)


def is_utf_16(content: bytes) -> bool:
    """Does the content begin as text with two bytes a character does?"""
    return content.startswith((codecs.BOM_UTF16_LE, codecs.BOM_UTF16_BE))


def _put(descriptor: int, content: bytes) -> None:
    left = memoryview(content)
    while left:
        left = left[os.write(descriptor, left):]


def put(content: bytes) -> None:
    """Writes to standard output, to the last byte."""
    try:
        if sys.stdout is None:
            raise OSError(errno.EBADF, os.strerror(errno.EBADF))
        sys.stdout.flush()
        _put(sys.stdout.fileno(), content)
    except BrokenPipeError:
        raise
    except OSError as error:
        raise FileFault('standard output: %s' % _said(error)) from None


def say(text: str) -> None:
    """Writes text to standard output."""
    put(text.encode('utf-8', 'backslashreplace'))


def write(name: str, content: bytes) -> None:
    """Writes a file: `-` is standard output, and what is no regular file, a pipe or a device, is written to as it stands. Else the
    file is written whole or not at all, and keeps its links, its mode and its owner."""
    if name == STANDARD:
        put(content)
        return
    try:
        found = _found(name)
        if found is not None and (not stat.S_ISREG(found.st_mode) or os.path.abspath(name).startswith(_DESCRIPTORS)):
            _straight(name, content)
        else:
            _replace(os.path.realpath(name), found, content)
    except BrokenPipeError:
        raise
    except OSError as error:
        raise FileFault('%s: %s' % (shown(name), _said(error))) from None
    except ValueError:
        raise FileFault('%s: no file can have this name' % shown(name)) from None


def hold_apart(outputs: Sequence[str], inputs: Sequence[str] = ()) -> None:
    """No output is written twice, or over what is read."""
    met = {_identity(name): name for name in inputs if name != STANDARD}
    for name in outputs:
        if _identity(name) in met:
            raise Usage('%s is named twice: it would be written over' % shown(name))
        met[_identity(name)] = name


def _identity(name: str) -> Any:
    """What two names of one file have in common."""
    try:
        found = os.stat(name)
        return found.st_dev, found.st_ino
    except (OSError, ValueError):
        return os.path.abspath(name)


def _found(name: str) -> Optional[os.stat_result]:
    try:
        return os.stat(name)
    except FileNotFoundError:
        return None


def _straight(name: str, content: bytes) -> None:
    descriptor = os.open(name, os.O_WRONLY | os.O_APPEND | os.O_CLOEXEC)
    try:
        _put(descriptor, content)
    finally:
        os.close(descriptor)


def _beside(path: str) -> Tuple[int, str]:
    """A new file in the folder of another, under a name that nobody has."""
    for count in itertools.count():
        beside = os.path.join(os.path.dirname(path), '.rolwyddac-%d-%d.part' % (os.getpid(), count))
        try:
            return os.open(beside, os.O_WRONLY | os.O_CREAT | os.O_EXCL | os.O_CLOEXEC, 0o666), beside
        except FileExistsError:
            continue
    raise AssertionError


def _keep(part: int, found: os.stat_result) -> bool:
    """Mode and owner of the file that stood there. The owner first: a change of owner can take bits of the mode away."""
    try:
        new = os.fstat(part)
        if (new.st_uid, new.st_gid) != (found.st_uid, found.st_gid):
            os.fchown(part, found.st_uid, found.st_gid)
        os.fchmod(part, stat.S_IMODE(found.st_mode))
    except PermissionError:
        return False
    return True


def _replace(path: str, found: Optional[os.stat_result], content: bytes) -> None:
    """Writes to a new file beside it, which then takes its name."""
    waiting = signal.pthread_sigmask(signal.SIG_BLOCK, _ENDING)
    standing, part, beside = -1, -1, ''
    try:
        if found is not None:
            # a file that may not be written is not put out of the way either
            standing = os.open(path, os.O_WRONLY | os.O_CLOEXEC)
        part, beside = _beside(path)
        if found is not None and not _keep(part, found):
            # another owner's, which can't be kept on a new file
            os.ftruncate(standing, 0)
            _put(standing, content)
            return
        _put(part, content)
        os.fsync(part)
        os.rename(beside, path)
        beside = ''
    finally:
        for descriptor in (standing, part):
            if descriptor >= 0:
                os.close(descriptor)
        if beside:
            os.unlink(beside)
        signal.pthread_sigmask(signal.SIG_SETMASK, waiting)
