"""What the tests of the command share: the command as a user starts it, and the model's answers."""

import contextlib
import importlib.util
import os
import signal
import subprocess
import sys
import tempfile
import unittest
from unittest import mock

from support import HERE, calls

ROOT = os.path.normpath(os.path.join(HERE, '..', '..', '..'))
HARBOUR = os.path.join(ROOT, 'data', 'harbour')
BASIN = os.path.join(HARBOUR, 'basin.toml')
SURVEYS = [os.path.join(HARBOUR, name) for name in ('spring.csv', 'autumn.csv')]
START = [sys.executable, '-c', 'import sys; from rolwyddac.command import main; sys.exit(main())']

# in a clone the program boards is built; what is installed by the wheel has none
HAS_BOARDS = os.path.isdir(os.path.join(ROOT, 'bindings', 'boards')) and not os.environ.get('ROLWYDDAC_INSTALLED')


@contextlib.contextmanager
def heeded(number):
    """What is started here heeds the signal, also where these tests run in the background and a shell has them ignore it."""
    before = signal.signal(number, signal.SIG_DFL)
    try:
        yield
    finally:
        signal.signal(number, before)


def setUpModule():
    """The command is for Python 3.9 on, and its recipes as TOML for a Python that reads it."""
    if sys.version_info < (3, 9):
        raise unittest.SkipTest('the command needs Python 3.9')
    if not any(importlib.util.find_spec(name) for name in ('tomllib', 'tomli')):
        raise unittest.SkipTest('neither tomllib nor tomli is installed')


# recipe D of docs/RECIPE.md
SMALL = '''
[[dimension]]
length = 4
tile = 2
processors = 2
[[dimension]]
length = 1
tile = 1
[[distance]]
step = [1, 0]
'''


def environment(**more):
    """What the command finds: this package and its library."""
    package = {} if os.environ.get('ROLWYDDAC_INSTALLED') else {'PYTHONPATH': os.path.join(HERE, '..')}
    return {**os.environ, 'ROLWYDDAC_LIB': os.path.dirname(calls.LOADED._name), **package, **more}


def command(*words, given=b'', cwd=ROOT, stdin=subprocess.PIPE, env=None, **more):
    """Runs the command: status, standard output, standard error."""
    feed = {'input': given} if stdin == subprocess.PIPE else {'stdin': stdin}
    done = subprocess.run([*START, *map(str, words)], stdout=more.pop('stdout', subprocess.PIPE), stderr=subprocess.PIPE, cwd=cwd,
                          env=environment(**(env or {})), **feed, **more)
    return done.returncode, done.stdout, done.stderr.decode()


def content_of(path):
    with open(path, 'rb') as file:
        return file.read()


@contextlib.contextmanager
def without(*modules):
    """As if these modules were not installed."""
    with mock.patch.dict(sys.modules, {module: None for module in modules}):
        yield


class InFolder(unittest.TestCase):
    """Each test has a folder of its own."""

    def setUp(self):
        folder = tempfile.TemporaryDirectory()
        self.addCleanup(folder.cleanup)
        self.folder = folder.name

    def path(self, name):
        return os.path.join(self.folder, name)

    def put(self, name, content):
        with open(self.path(name), 'wb') as file:
            file.write(content if isinstance(content, bytes) else content.encode())
        return self.path(name)

    def ends(self, status, *words, told='', **more):
        """The command ends so, and tells that; what it wrote."""
        found, written, errors = command(*words, **more)
        self.assertNotIn('Traceback', errors)
        self.assertEqual(found, status, (errors, (written or b'')[:500]))
        self.assertIn(told, errors)
        return written
