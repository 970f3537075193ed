"""The package as a whole: its parameters beside those of Rust, its names and their hints, the wheel."""

import base64
import contextlib
import glob
import hashlib
import importlib.util
import inspect
import os
import re
import subprocess
import sys
import tempfile
import typing
import unittest
import zipfile
from unittest import mock

from support import HERE, calls, rolwyddac

RUST = os.path.join(HERE, '..', '..', 'rust', 'src')

# what Python names otherwise
RENAMED = {'soundings': {'records': 'file'}}

# what Rust has elsewhere: a constructor, a function of a type
ELSEWHERE = {('Run', '__init__'): 'resume', ('Rig', '__init__'): 'start', ('Board', '__init__'): 'start', ('PartBoard', '__init__'): 'start'}


def rust_functions():
    """The type, '' where there is none, and the name of each function that the crate offers, to its parameters' names."""
    found = {}
    # a refusal has functions there; here it is an exception
    for path in set(glob.glob(os.path.join(RUST, '*.rs'))) - {os.path.join(RUST, 'refusal.rs')}:
        with open(path, encoding='utf-8') as source:
            text = re.sub(r'//[^\n]*', '', source.read())
        owner = ''
        for begun, ended, name, inside in re.findall(
                r"^impl(?:<'a>)? (\w+)(?:<'a>)? \{$|^(\})$|(?:pub fn|rolwyddac_\w+ as) (\w+)(?:<'a>)?\(([^{}]*?)\)(?: ->|;)", text, flags=re.M):
            owner = begun or ('' if ended else owner)
            if name:
                found[owner, name] = re.findall(r'(\w+):', inside)
    return found


def members(kind):
    """What a class of the package has, by name, also of the package's classes that it is made of."""
    found = {}
    for base in reversed(kind.__mro__):
        if base.__module__.startswith('rolwyddac'):
            found.update(vars(base))
    return found


def python_functions():
    """The functions of the package and the methods of its classes, named the same way."""
    for name, value in vars(rolwyddac).items():
        if inspect.isfunction(value):
            yield '', name, value
        elif inspect.isclass(value) and value.__module__.startswith('rolwyddac'):
            for method in members(value):
                if method == '__init__' or not method.startswith('_'):
                    yield name, method, getattr(value, method)


class Order(unittest.TestCase):
    """Parameters stand in the order of Rust, so that one reads like the other."""

    def test_parameters(self):
        rust, met = rust_functions(), set()
        for owner, name, function in python_functions():
            wanted = rust.get((owner, ELSEWHERE.get((owner, name), name)))
            if wanted is None or not callable(function):
                continue
            renamed = RENAMED.get(name, {})
            got = [renamed.get(word, word) for word in inspect.signature(function).parameters if word != 'self']
            # what Rust is lent to write to, Python gives back
            self.assertEqual(got, [word for word in wanted if word in got], (owner, name))
            met.add((owner, name))
        self.assertLessEqual({('', 'part_sizes'), ('', 'part_messages'), ('', 'chart'), ('', 'soundings'), ('', 'opens'), ('Run', '__init__'),
                              ('Run', 'turn_at'), ('Rig', '__init__'), ('Rig', 'turn_at'), ('Board', '__init__'), ('PartBoard', '__init__'),
                              ('Fields', 'at_least')}, met)
        self.assertGreater(len(met), 40)


def hinted():
    """Every function that callers meet: name and function, also of properties and of methods."""
    for name in rolwyddac.__all__:
        value = getattr(rolwyddac, name)
        if inspect.isfunction(value):
            yield name, value
        elif inspect.isclass(value) and value.__module__.startswith('rolwyddac'):
            for method, found in members(value).items():
                found = found.__func__ if isinstance(found, classmethod) else found.fget if isinstance(found, property) else found
                if inspect.isfunction(found) and found.__module__.startswith('rolwyddac') and (method == '__init__' or not method.startswith('_')):
                    yield '%s.%s' % (name, method), found


class Names(unittest.TestCase):

    def test_all(self):
        public = {name for name, value in vars(rolwyddac).items()
                  if not name.startswith('_') and not inspect.ismodule(value) and name not in ('annotations', 'numpy')}
        self.assertEqual(sorted(public | {'calls', '__version__'}), sorted(rolwyddac.__all__))
        for kind in rolwyddac.REFUSALS.values():
            self.assertIn(kind.__name__, rolwyddac.__all__)
        met = {}
        exec('from rolwyddac import *', met)
        self.assertLessEqual(set(rolwyddac.__all__), set(met))

    def test_refusals_are_those_of_the_library(self):
        """Their names are written down, so that editors know them; they are the library's terms. From 100 on they are the C handle's, whom no call gives."""
        wanted = {number: rolwyddac.term(number).title().replace(' ', '') for number in range(1, 100) if rolwyddac.term(number) != 'other'}
        self.assertEqual({number: kind.__name__ for number, kind in rolwyddac.REFUSALS.items()}, wanted)
        for number, kind in rolwyddac.REFUSALS.items():
            self.assertIs(getattr(rolwyddac, kind.__name__), kind)
            self.assertEqual(kind.__doc__, '%d, %s: %s.' % (number, rolwyddac.term(number), rolwyddac.text(number)))
            self.assertEqual((kind.__module__, type(calls.refused(number))), ('rolwyddac', kind))

    def test_hints(self):
        """Each parameter and each result has a hint that this Python can read."""
        met = 0
        for name, function in hinted():
            hints = typing.get_type_hints(function)
            parameters = [word for word in inspect.signature(function).parameters if word not in ('self', 'cls')]
            # `self` may have one, where a method gives back its own kind
            self.assertEqual(sorted(set(hints) - {'self', 'cls'}), sorted(parameters + ['return']), name)
            self.assertTrue(function.__doc__ or name.endswith('.__init__'), name)
            met += 1
        self.assertGreater(met, 80)

    def test_every_class_and_function_says_what_it_is(self):
        for name in rolwyddac.__all__:
            value = getattr(rolwyddac, name)
            if inspect.isfunction(value) or inspect.isclass(value):
                self.assertTrue(value.__doc__, name)

    def test_typed(self):
        self.assertTrue(os.path.isfile(os.path.join(os.path.dirname(rolwyddac.__file__), 'py.typed')))


# what a type checker takes, and what it must tell
RIGHT = '''
import array
from typing import List, Optional, Tuple
import rolwyddac
recipe: bytes = rolwyddac.Fields().dimension(4, 2, 2).dimension(1, 1).distance((1, 0)).close()
run = rolwyddac.Run(recipe, rolwyddac.DIRECT, array.array('I', [1, 1, 1, 1]))
try:
    run.turn(0)
except (rolwyddac.Waiting, rolwyddac.Finished) as refusal:
    number: int = refusal.number
flying: List[int] = run.in_flight()
tiles: int = rolwyddac.summary(bytearray(recipe)).tiles
kept: rolwyddac.Areas = run.areas.copy()
waits: Optional[rolwyddac.Awaited] = rolwyddac.PartBoard(recipe, 0, [1, 1], 0).awaited()
'''
WRONG = ["rolwyddac.Run(b'', 0, [1]).turn('0')", "rolwyddac.Run(b'', 0, [1]).turn(1.5)", "rolwyddac.chart(b'', [1], 0.5)",
         "rolwyddac.summary('text')", "rolwyddac.summary(b'').cell", "rolwyddac.Wating", "rolwyddac.part_sizes(b'', 0)",
         "rolwyddac.Fields().dimension('4', 2)", "rolwyddac.Run(b'', 0, [1]).route = 1"]


@unittest.skipUnless(importlib.util.find_spec('mypy'), 'mypy is not installed')
class Checked(unittest.TestCase):

    def test_package_and_callers(self):
        """Nothing is told of the package, nor of a caller's right lines, and each wrong line of it is."""
        package = os.path.dirname(rolwyddac.__file__)
        with tempfile.TemporaryDirectory() as folder:
            path = os.path.join(folder, 'caller.py')
            with open(path, 'w', encoding='utf-8') as caller:
                caller.write(RIGHT + '\n'.join(WRONG) + '\n')
            done = subprocess.run([sys.executable, '-m', 'mypy', '--strict', '--cache-dir', folder, package, path], stdout=subprocess.PIPE,
                                  stderr=subprocess.STDOUT, env={**os.environ, 'MYPYPATH': os.path.dirname(package)})
        told = re.findall(r'(\w+)\.py:(\d+): error', done.stdout.decode())
        first = RIGHT.count('\n') + 1
        self.assertEqual(sorted(set(told)), [('caller', str(line)) for line in range(first, first + len(WRONG))], done.stdout.decode())


class Wheel(unittest.TestCase):

    def test_what_is_in_it(self):
        backend = importlib.util.spec_from_file_location('backend', os.path.join(HERE, '..', 'backend.py'))
        module = importlib.util.module_from_spec(backend)
        backend.loader.exec_module(module)
        package = os.path.join(HERE, '..', 'rolwyddac')
        library = os.path.dirname(calls.LOADED._name)
        with tempfile.TemporaryDirectory() as folder, mock.patch.dict(os.environ, ROLWYDDAC_LIB=library):
            name = module.build_wheel(folder)
            with contextlib.closing(zipfile.ZipFile(os.path.join(folder, name))) as wheel:
                content = {each: wheel.read(each) for each in wheel.namelist()}
        sources = {'rolwyddac/' + os.path.relpath(each, package) for each in glob.glob(os.path.join(package, '**', '*.py'), recursive=True)}
        sources |= {'rolwyddac/view/parts/' + name for name in os.listdir(os.path.join(package, 'view', 'parts'))}
        found = {each for each in content if each.startswith('rolwyddac/')}
        self.assertIn('rolwyddac/command/entry.py', found)
        self.assertEqual(found, sources | {'rolwyddac/py.typed', 'rolwyddac/librolwyddac.so'})
        record, = [text for each, text in content.items() if each.endswith('/RECORD')]
        for line in record.decode().splitlines():
            each, told, length = line.split(',')
            if told:
                wanted = base64.urlsafe_b64encode(hashlib.sha256(content.pop(each)).digest()).rstrip(b'=').decode()
                self.assertEqual((told, each), ('sha256=' + wanted, each))
        self.assertEqual(len(content), 1)
