"""Builds the wheel for `pip install bindings/python`: the package and the shared object beside it. Nothing is fetched.

The shared object is that of the folder that ROLWYDDAC_LIB names. Without it bindings/library makes one first, which
needs a C compiler.
"""

import base64
import hashlib
import os
import re
import subprocess
import sys
import sysconfig
import zipfile

HERE = os.path.dirname(os.path.abspath(__file__))
SHARED = 'librolwyddac.so'

# tells type checkers that the package has hints
TYPED = 'py.typed'

# sources, and the parts of the page that `rolwyddac view` writes
SUFFIXES = ('.py', '.html', '.css', '.js')


def _content(path):
    with open(path, 'rb') as file:
        return file.read()


def _section(name):
    """Key and value of each line of a part of pyproject.toml, as they stand there."""
    text = _content(os.path.join(HERE, 'pyproject.toml')).decode()
    inside = re.search(r'^\[%s\]\n(.*?)(?=^\[|\Z)' % re.escape(name), text, flags=re.M | re.S)[1]
    return dict(re.findall(r'^([\w-]+) = (.*)$', inside, flags=re.M))


def _project(key):
    return _section('project')[key].strip('"')


def _metadata():
    lines = ['Metadata-Version: 2.1', 'Name: ' + _project('name'), 'Version: ' + _project('version'), 'Summary: ' + _project('description'),
             'Requires-Python: ' + _project('requires-python')]
    for extra, wanted in _section('project.optional-dependencies').items():
        lines.append('Provides-Extra: ' + extra)
        for requirement in re.findall(r'"(.*?)"', wanted):
            name, _, condition = requirement.partition('; ')
            lines.append("Requires-Dist: %s; %s" % (name, ' and '.join(filter(None, [condition, "extra == '%s'" % extra]))))
    return '\n'.join(lines) + '\n'


def _sources(package):
    """The package's files by their names in the wheel."""
    for folder, below, names in sorted(os.walk(package)):
        below[:] = [name for name in below if name != '__pycache__']
        for name in sorted(names):
            if name.endswith(SUFFIXES) or name == TYPED:
                path = os.path.join(folder, name)
                yield os.path.relpath(path, HERE), _content(path)


def _shared():
    folder = os.environ.get('ROLWYDDAC_LIB')
    if not folder:
        if subprocess.run([os.path.join(HERE, '../library')], stdout=sys.stderr, check=False).returncode:
            raise SystemExit('bindings/library failed: what it wrote stands above')
        folder = os.path.join(HERE, '../../target/library/lib')
    path = os.path.join(os.path.abspath(folder), SHARED)
    if not os.path.isfile(path):
        raise SystemExit('no %s: ROLWYDDAC_LIB names a folder without it' % os.path.normpath(path))
    return _content(path)


def _summed(content):
    return 'sha256=' + base64.urlsafe_b64encode(hashlib.sha256(content).digest()).rstrip(b'=').decode()


def build_wheel(wheel_directory, config_settings=None, metadata_directory=None):
    name, version = _project('name'), _project('version')
    tag = 'py3-none-' + re.sub(r'[-.]', '_', sysconfig.get_platform())
    info = '%s-%s.dist-info' % (name, version)
    files = dict(_sources(os.path.join(HERE, name)))
    files['%s/%s' % (name, SHARED)] = _shared()
    files[info + '/METADATA'] = _metadata().encode()
    scripts = ''.join('%s = %s\n' % (script, target.strip('"')) for script, target in _section('project.scripts').items())
    files[info + '/entry_points.txt'] = ('[console_scripts]\n' + scripts).encode()
    files[info + '/WHEEL'] = ('Wheel-Version: 1.0\nGenerator: rolwyddac\nRoot-Is-Purelib: false\nTag: %s\n' % tag).encode()
    record = ''.join('%s,%s,%d\n' % (path, _summed(content), len(content)) for path, content in files.items())
    files[info + '/RECORD'] = (record + info + '/RECORD,,\n').encode()
    wheel = '%s-%s-%s.whl' % (name, version, tag)
    with zipfile.ZipFile(os.path.join(wheel_directory, wheel), 'w', zipfile.ZIP_DEFLATED) as archive:
        for path, content in files.items():
            archive.writestr(path, content)
    return wheel


def build_sdist(sdist_directory, config_settings=None):
    raise SystemExit('there is no source distribution: the package is built in the repository')
