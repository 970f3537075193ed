"""Holds bindings/archive, bindings/library and bindings/lock to what docs/INSTALL.md says of the shipped archive. Run as

    python3 tools/shipped.py

Each test has a small repository of its own, with this repository's scripts, four crates and a stand-in for rt that takes as long as it is told and
compiles the C code that stands in the crate calls. Nothing is proved and nothing of this repository is written.
"""

import os
import pty
import shutil
import signal
import stat
import subprocess
import sys
import tempfile
import time
import unittest

import header

ROOT = os.path.join(os.path.dirname(os.path.abspath(__file__)), '..')
SHIPPED = 'prebuilt/x86_64-linux/'
MADE = 'target/staticlib/libcalls.a'
SOURCES = {
    'crates.txt': '# beside: low\nlow:\n\n  middle :\tlow # and no more\nbeside: low\n calls_c  staticlib : calls\ncalls: low\tmiddle io\n',
    'crates/low/src/lib.rt': 'low\n', 'crates/low/specs/Low.antt': 'low\n', 'crates/low/must-fail/one.edit': 'edit\n',
    'crates/middle/src/lib.rt': 'middle\n', 'crates/middle/proofs/deep/Middle.antt': 'middle\n',
    'crates/beside/src/lib.rt': 'beside\n',
    'crates/calls/src/lib.rt': 'calls\n',
    # each call is there, to be linked, and nothing calls it
    'crates/calls_c/src/lib.rt': ''.join('int %s(void) { return 1; }\n' % name for name in header.declared(header.text_of(header.HEADER))),
}
# RT_CALLED has a line a call; RT_SECONDS is how long a crate takes; with RT_REFUSES the last crate is not proved
RT = r'''#!/bin/sh
echo "$*" >> "$RT_CALLED"
proved() { printf 'statements core: modules loaded=1 checked=0\ncrate %s: modules loaded=0 checked=1\nlogic=proved functions=1\n' "$1"; }
case $1 in
  version) echo 'stand-in 1' ;;
  lib)
    for name in low middle calls; do
      stamp=../$name/out/rlib/stamp
      [ -z "$(find "../$name" -name out -prune -o -type f -newer "$stamp" -print 2>&1)" ] && continue
      sleep "$RT_SECONDS"
      mkdir -p "../$name/out/rlib"
      touch "$stamp"
      proved "$name"
    done
    sleep "$RT_SECONDS"
    [ -z "${RT_REFUSES:-}" ] || { echo 'lib.rt:1:1: error: a fact does not hold'; exit 1; }
    mkdir -p out
    cc -x c -c src/lib.rt -o out/calls_c.o && ar rcD out/libcalls_c.a out/calls_c.o && proved calls_c ;;
esac
'''


class Repository:
    """A clone with the stand-in beside it."""

    def __init__(self):
        self.folder = tempfile.mkdtemp()
        self.root = os.path.join(self.folder, 'a clone')
        os.makedirs(os.path.join(self.root, 'bindings'))
        for name in ('archive', 'library', 'lock', 'folder', 'install'):
            shutil.copy(os.path.join(ROOT, 'bindings', name), os.path.join(self.root, 'bindings'))
        shutil.copytree(os.path.join(ROOT, 'bindings/c'), os.path.join(self.root, 'bindings/c'))
        for name, text in SOURCES.items():
            self.write(name, text)
        self.command('rt', RT)
        self.without_rt = os.pathsep.join(folder for folder in os.environ['PATH'].split(os.pathsep) if not os.path.exists(os.path.join(folder, 'rt')))

    def path(self, name):
        return os.path.join(self.root, name)

    def write(self, name, content):
        os.makedirs(os.path.dirname(self.path(name)), exist_ok=True)
        with open(self.path(name), 'wb') as file:
            file.write(content.encode() if isinstance(content, str) else content)

    def read(self, name):
        with open(self.path(name), 'rb') as file:
            return file.read()

    def command(self, name, text):
        path = os.path.join(self.folder, 'bin', name)
        os.makedirs(os.path.dirname(path), exist_ok=True)
        with open(path, 'w') as file:
            file.write(text)
        os.chmod(path, os.stat(path).st_mode | stat.S_IXUSR)

    def environment(self, rt=True, **more):
        path = (os.path.join(self.folder, 'bin') + os.pathsep if rt else '') + self.without_rt
        kept = {name: value for name, value in os.environ.items() if name not in ('ROLWYDDAC_LIB', 'RT_JOBS', 'CFLAGS')}
        return dict(kept, PATH=path, RT_CALLED=os.path.join(self.folder, 'called'), **dict({'RT_SECONDS': '0'}, **more))

    def start(self, words, rt=True, **more):
        words = [os.path.join(self.root, 'bindings', words[0])] + words[1:]
        return subprocess.Popen(words, env=self.environment(rt, **more), stdout=subprocess.PIPE, stderr=subprocess.PIPE, start_new_session=True)

    def run(self, *words, rt=True, **more):
        """Status and lines of standard error."""
        process = self.start(list(words), rt, **more)
        said = process.communicate(timeout=60)[1].decode()
        return process.returncode, said.splitlines()

    def called(self):
        """How often rt wrote an archive."""
        path = os.path.join(self.folder, 'called')
        with open(path) as file:
            return file.read().splitlines().count('lib')

    def change(self, name='crates/middle/src/lib.rt'):
        self.write(name, self.read(name) + b'/* more */\n')

    def remove(self, name):
        shutil.rmtree(self.path(name), ignore_errors=True)

    def as_cloned(self):
        """Nothing was proved here."""
        for name in ('target', *('crates/%s/out' % crate for crate in ('low', 'middle', 'calls', 'calls_c'))):
            self.remove(name)


class Shipped(unittest.TestCase):
    def setUp(self):
        self.repository = Repository()
        self.addCleanup(shutil.rmtree, self.repository.folder)
        self.assertEqual(self.repository.run('archive', '--refresh')[0], 0)
        self.repository.as_cloned()

    def taken(self, status_and_said):
        """The shipped archive was taken, which is told once."""
        status, said = status_and_said
        self.assertEqual((status, len(said)), (0, 1), said)
        self.assertIn('took the shipped archive', said[0])
        self.assertEqual(self.repository.read(MADE), self.repository.read(SHIPPED + 'libcalls.a'))
        self.assertEqual(self.repository.called(), 1)

    def test_taken_without_rt(self):
        self.taken(self.repository.run('archive', rt=False))
        self.assertEqual(self.repository.run('archive', rt=False), (0, []))

    def test_taken_though_rt_is_there(self):
        self.taken(self.repository.run('archive'))

    def test_what_is_not_below_the_calls_does_not_matter(self):
        self.repository.change('crates/beside/src/lib.rt')
        self.repository.change('crates/low/must-fail/one.edit')
        self.repository.write('crates/low/src/.lib.rt.swp', b'an editor has it open')
        self.taken(self.repository.run('archive', rt=False))

    def test_other_sources_are_proved(self):
        for name in ('crates/low/specs/Low.antt', 'crates/middle/proofs/deep/Middle.antt', 'crates.txt'):
            self.repository.change(name)
        status, said = self.repository.run('archive', rt=False)
        self.assertEqual(status, 2)
        self.assertIn('the shipped archive is of other sources: crates.txt and 2 more differ', said[0])
        self.assertIn('rt is not in PATH', said[0])
        status, said = self.repository.run('archive')
        self.assertEqual((status, len(said)), (0, 1), said)
        self.assertRegex(said[0], r'^bindings/archive: proves 4 crates \(.*crates.txt and 2 more differ\): about (a second|\d+ seconds); .*target/archive.log$')
        self.assertIn(b'bindings/archive: middle proved (0 s)', self.repository.read('target/archive.log'))
        self.assertEqual(self.repository.run('archive', rt=False), (0, []))

    def test_a_new_source_and_one_less(self):
        self.repository.write('crates/low/src/more.rt', 'more\n')
        self.assertIn('crates/low/src/more.rt differs', self.repository.run('archive', rt=False)[1][0])
        os.remove(self.repository.path('crates/low/src/more.rt'))
        os.remove(self.repository.path('crates/low/specs/Low.antt'))
        self.assertIn('crates/low/specs/Low.antt differs', self.repository.run('archive', rt=False)[1][0])

    def broken(self, words):
        status, said = self.repository.run('archive', rt=False)
        self.assertEqual(status, 2)
        self.assertIn(words, said[0])
        self.assertFalse(os.path.exists(self.repository.path(MADE)))
        status, said = self.repository.run('archive')
        self.assertEqual(status, 0)
        self.assertIn(words, said[0])
        self.assertEqual(self.repository.called(), 2)

    def test_cut_short(self):
        self.repository.write(SHIPPED + 'libcalls.a', self.repository.read(SHIPPED + 'libcalls.a')[:-1])
        self.broken('damaged or cut short: it is not used')

    def test_damaged(self):
        archive = self.repository.read(SHIPPED + 'libcalls.a')
        self.repository.write(SHIPPED + 'libcalls.a', archive[:100] + bytes([archive[100] ^ 1]) + archive[101:])
        self.broken('damaged or cut short: it is not used')

    def test_no_archive(self):
        os.remove(self.repository.path(SHIPPED + 'libcalls.a'))
        self.broken('libcalls.a is missing: it is not used')

    def test_no_made_from(self):
        os.remove(self.repository.path(SHIPPED + 'made-from'))
        self.broken('made-from is missing: it is not used')

    def test_made_from_is_empty(self):
        self.repository.write(SHIPPED + 'made-from', '')
        self.broken('damaged or cut short: it is not used')

    def test_line_ends_of_another_system(self):
        self.repository.write(SHIPPED + 'made-from', self.repository.read(SHIPPED + 'made-from').replace(b'\n', b'\r\n'))
        self.broken('core.autocrlf false')

    def test_line_ends_of_another_system_in_a_source(self):
        self.repository.write('crates/low/src/lib.rt', 'low\r\n')
        self.assertIn('core.autocrlf false', self.repository.run('archive', rt=False)[1][0])

    def test_removed_and_so_not_trusted(self):
        self.assertEqual(self.repository.run('archive')[0], 0)
        self.repository.remove('prebuilt')
        status, said = self.repository.run('archive')
        self.assertEqual((status, self.repository.called()), (0, 2), said)
        self.assertEqual(self.repository.run('archive'), (0, []))

    def test_another_machine(self):
        self.repository.command('uname', '#!/bin/sh\necho Linux aarch64\n')
        status, said = self.repository.run('archive')
        self.assertEqual(status, 2)
        self.assertIn('this is Linux aarch64', said[0])

    def test_four_libraries_at_once_where_there_are_no_locks(self):
        self.repository.command('flock', '#!/bin/sh\nexit 1\n')
        processes = [self.repository.start(['library']) for _ in range(4)]
        said = [process.communicate(timeout=120)[1] for process in processes]
        self.assertEqual([process.returncode for process in processes], [0] * 4, said)
        self.assertIn(b'this file system has no locks', said[0])

    def test_words(self):
        for words in (['--prove'], ['--verify', 'more'], ['']):
            self.assertEqual(self.repository.run('archive', *words)[0], 2)


class Verified(unittest.TestCase):
    setUp = Shipped.setUp

    def test_the_same(self):
        # what stands in target/ is not what is compared
        self.assertEqual(self.repository.run('archive')[0], 0)
        status, said = self.repository.run('archive', '--verify')
        self.assertEqual((status, self.repository.called()), (0, 2), said)
        self.assertIn('the same byte for byte', said[-1])

    def test_another_archive_under_its_own_sum(self):
        sources = self.repository.read('crates/calls_c/src/lib.rt')
        self.repository.write('crates/calls_c/src/lib.rt', sources.replace(b'return 1', b'return 2'))
        self.assertEqual(self.repository.run('archive', '--refresh')[0], 0)
        self.repository.write('crates/calls_c/src/lib.rt', sources)
        made_from = self.repository.read(SHIPPED + 'made-from').splitlines()
        self.assertEqual(self.repository.run('archive', '--verify')[0], 1)
        honest = Repository()
        self.addCleanup(shutil.rmtree, honest.folder)
        self.assertEqual(honest.run('archive', '--refresh')[0], 0)
        lines = [line for line in honest.read(SHIPPED + 'made-from').splitlines() if not line.startswith(b'archive ')]
        forged = lines + [line for line in made_from if line.startswith(b'archive ')]
        self.repository.write(SHIPPED + 'made-from', b'\n'.join(forged) + b'\n')
        status, said = self.repository.run('archive', '--verify')
        self.assertEqual(status, 1)
        self.assertIn('the shipped archive is not what the prover writes', said[-1])

    def test_without_rt(self):
        status, said = self.repository.run('archive', '--verify', rt=False)
        self.assertEqual(status, 2)
        self.assertIn('rt is not in PATH', said[0])

    def test_other_sources(self):
        self.repository.change()
        status, said = self.repository.run('archive', '--verify')
        self.assertEqual((status, self.repository.called()), (1, 1))
        self.assertIn('crates/middle/src/lib.rt differs', said[0])
        self.assertEqual(self.repository.run('archive', '--refresh')[0], 0)
        self.assertEqual(self.repository.run('archive', '--verify')[0], 0)

    def test_what_is_told_of_it(self):
        lines = self.repository.read(SHIPPED + 'made-from').decode().splitlines()
        self.assertIn('toolchain stand-in 1', lines)
        self.assertEqual([line.split()[1] for line in lines if line.startswith('seconds ')], ['low', 'middle', 'calls_c', 'calls'])
        self.assertRegex('\n'.join(lines), r'(?m)^seconds low \d+$')
        named = {line.split()[2] for line in lines if line.startswith('source ')}
        self.assertEqual(named, {name for name in SOURCES if 'beside' not in name and 'must-fail' not in name})

    def test_earlier_times_are_kept(self):
        self.repository.write('target/archive.log', 'logic=proved functions=1\nbindings/archive: low proved (31 s)\n')
        self.repository.write('crates/low/out/rlib/stamp', '')
        self.assertEqual(self.repository.run('archive', '--refresh')[0], 0)
        self.assertRegex(self.repository.read(SHIPPED + 'made-from').decode(), r'\nseconds low 31\nseconds middle \d\n')

    def test_whether_it_is_proved(self):
        self.assertEqual(self.repository.run('archive', '--proved')[0], 1)
        self.assertEqual(self.repository.run('archive', '--verify')[0], 0)
        self.assertEqual(self.repository.run('archive', '--proved')[0], 0)
        self.assertIn('proves 1 crate (', self.repository.run('archive', '--verify')[1][0])
        self.assertEqual(self.repository.run('archive', '--proved', rt=False)[0], 1)
        # rt may have taken the library from another clone, where it is older
        os.utime(self.repository.path('crates/low/out/rlib/stamp'), (0, 0))
        self.assertEqual(self.repository.run('archive', '--proved')[0], 0)
        time.sleep(0.01)
        self.repository.change('crates/low/src/lib.rt')
        self.assertEqual(self.repository.run('archive', '--proved')[0], 1)


class Proved(unittest.TestCase):
    def setUp(self):
        self.repository = Repository()
        self.addCleanup(shutil.rmtree, self.repository.folder)

    def test_a_refusal_is_shown(self):
        for _ in range(2):
            status, said = self.repository.run('archive', RT_REFUSES='1')
            self.assertEqual(status, 1)
            self.assertIn('target/archive.log', said[1])
            self.assertIn('lib.rt:1:1: error: a fact does not hold', said[-1])
            self.assertFalse(os.path.exists(self.repository.path(MADE)))
        self.assertEqual(self.repository.run('archive')[0], 0)

    def test_sources_that_change_meanwhile(self):
        process = self.repository.start(['archive', '--refresh'], RT_SECONDS='1')
        while not os.path.exists(self.repository.path('target/archive.log')):
            time.sleep(0.05)
        self.repository.change()
        said = process.communicate(timeout=60)[1].decode()
        self.assertEqual(process.returncode, 1)
        self.assertIn('the sources changed while they were proved', said)
        self.assertFalse(os.path.exists(self.repository.path('prebuilt')))

    def test_progress_on_a_terminal(self):
        ours, theirs = pty.openpty()
        process = subprocess.Popen([self.repository.path('bindings/archive')], env=self.repository.environment(RT_SECONDS='1.6'),
                                   stderr=theirs, start_new_session=True)
        os.close(theirs)
        shown = b''
        try:
            while True:
                shown += os.read(ours, 4096)
        except OSError:
            pass  # the terminal's other end is closed
        os.close(ours)
        self.assertEqual(process.wait(timeout=60), 0)
        for line in (b'0 of 4 crates proved, about ', b'1 of 4 crates proved, about ', b'3 of 4 crates proved, about '):
            self.assertIn(line, shown)
        self.assertEqual(shown.count(b'\n'), 1, shown)

    def at_once(self, words, many=4, **more):
        processes = [self.repository.start(words, **more) for _ in range(many)]
        said = [process.communicate(timeout=120)[1] for process in processes]
        self.assertEqual([process.returncode for process in processes], [0] * many, said)

    def test_four_at_once(self):
        self.at_once(['archive'], RT_SECONDS='0.2')
        self.assertEqual(self.repository.called(), 1)

    def test_four_libraries_at_once(self):
        self.at_once(['library'])
        self.assertEqual(self.repository.called(), 1)
        left = sorted(os.listdir(self.repository.path('target/library/lib')))
        self.assertEqual(left, ['librolwyddac.a', 'librolwyddac.so', 'librolwyddac.so.1', 'librolwyddac.so.1.0.0', 'pkgconfig'])
        self.assertEqual([name for name in os.listdir(self.repository.path('target')) if name.startswith('library')], ['library'])
        # rt ci refuses a repository with a link in it
        self.assertEqual([at for at, _, files in os.walk(self.repository.path('target')) if any(os.path.islink(os.path.join(at, name)) for name in files)], [])

    def test_who_links_meanwhile_finds_a_whole_library(self):
        self.assertEqual(self.repository.run('library')[0], 0)
        self.repository.write('crates/calls_c/src/lib.rt', SOURCES['crates/calls_c/src/lib.rt'].replace('return 1', 'return 2'))
        before = self.repository.read('target/library/lib/librolwyddac.a')
        process = self.repository.start(['library'])
        while process.poll() is None:
            self.assertEqual(self.repository.read('target/library/lib/librolwyddac.a')[:8], b'!<arch>\n')
            self.assertEqual(self.repository.read('target/library/lib/librolwyddac.so')[:4], b'\x7fELF')
        self.assertEqual(process.wait(), 0, process.communicate()[1])
        self.assertNotEqual(self.repository.read('target/library/lib/librolwyddac.a'), before)

    def after(self, by, seconds):
        """A script that has the lock gets a signal while rt runs, which takes so many seconds a crate; how long the next one takes."""
        first = self.repository.start(['archive'], RT_SECONDS=seconds)
        while not os.path.exists(self.repository.path('target/archive.log')):
            time.sleep(0.05)
        time.sleep(0.5)
        first.send_signal(by)
        first.communicate(timeout=60)
        began = time.monotonic()
        self.assertEqual(self.repository.run('archive')[0], 0)
        return time.monotonic() - began

    def test_one_that_is_ended_ends_its_proof(self):
        for by in (signal.SIGTERM, signal.SIGINT, signal.SIGHUP):
            with self.subTest(by):
                self.repository.remove('target')
                self.assertLess(self.after(by, '30'), 10)

    def test_one_that_is_killed_blocks_no_longer_than_its_proof(self):
        self.assertLess(self.after(signal.SIGKILL, '1'), 10)


if __name__ == '__main__':
    unittest.main()
