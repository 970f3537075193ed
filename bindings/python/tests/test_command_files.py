"""Files of the command: written whole or not at all; signals, pipes and disks; names that would steer a terminal."""

import os
import pty
import resource
import signal
import stat
import subprocess
import sys
import threading
import time
import unittest
from unittest import mock

from command_support import BASIN, SMALL, START, InFolder, content_of, environment, heeded, setUpModule  # noqa: F401
from rolwyddac.command import files, texts
from rolwyddac.command.faults import FileFault
from rolwyddac.command.texts import shown


# seconds after which a test gives up
PATIENCE = 30

# seconds after which a command that has opened its pipe waits in its read
SETTLED = 0.2


class Whole(InFolder):

    def parts(self):
        """What is left of files half written."""
        return [name for name in os.listdir(self.folder) if name.endswith('.part')]

    def test_mode_and_owner_are_kept(self):
        path = self.put('a', 'old')
        os.chmod(path, 0o640)
        if os.getuid() == 0:
            os.chown(path, 4321, 1234)
        before = os.stat(path)
        files.write(path, b'new')
        after = os.stat(path)
        self.assertEqual((after.st_mode, after.st_uid, after.st_gid), (before.st_mode, before.st_uid, before.st_gid))
        self.assertNotEqual(after.st_ino, before.st_ino)
        self.assertEqual((content_of(path), self.parts()), (b'new', []))

    def test_new_file_has_the_mask(self):
        before = os.umask(0o027)
        self.addCleanup(os.umask, before)
        files.write(self.path('a'), b'new')
        self.assertEqual(stat.S_IMODE(os.stat(self.path('a')).st_mode), 0o640)

    def test_links_are_followed(self):
        self.put('file', 'old')
        os.symlink('file', self.path('link'))
        os.symlink('link', self.path('again'))
        files.write(self.path('again'), b'new')
        self.assertEqual((content_of(self.path('file')), os.readlink(self.path('link'))), (b'new', 'file'))
        os.symlink('none', self.path('empty'))
        files.write(self.path('empty'), b'new')
        self.assertEqual((content_of(self.path('none')), os.readlink(self.path('empty'))), (b'new', 'none'))
        os.symlink('round', self.path('round'))
        with self.assertRaisesRegex(FileFault, 'round: Too many levels of symbolic links'):
            files.write(self.path('round'), b'new')

    def test_a_name_that_is_taken(self):
        """Nobody's file is written over, not even where it has the name of a part."""
        self.put('.rolwyddac-%d-0.part' % os.getpid(), 'mine')
        os.symlink('elsewhere', self.path('.rolwyddac-%d-1.part' % os.getpid()))
        files.write(self.path('a'), b'new')
        self.assertEqual(content_of(self.path('.rolwyddac-%d-0.part' % os.getpid())), b'mine')
        self.assertFalse(os.path.exists(self.path('elsewhere')))

    def test_pipes_and_devices(self):
        os.mkfifo(self.path('pipe'))
        read = []
        reader = threading.Thread(target=lambda: read.append(content_of(self.path('pipe'))), daemon=True)
        reader.start()
        files.write(self.path('pipe'), b'through')
        reader.join(PATIENCE)
        self.assertEqual((read, stat.S_ISFIFO(os.stat(self.path('pipe')).st_mode)), ([b'through'], True))
        files.write('/dev/null', b'away')
        self.assertTrue(stat.S_ISCHR(os.stat('/dev/null').st_mode))
        with self.assertRaisesRegex(FileFault, '/dev/full: No space left on device'):
            files.write('/dev/full', b'much')

    def test_standard_output_by_another_name(self):
        """A file that standard output goes to is not put out of the way."""
        recipe, out = self.put('r', SMALL), self.put('out', 'before\n')
        with open(out, 'ab') as file:
            self.ends(0, 'recipe', recipe, '--show', '-o', '/dev/stdout', stdout=file)
        self.assertTrue(content_of(out).startswith(b'before\nshift = 0\n'))

    def test_faults_leave_the_file(self):
        """At whatever step something fails, the old file is there and no part is left."""
        path = self.put('a', 'old')
        for step in ('write', 'fsync', 'rename'):
            with mock.patch.object(files.os, step, side_effect=OSError(28, 'x')), self.assertRaisesRegex(FileFault, 'a: No space left on device'):
                files.write(path, b'new')
            self.assertEqual((content_of(path), self.parts()), (b'old', []), step)
        with self.assertRaisesRegex(FileFault, 'Is a directory'):
            files.write(self.folder, b'new')
        with self.assertRaisesRegex(FileFault, 'No such file or directory'):
            files.write(self.path('none/a'), b'new')
        with self.assertRaisesRegex(FileFault, 'no file can have this name'):
            files.write('a\0b', b'new')

    @unittest.skipIf(os.getuid() == 0, 'root may write everywhere')
    def test_what_may_not_be_written(self):
        path = self.put('a', 'old')
        os.chmod(path, 0o444)
        with self.assertRaisesRegex(FileFault, 'Permission denied'):
            files.write(path, b'new')

    def test_full_disk(self):
        """A file larger than may be written: told, status 3, the old one stays."""
        out = self.put('h.asc', 'old')

        def small():
            signal.signal(signal.SIGXFSZ, signal.SIG_IGN)
            resource.setrlimit(resource.RLIMIT_FSIZE, (4096, 4096))

        self.ends(3, 'chart', BASIN, '--source', self.put('s', bytes(4 * 4800)), '--out', out, told='h.asc: File too large', preexec_fn=small)
        self.assertEqual((content_of(out), self.parts()), (b'old', []))
        with open('/dev/full', 'wb') as full:
            self.ends(3, 'plan', BASIN, stdout=full, told='standard output: No space left on device')
            self.ends(3, '--help', stdout=full, told='standard output: No space left on device')
        self.ends(3, 'plan', BASIN, told='standard output: Bad file descriptor', preexec_fn=lambda: os.close(1))

    def test_signals_wait_for_the_file(self):
        """A signal in the midst of it ends the command after the file is in its place."""
        path = self.put('a', 'old')
        rename, ended = os.rename, []
        self.addCleanup(signal.signal, signal.SIGTERM, signal.signal(signal.SIGTERM, lambda *_: ended.append(content_of(path))))

        def slow(*names):
            os.kill(os.getpid(), signal.SIGTERM)
            time.sleep(0.05)
            self.assertEqual(ended, [])
            rename(*names)

        with mock.patch.object(files.os, 'rename', slow):
            files.write(path, b'new')
        self.assertEqual((ended, self.parts()), ([b'new'], []))


class Ends(InFolder):

    def started(self, *words, **more):
        return subprocess.Popen([*START, *words], stderr=subprocess.PIPE, env=environment(), **more)

    def opened(self, child):
        """The pipe that the command reads its source from, once it has opened it: then it is running."""
        ends = time.monotonic() + PATIENCE
        while True:
            try:
                return os.fdopen(os.open(self.path('fifo'), os.O_WRONLY | os.O_NONBLOCK), 'wb')
            except OSError:
                if child.poll() is not None or time.monotonic() > ends:
                    self.fail('the command does not read: %s' % child.communicate()[1])
                time.sleep(0.01)

    def test_broken_pipe(self):
        """Quiet, and ended by the signal, as a shell tells it."""
        for words in (['plan', BASIN], ['--man'], ['rounds', BASIN, '--svg', '-']):
            reading, writing = os.pipe()
            os.close(reading)
            child = self.started(*words, stdout=writing)
            os.close(writing)
            self.assertEqual((child.communicate()[1], child.returncode), (b'', -signal.SIGPIPE))

    def test_ended_by_a_signal(self):
        """Nothing is said, nothing is left, and the status is the signal's."""
        for number in (signal.SIGINT, signal.SIGTERM, signal.SIGHUP):
            out = self.path('out.asc')
            os.path.exists(self.path('fifo')) or os.mkfifo(self.path('fifo'))
            with heeded(number):
                child = self.started('chart', BASIN, '--source', self.path('fifo'), '--out', out, stdout=subprocess.PIPE)
            with self.opened(child):
                # Python heeds a signal between two steps of its own: one that comes just before the read begins waits for the read's end
                time.sleep(SETTLED)
                child.send_signal(number)
                self.assertEqual((child.communicate(timeout=PATIENCE), child.returncode), ((b'', b''), -number))
            self.assertFalse(os.path.exists(out))

    def test_a_signal_that_is_ignored(self):
        os.mkfifo(self.path('fifo'))
        child = self.started('chart', BASIN, '--source', self.path('fifo'), '--out', '-', stdout=subprocess.PIPE,
                             preexec_fn=lambda: signal.signal(signal.SIGHUP, signal.SIG_IGN))
        with self.opened(child) as fifo:
            child.send_signal(signal.SIGHUP)
            os.set_blocking(fifo.fileno(), True)
            fifo.write(bytes(4 * 4800))
        self.assertEqual((child.communicate(timeout=PATIENCE)[0][:9], child.returncode), (b'ncols 80\n', 0))


class Shown(InFolder):

    def test_names(self):
        for name, wanted in (('a b', 'a b'), ('a\nb', 'a\\nb'), ('\x1b[2J', '\\x1b[2J'), ('über', 'über'), ('\udcff', '\\xff'), ('\u202e', '\\u202e'),
                             ('\x9b', '\\x9b'), ('\u2028', '\\u2028')):
            self.assertEqual(shown(name), wanted)

    def test_command(self):
        """In what is told of files, of words and of keys."""
        self.ends(3, 'plan', 'a\x1b]0;x\x07\nb', told='a\\x1b]0;x\\x07\\nb: No such file')
        self.ends(3, 'plan', os.fsdecode(b'\xff\n'), told='\\xff\\n: No such file')
        self.ends(2, 'plan', BASIN, '--\x1b', told="unrecognized arguments: --\\x1b")
        self.ends(2, 'check', BASIN, '--seed', '\x1b[1m', told='argument --seed: `\\x1b[1m` is no whole number')
        self.ends(2, 'plan', '-', '-', told='unrecognized')
        self.ends(2, 'chart', '-', '--source', '-', '--out', '-', given=SMALL.encode(), told='standard input is named twice')

    def test_a_locale_without_letters(self):
        """What is told has letters beyond ASCII, and goes out whatever the locale is."""
        for more in ({'LC_ALL': 'C', 'PYTHONUTF8': '0', 'PYTHONCOERCECLOCALE': '0'}, {'PYTHONIOENCODING': 'ascii'}):
            self.ends(1, 'plan', self.put('r', SMALL.replace('length = 4', 'length = 999').replace('length = 1', 'length = 99')), env=more,
                      told='999 × 99 = 98901 cells')


class Bars(unittest.TestCase):

    def test_on_a_terminal_alone(self):
        """After a second, on a terminal; the line is gone at the end; nothing goes to a file."""
        program = ('from rolwyddac.command import texts\ntexts._SHOWN_AFTER, texts._SHOWN_EVERY = -1.0, 0.0\n'
                   'with texts.Bar("checking", 4) as bar:\n    bar.at(1)\n    bar.at(4)\n')
        master, terminal = pty.openpty()
        subprocess.run([sys.executable, '-c', program], stderr=terminal, env=environment(), check=True)
        os.close(terminal)
        written = b''
        while True:
            try:
                more = os.read(master, 4096)
            except OSError:
                break
            if not more:
                break
            written += more
        os.close(master)
        self.assertEqual(written, b'\rchecking [%s%s]  25 %%\rchecking [%s] 100 %%\r\x1b[K' % (b'#' * 7, b' ' * 23, b'#' * 30))
        done = subprocess.run([sys.executable, '-c', program], stderr=subprocess.PIPE, env=environment(), check=True)
        self.assertEqual(done.stderr, b'')
        self.assertEqual(texts._SHOWN_AFTER, 1.0)


if __name__ == '__main__':
    unittest.main()
