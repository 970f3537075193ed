"""The command's words: help, examples, man page, completion, docs/COMMAND.md, the script at the root."""

import os
import re
import shlex
import shutil
import subprocess
import sys
import unittest

from command_support import BASIN, HAS_BOARDS, ROOT, SMALL, START, InFolder, content_of, environment, setUpModule  # noqa: F401
from support import rolwyddac

import command_page  # noqa: I001
from rolwyddac.command import pages, parser

PAGE = content_of(command_page.PAGE).decode()
CHECKED_OUT = os.path.isfile(os.path.join(ROOT, 'rolwyddac')) and not os.environ.get('ROLWYDDAC_INSTALLED')


class Words(InFolder):

    def run_line(self, line):
        """A line as a shell runs it, in a folder that has data/."""
        os.path.exists(self.path('data')) or os.symlink(os.path.join(ROOT, 'data'), self.path('data'))
        os.makedirs(self.path('bin'), exist_ok=True)
        self.put('bin/rolwyddac', '#!/bin/sh\nexec %s "$@"\n' % ' '.join(map(shlex.quote, START)))
        os.chmod(self.path('bin/rolwyddac'), 0o755)
        path = self.path('bin') + os.pathsep + os.environ['PATH']
        return subprocess.run(['sh', '-euc', line], cwd=self.folder, env=environment(PATH=path), stdout=subprocess.PIPE, stderr=subprocess.PIPE)

    def test_help_has_an_example_that_runs(self):
        for name, module in parser.SUBCOMMANDS.items():
            helped = self.ends(0, name, '--help').decode()
            self.assertIn('example:\n  rolwyddac %s ' % name, helped)
            self.assertIn(module.EXAMPLE, helped)
            if name == 'boards' and not HAS_BOARDS:
                continue
            done = self.run_line(module.EXAMPLE)
            # where libsodium is missing the boards' build says so
            told = [line for line in done.stderr.splitlines() if not line.startswith(b'bindings/boards/build: no libsodium')]
            self.assertEqual((done.returncode, told), (0, []), module.EXAMPLE)
            for out in re.findall(r'(?:-o|--out|--svg) (\S+)', module.EXAMPLE):
                self.assertGreater(os.path.getsize(self.path(out)), 0)

    def test_page_is_the_parsers(self):
        self.assertEqual(command_page.filled(PAGE), PAGE)
        self.assertNotEqual(command_page.filled(PAGE.replace('`--svg FILE`', '`--picture FILE`')), PAGE.replace('`--svg FILE`', '`--picture FILE`'))
        self.assertEqual([line for line in PAGE.splitlines() if len(line) > 100], [])

    def test_usage(self):
        self.ends(2, told='the following arguments are required: SUBCOMMAND')
        self.ends(2, 'swim', told='invalid choice')
        self.ends(2, 'plan', '--jso', BASIN, told='unrecognized arguments: --jso')
        self.assertEqual(self.ends(0, '--version').decode(), 'rolwyddac %s (library %s)\n' % (rolwyddac.__version__, rolwyddac.version()))


class Pages(InFolder):

    def test_man(self):
        """Each option and each subcommand stands in the page, and man takes it without a warning."""
        page = self.ends(0, '--man').decode()
        for name, sub in pages.subcommands(parser.parser_of()).items():
            self.assertIn('\n.SH %s\n' % name.upper(), page)
            for written, _ in pages.options(sub):
                self.assertIn('.B ' + written.replace('-', '\\-') + '\n', page)
        if shutil.which('groff'):
            done = subprocess.run(['groff', '-man', '-Tascii', '-ww', '-P-c'], input=page.encode(), stdout=subprocess.PIPE, stderr=subprocess.PIPE)
            self.assertEqual(done.stderr, b'')
            # bold letters are struck twice
            self.assertTrue(b'\n       --soundings FILE ..\n' in re.sub(rb'.\x08', b'', done.stdout))

    @unittest.skipUnless(shutil.which('bash'), 'no bash')
    def test_completion(self):
        script = self.put('completion', self.ends(0, '--completion', 'bash'))
        for line, wanted in (('rolwyddac pl', 'plan'), ('rolwyddac chart --sou', '--soundings --source'), ('rolwyddac plan r --route ', 'direct indirect'),
                             ('rolwyddac plan r --route i', 'indirect'), ('rolwyddac --comp', '--completion'), ('rolwyddac plan ba', ''),
                             ('rolwyddac boards --see', '--seed')):
            words = line.split(' ')
            asked = 'set -u; . %s; COMP_WORDS=(%s); COMP_CWORD=%d; _rolwyddac; echo "${COMPREPLY[*]-}"' % (
                shlex.quote(script), ' '.join(map(shlex.quote, words)), len(words) - 1)
            done = subprocess.run(['bash', '-c', asked], stdout=subprocess.PIPE, stderr=subprocess.PIPE)
            self.assertEqual((done.stdout.decode().split(), done.stderr), (wanted.split(), b''), line)
        if shutil.which('shellcheck'):
            subprocess.run(['shellcheck', '-s', 'bash', script], check=True)


@unittest.skipUnless(CHECKED_OUT, 'no clone')
class Script(InFolder):

    def ran(self, *words, name=os.path.join(ROOT, 'rolwyddac'), **more):
        return subprocess.run([name, *words], stdout=subprocess.PIPE, stderr=subprocess.PIPE, cwd=self.folder,
                              env={**environment(PYTHON=sys.executable), **more})

    def test_from_anywhere(self):
        """By a link too, and where the folder has files with the names of modules."""
        for name in ('csv.py', 'tomllib.py', 'sys.py', 'signal.py'):
            self.put(name, 'raise SystemExit(9)\n')
        os.mkdir(self.path('rolwyddac'))
        os.symlink(os.path.join(ROOT, 'rolwyddac'), self.path('a link'))
        done = self.ran('recipe', '--show', self.put('r', SMALL), name=self.path('a link'))
        self.assertEqual((done.returncode, done.stderr, done.stdout[:10]), (0, b'', b'shift = 0\n'))

    @unittest.skipUnless(shutil.which('shellcheck'), 'no shellcheck')
    def test_layout(self):
        subprocess.run(['shellcheck', os.path.join(ROOT, 'rolwyddac')], check=True)

    def test_words_are_kept(self):
        self.put('a  b', SMALL)
        self.assertEqual(self.ran('rounds', 'a  b').returncode, 0)

    def test_faults(self):
        for more, told in (({'PYTHON': 'no-python'}, b'no-python is no Python 3.9 or later'), ({'ROLWYDDAC_LIB': self.folder}, b'has no librolwyddac.a')):
            done = self.ran('numbers', **more)
            self.assertEqual((done.returncode, told in done.stderr), (2, True), done.stderr)
        self.put('librolwyddac.a', '')
        done = self.ran('numbers', ROLWYDDAC_LIB=self.folder)
        self.assertEqual((done.returncode, b'has no librolwyddac.so' in done.stderr), (2, True), done.stderr)


if __name__ == '__main__':
    unittest.main()
