"""Holds bindings/boards/run and build to what they say: a program is built when what it is made of has changed, and only then. Run as

    python3 bindings/boards/check_build.py

with the folder of librolwyddac.a in ROLWYDDAC_LIB. It works on a copy of the sources, with a compiler that counts. The last line is `N builds, 0 wrong`.
"""

import os
import shutil
import subprocess
import sys
import tempfile

sys.dont_write_bytecode = True
HERE = os.path.dirname(os.path.abspath(__file__))


class Tree:
    """A copy of the sources and of the library, built by a compiler that counts how often it links."""

    def __init__(self, scratch):
        self.builds = self.wrong = 0
        self.scratch = scratch
        bindings = os.path.join(scratch, 'bindings')
        shutil.copytree(HERE, os.path.join(bindings, 'boards'), ignore=shutil.ignore_patterns('__pycache__'))
        shutil.copytree(os.path.join(HERE, '..', 'c'), os.path.join(bindings, 'c'))
        shutil.copy(os.path.join(HERE, '..', 'folder'), bindings)
        self.library = os.path.join(scratch, 'lib')
        os.mkdir(self.library)
        shutil.copy(os.path.join(os.environ['ROLWYDDAC_LIB'], 'librolwyddac.a'), self.library)
        self.compiler = self.write('cc', '#!/bin/sh\ncase "$*" in *--version*|*-E*) ;; *) echo >> "%s/count"; sleep "${SLOW:-0}" ;; esac\nexec "%s" "$@" -O0\n' % (
            scratch, shutil.which(os.environ.get('CC', 'cc'))))
        os.chmod(self.compiler, 0o755)

    def write(self, name, text, mode='w'):
        with open(os.path.join(self.scratch, name), mode, encoding='utf-8') as file:
            file.write(text)
        return os.path.join(self.scratch, name)

    def start(self, script, *arguments, **environment):
        given = dict(os.environ, CC=self.compiler, ROLWYDDAC_LIB=self.library, CFLAGS='')
        given.update(environment)
        command = [os.path.join(self.scratch, 'bindings', 'boards', script)] + list(arguments)
        return subprocess.Popen(command, cwd=self.scratch, env=given, stdout=subprocess.PIPE, stderr=subprocess.PIPE, text=True)

    def builds_so_often(self, what, times, *started):
        """All that were started end with the status 0, and linked so often together."""
        for process in started:
            self.builds += 1
            out, said = process.communicate()
            if process.returncode != 0 or (process.args[-1] == '--version' and not out.startswith('boards, ')):
                self.wrong += 1
                print('%s: status %d\n%s%s' % (what, process.returncode, out, said))
        count = os.path.join(self.scratch, 'count')
        found = 0
        if os.path.exists(count):
            with open(count, encoding='utf-8') as file:
                found = len(file.readlines())
            os.remove(count)
        if found != times:
            self.wrong += 1
            print('%s: linked %d times, not %d' % (what, found, times))


def main():
    with tempfile.TemporaryDirectory() as scratch:
        tree = Tree(scratch)
        once = ['target/boards', 'plain', 'sockets']
        tree.builds_so_often('first', 1, tree.start('build', *once))
        tree.builds_so_often('the same', 0, tree.start('build', *once))
        tree.builds_so_often('run', 0, tree.start('run', '--version'))
        tree.builds_so_often('other flags', 1, tree.start('build', *once, CFLAGS='-O1'))
        tree.builds_so_often('the flags before', 1, tree.start('build', *once))
        for name in ('bindings/boards/board.c', 'bindings/boards/plan.h', 'bindings/boards/mpi/mpi.c', 'bindings/c/rolwyddac.h'):
            tree.write(name, '\n/* changed */\n', 'a')
            tree.builds_so_often('changed: ' + name, 1, tree.start('build', *once))
            tree.builds_so_often('unchanged: ' + name, 0, tree.start('build', *once))
        subprocess.run(['ar', 'q', os.path.join(tree.library, 'librolwyddac.a'), tree.write('another', 'more')], check=True)
        tree.builds_so_often('changed: the library', 1, tree.start('build', *once))
        tree.write('target/boards/boards', 'damaged')
        tree.builds_so_often('a program that is damaged', 1, tree.start('build', *once))
        os.remove(os.path.join(scratch, 'target', 'boards', 'boards.sum'))
        at_once = [tree.start('build', *once, SLOW='0.5') for _ in range(3)]
        tree.builds_so_often('three at once', 1 if shutil.which('flock') else 3, *at_once)
        left = sorted(set(os.listdir(os.path.join(scratch, 'target', 'boards'))) - {'boards', 'boards.sum', 'lock'})
        if left:
            tree.wrong += 1
            print('left beside the program: %s' % left)
        print('%d builds, %d wrong' % (tree.builds, tree.wrong))
        return 1 if tree.wrong else 0


if __name__ == '__main__':
    sys.exit(main())
