"""Holds the program boards to its manual about the place it is started in: strangers' processes, signals, files of every kind, limits. Run as

    python3 bindings/boards/check_host.py FOLDER

with the folder of a program over sockets that is linked with faults.c, as for check.py. The last line is `N runs, 0 wrong`; status 1 where one is
wrong. What needs a right or a tool that is not there is named, and not run.
"""

import os
import re
import resource
import shutil
import signal
import stat
import subprocess
import sys
import tempfile
import time

sys.dont_write_bytecode = True
sys.path.insert(0, os.path.dirname(os.path.abspath(__file__)))
from check import COUNTS, DONE, FILE, OLD, TIMEOUT, USAGE, bed, model, words_of  # noqa: E402

ROW = model.ROWS['A']
PLAN = model.plan_of(ROW)[1]
GRID = words_of(PLAN.swept(bed(1, PLAN.cells)))
DONE_LINE = 'boards %d messages %d words %d: done, equal to the sweep' % (PLAN.boards, len(PLAN.messages), PLAN.words)
# 64 boards, as many as there can be
MOST = model.encode([16, 16, 4], [2, 2, 4], [8, 8, 0], [(1, 0, 0), (0, 1, 0), (1, 1, 1)])
# a user and a group that have no rights
NOBODY = 65534
# seconds after which a run that should have ended long ago is given up
GIVEN_UP = 30


class Host:
    """Runs of one program, each in a new folder that has the recipe of row A."""

    def __init__(self, folder, scratch):
        self.program = shutil.copy(os.path.join(folder, 'boards'), scratch)
        self.scratch = scratch
        self.folder = None
        self.runs = self.wrong = 0

    def path(self, name):
        return os.path.join(self.folder, name)

    def fresh(self):
        self.folder = tempfile.mkdtemp(dir=self.scratch)
        os.chmod(self.scratch, 0o755)
        os.chmod(self.folder, 0o755)
        self.put('recipe', ROW)

    def put(self, name, content):
        with open(self.path(name), 'wb') as file:
            file.write(content)
        return self.path(name)

    def got(self, name):
        """What a file has; nothing where there is none."""
        try:
            with open(self.path(name), 'rb') as file:
                return file.read()
        except OSError:
            return b''

    def files(self):
        """The names of all files, from the folder on."""
        return sorted(os.path.relpath(os.path.join(at, name), self.folder) for at, _, names in os.walk(self.folder) for name in names)

    def as_nobody(self, before=None):
        """What makes a process one without rights, if this one has any; the folder is then its."""
        root = os.geteuid() == 0
        if root:
            os.chown(self.folder, NOBODY, NOBODY)

        def become():
            if before:
                before()
            if root:
                os.setgroups([])
                os.setgid(NOBODY)
                os.setuid(NOBODY)
        return become

    def arguments(self, *more):
        return [self.program, self.path('recipe'), '--seed', '1'] + list(more)

    def run(self, command, fault='', **given):
        """Runs a command in the folder; one that does not end is ended, and has the status None."""
        self.runs += 1
        environment = dict(os.environ, **dict(item.split('=', 1) for item in fault.split()))
        given.setdefault('stdout', subprocess.PIPE)
        given.setdefault('stderr', subprocess.PIPE)
        try:
            return subprocess.run(command, cwd=self.folder, env=environment, timeout=GIVEN_UP, check=False, **given)
        except subprocess.TimeoutExpired:
            return subprocess.CompletedProcess(command, None, b'', b'it did not end')

    def holds(self, what, truth, ran):
        if truth:
            return
        self.wrong += 1
        print('%s: status %s\n  stdout %r\n  stderr %r\n  files %s' % (
            what, ran.returncode, (ran.stdout or b'')[:300], (ran.stderr or b'')[:600], sorted(os.listdir(self.folder))))

    def fails(self, what, said, ran, status=FILE):
        """It ended with the status, and told it in one line."""
        self.holds(what, ran.returncode == status and ran.stderr.decode() == 'boards: %s\n' % said, ran)

    def swept(self, what, ran, grid='grid', said=''):
        """It ended well, said so in its line, and the grid is there and nothing else that was not."""
        self.holds(what, ran.returncode == DONE and is_line(ran.stdout, said or ', grid in %s' % grid) and not ran.stderr and self.got(grid) == GRID, ran)


def is_line(out, more):
    """Is that the line of a run that ended well, with this behind it?"""
    return re.fullmatch(re.escape(DONE_LINE + more) + COUNTS + '\n', out.decode())


def check_strangers(host):
    """Children that the process was given, and did not start."""
    for children, times in (('sleep 0.01 &', 10), ('(exit 6) &', 10), ('(exit 0) & (exit 1) & sleep 20 &', 1)):
        for _ in range(times):
            host.fresh()
            # the child must not keep the pipes open, by which the end of the run is told
            script = '{ %s } > /dev/null 2>&1; exec "$@"' % children
            ran = host.run(['sh', '-c', script, 'sh'] + host.arguments('--grid', 'grid'))
            host.swept('a stranger: ' + children, ran)
    for _ in range(5):
        host.fresh()
        first = ['unshare', '--user', '--map-root-user', '--pid', '--fork', 'sh', '-c', 'sleep 0.01 & exec "$@"', 'sh']
        if host.run(first[:5] + ['true']).returncode != 0:
            print('not run as the first process of a container: unshare may not make one here')
            break
        host.swept('a stranger, as the first process', host.run(first + host.arguments('--grid', 'grid')))


def check_ignored_children(host):
    """Started where the end of a child is ignored, as some services start their programs."""
    host.fresh()
    ran = host.run(host.arguments('--grid', 'grid'), preexec_fn=lambda: signal.signal(signal.SIGCHLD, signal.SIG_IGN))
    host.swept('SIGCHLD ignored', ran)


def check_command_line(host):
    """Options behind the recipe wherever it is started; whole names alone."""
    host.fresh()
    host.swept('POSIXLY_CORRECT', host.run(host.arguments('--grid', 'grid'), 'POSIXLY_CORRECT=1'))
    host.fresh()
    host.swept('values behind =', host.run([host.program, '--seed=1', '--grid=grid', '--', host.path('recipe')]))
    none = ': no such option; --help lists them'
    for word, said in (('--no', '--no' + none), ('--time', '--time' + none), ('-x', '-x' + none),
                       ('--no-verify=1', '--no-verify=1: this option has no value'), ('--grid', '--grid: its value is missing')):
        host.fresh()
        host.fails('option ' + word, said, host.run(host.arguments(word)), USAGE)


def check_pipes(host):
    """Standard output that nobody reads: told as what it is."""
    host.fresh()
    reads, writes = os.pipe()
    os.close(reads)
    ran = host.run(host.arguments('--grid', 'grid'), stdout=writes)
    host.fails('nobody reads the line', "can't write to standard output: Broken pipe", ran)
    host.holds('nobody reads the line', host.got('grid') == GRID, ran)
    host.fails('nobody reads the grid', "can't write standard output: Broken pipe", host.run(host.arguments('--grid', '-'), stdout=writes))
    ran = host.run(host.arguments('--grid', 'grid'), stderr=writes)
    host.holds('nobody reads what is told', ran.returncode == DONE, ran)
    os.close(writes)


def check_closed_files(host):
    """Standard input, output or error closed at the start: no socket takes their place."""
    for closed, status in (((0,), DONE), ((2,), DONE), ((0, 2), DONE), ((1,), FILE), ((0, 1, 2), FILE)):
        host.fresh()
        ran = host.run(['sh', '-c', 'exec "$@" ' + ' '.join('%d>&-' % file for file in closed), 'sh'] + host.arguments('--grid', 'grid'))
        host.holds('closed: %s' % (closed,), ran.returncode == status and host.got('grid') == GRID and (status != DONE or ran.stdout), ran)
        if closed == (1,):
            host.fails('closed: 1', "can't write to standard output: Bad file descriptor", ran)
    # what is told goes nowhere, and to no board
    host.fresh()
    ran = host.run(['sh', '-c', 'exec "$@" 0>&- 1>&- 2>&-', 'sh'] + host.arguments('--grid', 'grid', '--timeout', '0.5'), 'BOARDS_FAULT=mute:0')
    host.holds('closed, and something to tell', ran.returncode == TIMEOUT and not host.got('grid'), ran)


def check_links(host):
    """A grid's name that is a link: the file it leads to is written, the link stays."""
    for what, target, old in (('a link', 'target', OLD), ('a link to another folder', 'other/target', OLD), ('a link to nothing yet', 'other/target', None)):
        host.fresh()
        os.mkdir(host.path('other'))
        if old:
            host.put(target, old)
        os.symlink(target, host.path('second'))
        os.symlink(host.path('second'), host.path('grid'))
        before = set(host.files()) | {target}
        ran = host.run(host.arguments('--grid', 'grid'))
        host.swept(what, ran)
        host.holds(what, os.path.islink(host.path('grid')) and host.got(target) == GRID and set(host.files()) == before, ran)
    host.fresh()
    os.symlink('grid', host.path('grid'))
    host.fails('a link to itself', "can't write grid: Too many levels of symbolic links", host.run(host.arguments('--grid', 'grid')))


def check_no_regular_files(host):
    """Pipes and devices are written to, and nothing is put in their place. By one without rights: a program that does so must not do it in /dev."""
    host.fresh()
    os.mkfifo(host.path('grid'))
    with subprocess.Popen(['cat', host.path('grid')], stdout=subprocess.PIPE) as reader:
        ran = host.run(host.arguments('--grid', 'grid'))
        still = stat.S_ISFIFO(os.stat(host.path('grid')).st_mode)
        if not still:
            reader.kill()
        host.holds('a pipe with a name', still and reader.stdout.read() == GRID and ran.returncode == DONE, ran)
    host.fresh()
    os.symlink('/dev/full', host.path('full'))
    ran = host.run(host.arguments('--grid', 'full'), preexec_fn=host.as_nobody())
    host.fails('a full device', "can't write full: No space left on device", ran)
    host.fresh()
    os.symlink('/dev/null', host.path('null'))
    ran = host.run(host.arguments('--grid', 'null'), preexec_fn=host.as_nobody())
    host.holds('a device', ran.returncode == DONE and os.path.islink(host.path('null')), ran)
    host.fresh()
    with open(host.path('removed'), 'w+b') as removed:
        os.fchmod(removed.fileno(), 0o666)
        os.remove(removed.name)
        os.symlink('/dev/fd/%d' % removed.fileno(), host.path('open'))
        ran = host.run(host.arguments('--grid', 'open'), pass_fds=[removed.fileno()], preexec_fn=host.as_nobody())
        host.holds('a file that is open and removed', ran.returncode == DONE and removed.read() == GRID and host.files() == ['open', 'recipe'], ran)


def check_rights(host):
    """Mode and owner of a file that is there are kept; a new one has the mask's."""
    for mode in (0o640, 0o604, 0o4711):
        host.fresh()
        host.put('grid', OLD)
        if os.geteuid() == 0:
            os.chown(host.path('grid'), 12345, 12346)
        os.chmod(host.path('grid'), mode)
        before = os.stat(host.path('grid'))
        ran = host.run(host.arguments('--grid', 'grid'))
        after = os.stat(host.path('grid'))
        host.swept('mode %o' % mode, ran)
        host.holds('mode %o' % mode, (before.st_mode, before.st_uid, before.st_gid) == (after.st_mode, after.st_uid, after.st_gid), ran)
    for mask in (0o022, 0o077):
        host.fresh()
        ran = host.run(host.arguments('--grid', 'grid'), preexec_fn=lambda mask=mask: os.umask(mask))
        host.holds('mask %o' % mask, os.stat(host.path('grid')).st_mode & 0o777 == 0o666 & ~mask, ran)
    host.fresh()
    host.put('grid', OLD)
    os.chmod(host.path('grid'), 0o444)
    ran = host.run(host.arguments('--grid', 'grid'), preexec_fn=host.as_nobody())
    host.fails('a file not to be written', "can't write grid: Permission denied", ran)
    host.holds('a file not to be written', host.got('grid') == OLD, ran)
    # the process may not give the file away, nor its group: these have no more rights than before
    host.fresh()
    host.put('grid', OLD)
    os.chmod(host.path('grid'), 0o666)
    if os.geteuid() == 0:
        ran = host.run(host.arguments('--grid', 'grid'), preexec_fn=host.as_nobody())
        host.swept("another's file", ran)
        host.holds("another's file", os.stat(host.path('grid')).st_mode & 0o7777 == 0o666, ran)


def check_output(host):
    """The grid on standard output: nothing else is there, and the line goes to standard error."""
    for grid in ('-', 'output'):
        host.fresh()
        os.symlink('/dev/stdout', host.path('output'))
        ran = host.run(host.arguments('--grid', grid), preexec_fn=host.as_nobody())
        said = ', grid on standard output'
        host.holds('grid to ' + grid, ran.returncode == DONE and ran.stdout == GRID and is_line(ran.stderr, said) and os.path.islink(host.path('output')), ran)
        with open(host.path('kept'), 'wb') as kept:
            ran = host.run(host.arguments('--grid', grid, '--times'), stdout=kept, preexec_fn=host.as_nobody())
        told = is_line(ran.stderr.partition(b'\n')[2], said)
        host.holds('grid to %s, which is a file' % grid, ran.returncode == DONE and host.got('kept') == GRID and told, ran)
        host.holds('grid to ' + grid, host.files() == ['kept', 'output', 'recipe'], ran)


def check_temporary_files(host):
    """What is beside the grid stays, whatever its name is; what the program made goes, also where it is ended."""
    host.fresh()
    host.put('grid', OLD)
    ran = host.run(host.arguments('--grid', 'grid'), preexec_fn=lambda: resource.setrlimit(resource.RLIMIT_FSIZE, (100, 100)))
    host.fails('no room', "can't write grid: File too large", ran)
    host.holds('no room', host.got('grid') == OLD and host.files() == ['grid', 'recipe'], ran)
    for number in (signal.SIGTERM, signal.SIGINT, signal.SIGHUP):
        host.fresh()
        host.put('grid', OLD)
        ran = host.run(host.arguments('--grid', 'grid'), 'BOARDS_FAULT=signal-writing:%d' % number)
        host.holds('ended by %s while it writes' % number, ran.returncode == -number and host.got('grid') == GRID and host.files() == ['grid', 'recipe'], ran)
    host.fresh()
    long = 'n' * 255
    host.swept('a name as long as any', host.run(host.arguments('--grid', long)), long)


def check_stops(host):
    """All processes stopped for longer than the timeout, as by Ctrl-Z, and then continued."""
    host.fresh()
    started = Started(host, host.arguments('--grid', 'grid', '--timeout', '2'), env=dict(os.environ, BOARDS_FAULT='stopped:1'))
    os.waitid(os.P_PID, started.process.pid, os.WSTOPPED | os.WEXITED | os.WNOWAIT)
    time.sleep(3)
    os.killpg(started.process.pid, signal.SIGCONT)
    host.swept('stopped', started.end())


def check_names(host):
    """One line, whatever a name has in it, with the whole name and the reason."""
    host.fresh()
    odd = 'a\nb\x1b[31m\\c\x7f\x9b\xe9'
    shown = 'a\\nb\\x1b[31m\\\\c\\x7f\\xc2\\x9b\xe9'
    host.swept('an odd name', host.run(host.arguments('--grid', odd)), odd, ', grid in ' + shown)
    for what, name, reason in (('an odd name', odd + '/d', 'Not a directory'), ('a long name', 'n' * 256, 'File name too long'),
                               ('a long path', './' * 1900 + 'none/grid', 'No such file or directory'), ('an empty name', '', 'No such file or directory')):
        said = "can't write %s: %s" % ((name or "''").replace(odd, shown), reason)
        host.fails(what, said, host.run(host.arguments('--grid', name)))
    for what, name, reason in (('no recipe', 'n' * 3000, 'File name too long'), ('a folder', '.', 'Is a directory')):
        ran = host.run([host.program, name, '--seed', '1'])
        host.fails(what, '%s %s: %s' % ("can't read" if name == '.' else "can't open", name, reason), ran)
    os.chmod(host.path('recipe'), 0)
    ran = host.run(host.arguments(), preexec_fn=host.as_nobody())
    host.fails('a recipe not to be read', "can't open %s: Permission denied" % host.path('recipe'), ran)


def check_open_files(host):
    """As many boards as there can be, where few files may be open, and the user has no right to more."""
    for limit in (1024, 100):
        host.fresh()
        host.put('recipe', MOST)
        limits = lambda limit=limit: resource.setrlimit(resource.RLIMIT_NOFILE, (limit, limit))  # noqa: E731
        ran = host.run(host.arguments('--grid', 'grid'), preexec_fn=host.as_nobody(limits))
        host.holds('64 boards, %d open files' % limit, ran.returncode == DONE and len(host.got('grid')) == 4 * 1024, ran)


class Started:
    """A run that lasts until it is ended, in a group of its own."""

    def __init__(self, host, command, **given):
        host.runs += 1
        self.process = subprocess.Popen(command, cwd=host.folder, stdout=subprocess.PIPE, stderr=subprocess.PIPE, start_new_session=True, **given)

    @staticmethod
    def children(process):
        with open('/proc/%d/task/%d/children' % (process, process), encoding='utf-8') as file:
            return [int(child) for child in file.read().split()]

    def boards(self, process=None):
        """The boards' processes, once all are there."""
        process = process or self.process.pid
        until = time.time() + GIVEN_UP
        while time.time() < until and self.process.poll() is None:
            found = self.children(process)
            if len(found) == PLAN.boards:
                return found
            time.sleep(0.01)
        return []

    def end(self):
        try:
            out, said = self.process.communicate(timeout=GIVEN_UP)
            return subprocess.CompletedProcess([], self.process.returncode, out, said)
        except subprocess.TimeoutExpired:
            self.process.kill()
            out, said = self.process.communicate()
            return subprocess.CompletedProcess([], None, out, said)


def is_there(process):
    """Not ended, and no zombie that nobody awaits."""
    try:
        with open('/proc/%d/stat' % process, encoding='utf-8') as file:
            return file.read().rsplit(')', 1)[1].split()[0] != 'Z'
    except OSError:
        return False


def check_ended(host):
    """Ended by a signal, alone or with its group: all processes end, quietly, and no file is changed."""
    for number, group in ((signal.SIGTERM, False), (signal.SIGTERM, True), (signal.SIGINT, True), (signal.SIGHUP, True)):
        host.fresh()
        host.put('grid', OLD)
        started = Started(host, host.arguments('--grid', 'grid', '--timeout', '1000', '--work', '1000000000'))
        boards = started.boards()
        (os.killpg if group else os.kill)(started.process.pid, number)
        ran = started.end()
        what = 'ended by signal %d%s' % (number, ', and its group' if group else '')
        host.holds(what, ran.returncode == -number and not ran.stdout + ran.stderr and host.got('grid') == OLD, ran)
        host.holds(what + ': its boards', boards and not any(is_there(board) for board in boards), ran)
    host.fresh()
    started = Started(host, host.arguments('--timeout', '1000', '--work', '1000000000'))
    boards = started.boards()
    started.process.kill()
    ran = started.end()
    until = time.time() + GIVEN_UP
    while any(map(is_there, boards)) and time.time() < until:
        time.sleep(0.01)
    host.holds('killed: its boards', boards and not any(map(is_there, boards)), ran)
    host.fresh()
    started = Started(host, host.arguments('--grid', 'grid', '--work', '3000000'), preexec_fn=lambda: signal.signal(signal.SIGHUP, signal.SIG_IGN))
    started.boards()
    os.killpg(started.process.pid, signal.SIGHUP)
    host.swept('a signal that was ignored at the start', started.end())
    check_ended_first(host)


def check_ended_first(host):
    """The first process of a container, for which a signal that is not awaited does nothing."""
    host.fresh()
    first = ['unshare', '--user', '--map-root-user', '--pid', '--fork', '--kill-child']
    if host.run(first + ['true']).returncode != 0:
        print('not run as the first process of a container: unshare may not make one here')
        return
    started = Started(host, first + host.arguments('--timeout', '1000', '--work', '1000000000'))
    until = time.time() + GIVEN_UP
    while not started.children(started.process.pid) and time.time() < until:
        time.sleep(0.01)
    program = started.children(started.process.pid)[0]
    boards = started.boards(program)
    os.kill(program, signal.SIGTERM)
    ran = started.end()
    host.holds('ended as the first process', ran.returncode == 128 + signal.SIGTERM and boards and not any(map(is_there, boards)), ran)


def heed_signals():
    """A shell has what it starts in the background ignore an interrupt, and so would the boards that are ended here."""
    for number in (signal.SIGINT, signal.SIGTERM, signal.SIGHUP):
        if signal.getsignal(number) == signal.SIG_IGN:
            signal.signal(number, signal.SIG_DFL)


def main(folder):
    with tempfile.TemporaryDirectory() as scratch:
        host = Host(folder, scratch)
        check_strangers(host)
        check_ignored_children(host)
        check_command_line(host)
        check_pipes(host)
        check_closed_files(host)
        check_links(host)
        check_no_regular_files(host)
        check_rights(host)
        check_output(host)
        check_temporary_files(host)
        check_names(host)
        check_open_files(host)
        check_stops(host)
        check_ended(host)
        print('%d runs, %d wrong' % (host.runs, host.wrong))
        return 1 if host.wrong else 0


if __name__ == '__main__':
    if len(sys.argv) != 2:
        sys.exit(__doc__)
    heed_signals()
    sys.exit(main(sys.argv[1]))
