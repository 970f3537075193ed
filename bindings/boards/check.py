"""Holds the program boards to the independent model and to its manual. Run as

    python3 bindings/boards/check.py FOLDER [--seed 27] [--recipes 40]

with the folder of a program linked with faults.c (bindings/boards/build FOLDER faults sockets). Rows A to F and seeded random recipes by each route, without
faults and with packets lost, repeated, late and damaged: every grid is the model's, word for word. Ends: each has its status, tells its text, and leaves the
grid's file as it was. mpi/check.py does the same over MPI, storm.py has kills, halts and strangers. The last line is `N runs, 0 wrong`; status 1 where one is
wrong.
"""

import argparse
import os
import random
import re
import resource
import subprocess
import sys
import tempfile

sys.dont_write_bytecode = True
ROOT = os.path.join(os.path.dirname(os.path.abspath(__file__)), '..', '..')
sys.path.insert(0, os.path.join(ROOT, 'tools'))
import model  # noqa: E402

ROUTES = {'direct': model.DIRECT, 'indirect': model.INDIRECT}
DONE, REFUSED, USAGE, TIMEOUT, DAMAGED, LOST, DIFFERS, FILE, MACHINE = range(9)
OLD = b'what the file had before'
# seconds that a board waits where mail does not come: more than a loaded machine keeps any board from running
PATIENCE = '0.8'
# what stands behind the line of a run over sockets
COUNTS = r'; posted \d+ lost \d+ repeated \d+ dropped \d+( \([a-z0-9 ]*\))? restarts \d+'


def words_of(values):
    return b''.join(value.to_bytes(4, 'little') for value in values)


def bed(seed, cells):
    """The words that the program makes from a seed: the upper halves of SplitMix64."""
    mask, state, out = 2 ** 64 - 1, seed, []
    for _ in range(cells):
        state = state + 0x9e3779b97f4a7c15 & mask
        mixed = (state ^ state >> 30) * 0xbf58476d1ce4e5b9 & mask
        mixed = (mixed ^ mixed >> 27) * 0x94d049bb133111eb & mask
        out.append((mixed ^ mixed >> 31) >> 32)
    return out


class Check:
    """Runs of one program, in a folder of their own."""

    def __init__(self, folder, mpi, scratch):
        self.program = os.path.join(os.path.abspath(folder), 'boards_mpi' if mpi else 'boards')
        self.mpi = mpi
        self.scratch = scratch
        self.runs = self.wrong = 0

    def path(self, name):
        return os.path.join(self.scratch, name)

    def put(self, name, content):
        with open(self.path(name), 'wb') as file:
            file.write(content)
        return self.path(name)

    def taken(self, name):
        """What a file has, which is then removed."""
        with open(self.path(name), 'rb') as file:
            content = file.read()
        os.remove(self.path(name))
        return content

    def start(self, boards, arguments, fault='', limit=None, full=False):
        environment = dict(os.environ, OMPI_ALLOW_RUN_AS_ROOT='1', OMPI_ALLOW_RUN_AS_ROOT_CONFIRM='1')
        environment.update(item.split('=', 1) for item in fault.split())
        command = ['mpirun', '--oversubscribe', '-n', str(boards)] if self.mpi else []
        self.runs += 1
        with open('/dev/full' if full else self.path('said'), 'w', encoding='utf-8') as out:
            return subprocess.run(command + [self.program] + arguments, stdout=out, stderr=subprocess.PIPE, text=True, timeout=120, check=False,
                                  env=environment, preexec_fn=limit)

    def blame(self, what, ran, problem):
        self.wrong += 1
        print('%s: %s; status %d\n%s' % (what, problem, ran.returncode, ran.stderr))

    def program_bytes(self):
        with open(self.program, 'rb') as file:
            return file.read()

    def sweeps(self, what, encoded, route, fault='', seed=1, said='', arguments=()):
        """A run of the recipe ends well, and its grid is the model's."""
        plan = model.plan_of(encoded, ROUTES[route])[1]
        source = [random.Random(seed).randrange(2 ** 32) for _ in range(plan.cells)]
        command = [self.put('recipe', encoded), '--source', self.put('source', words_of(source)), '--grid', self.path('grid'), '--route', route]
        ran = self.start(plan.boards, command + list(arguments), fault)
        found = self.taken('grid') if ran.returncode == DONE else None
        line = 'boards %d messages %d words %d: done, equal to the sweep, grid in %s' % (
            plan.boards, len(plan.messages), plan.words, self.path('grid'))
        if found != words_of(plan.swept(source)):
            self.blame(what, ran, 'the grid is not the model\'s')
        elif not re.fullmatch(re.escape(line) + ('' if self.mpi else COUNTS) + '\n', self.taken('said').decode()):
            self.blame(what, ran, 'it does not print %r' % line)
        elif said not in ran.stderr or (not said and ran.stderr):
            self.blame(what, ran, 'it says other than %r' % said)

    def ends(self, what, status, said, encoded, arguments, fault='', boards=None, limit=None, full=False):
        """A run ends with the status, tells the texts, leaves the grid's file as it was, unless the line about it can't be written, and nothing
        beside it."""
        grid, recipe = self.put('grid', OLD), self.put('recipe', encoded)
        before = set(os.listdir(self.scratch)) | (set() if full else {'said'})
        plan = model.plan_of(encoded)[1]
        ran = self.start(boards or (plan.boards if plan else 1), [recipe, '--grid', grid] + arguments, fault, limit, full)
        with open(grid, 'rb') as file:
            kept = file.read()
        if ran.returncode != status:
            self.blame(what, ran, 'the status is not %d' % status)
        elif any(line not in ran.stderr for line in said):
            self.blame(what, ran, 'it does not say %r' % said)
        elif (kept == OLD) == full or set(os.listdir(self.scratch)) != before:
            self.blame(what, ran, 'files are not as they were')


def random_recipe(rng, most_boards):
    """A recipe that is accepted, with at most so many boards; some have a shape, wide weights, a shift, tiles at an end."""
    while True:
        n = rng.choice([2, 2, 3, 3, 4])
        most = {2: 20, 3: 8, 4: 5}[n]
        lengths = [rng.randint(1, most) for _ in range(n)]
        tiling = [rng.randint(1, max(2, most // 3)) for _ in range(n)]
        spread = rng.randint(1, n - 1)
        counts = [rng.choice([1, 2, 2, 3, 4, 6]) if j < spread else 0 for j in range(n)]
        distances = {tuple(rng.randint(0, tiling[j]) if rng.random() < .6 else 0 for j in range(n)) for _ in range(rng.randint(1, 8))}
        distances = sorted(d for d in distances if any(d))
        bounds = [(rng.randint(0, 1), 1, 0, rng.choice([-1, 0, 1]), rng.randint(-2, 8))] if rng.random() < .3 else []
        if not distances:
            continue
        encoded = model.encode(lengths, tiling, counts, distances, [rng.choice([0, 1, 3, 65535, rng.randint(0, 65535)]) for _ in distances],
                               rng.choice([0, 0, 1, 5, 31]), rng.randrange(2 ** 32), bounds)
        number, plan = model.plan_of(encoded)
        if number == 0 and 2 <= plan.boards <= most_boards and plan.tiles <= 150:
            return encoded, bool(bounds)


def check_rows(check):
    for row in 'ABCDEF':
        for route in ROUTES:
            check.sweeps('row %s, %s' % (row, route), model.ROWS[row], route)


def check_random(check, seed, recipes):
    rng = random.Random(seed)
    for k in range(recipes):
        encoded, shape = random_recipe(rng, 16)
        route = 'direct' if shape else rng.choice(list(ROUTES))
        for way in '', 'BOARDS_NET=30:0:0:0', 'BOARDS_NET=10:20:10:40':
            check.sweeps('random %d of seed %d, %s, %s' % (k, seed, route, way), encoded, route, way, seed=k)
    most = model.encode([16, 16, 4], [2, 2, 4], [8, 8, 0], [(1, 0, 0), (0, 1, 0), (1, 1, 1)])
    check.sweeps('64 boards', most, 'indirect')


def check_timeouts(check):
    """No board comes further: who waits for what of whom."""
    for row, route, m in ('C', 'indirect', 3), ('A', 'direct', 7):
        plan = model.plan_of(model.ROWS[row], ROUTES[route])[1]
        message = plan.messages[m]
        waits = 'boards: board %d waits at tile %d for message %d of board %d\n' % (
            plan.board_of[message.taker], message.taker, m, plan.board_of[message.sender])
        given = ['--seed', '1', '--route', route, '--timeout', PATIENCE]
        check.ends('a message that never comes', TIMEOUT, ['boards: no board came further for %s seconds\n' % PATIENCE, waits], model.ROWS[row], given,
                   'BOARDS_FAULT=mute:%d' % m)
    given = ['--seed', '1', '--timeout', PATIENCE]
    again = 'boards: board 1 says nothing for %g seconds: it is started again\n' % (float(PATIENCE) / 2)
    check.ends('a board that halts in each life', TIMEOUT, [again, ' of board 1\n'], model.ROWS['A'], given, 'BOARDS_FAULT=halted:1')
    check.ends('all is lost', TIMEOUT, ['boards: board 0 was never heard of\n', 'boards: board 1 was never heard of\n'], model.ROWS['A'], given,
               'BOARDS_NET=100:0:0:0')


def check_hosts(check):
    """Hosts files and keys that are none."""
    row, seed = model.ROWS['A'], ['--seed', '1']
    here = b'127.0.0.1:%d\n'
    two = check.put('two', here % 7001 + here % 7002 + here % 7003)
    for what, content, said in [
            ('no port', b'127.0.0.1\n', ': 127.0.0.1 is not host:port'),
            ('no number', b'127.0.0.1:x\n', ': 127.0.0.1 port x: '),
            ('one line', here % 7001, ': a line for the coordinator and one a board are asked for'),
            ('too many', here % 7001 + b''.join(here % (7002 + k) for k in range(65)), ' has more than 65 lines'),
            ('twice', here % 7001 + 2 * (here % 7002), ' has the same host and port twice'),
            ('beyond loopback', b'192.0.2.1:7001\n192.0.2.2:7002\n192.0.2.3:7003\n', ' has addresses beyond this machine: --key is asked for'),
            ('another number', here % 7001 + here % 7002, 'boards: the recipe has 2 boards, ')]:
        check.ends('hosts: ' + what, USAGE, [said], row, seed + ['--hosts', check.put('hosts', content)])
    check.ends('no hosts file', FILE, ["boards: can't open %s: No such file" % check.path('none')], row, seed + ['--hosts', check.path('none')])
    for arguments in (['--board', '0'], ['--board', '0', '--hosts', two]):
        check.ends('usage ' + ' '.join(arguments), USAGE, ['boards: --board goes with --hosts, and without recipe'], row, arguments)
    # a program that was built with keys has this text
    if b'libsodium does not start' in check.program_bytes():
        os.chmod(check.put('key', bytes(20)), 0o600)
        check.ends('a short key', FILE, [': a key has at least 32 bytes'], row, seed + ['--key', check.path('key')])
        os.chmod(check.put('key', bytes(40)), 0o640)
        check.ends("a key that others may read", FILE, [': others may read it'], row, seed + ['--key', check.path('key')])
        os.chmod(check.path('key'), 0o600)
        check.sweeps('a key', row, 'direct', arguments=['--key', check.path('key')])
        check.sweeps('a key, faults', model.ROWS['C'], 'indirect', 'BOARDS_NET=20:10:10:20', arguments=['--key', check.path('key')])
    else:
        check.ends('no keys', USAGE, ['this program was built without libsodium, and has no keys'], row, seed + ['--key', 'any'])


def check_files(check):
    """The grid that differs, and files that can't be read or written."""
    row, seed, none = model.ROWS['A'], ['--seed', '1'], check.path('none')
    last = model.plan_of(row)[1].swept(bed(1, 64))[-1]
    differs = 'boards: the grid differs from the sweep: cell 63 is %d, not %d\n' % (last, last ^ 1)
    check.ends('differs', DIFFERS, [differs], row, seed, 'BOARDS_FAULT=differs:0')
    missing = '%s: No such file or directory\n' % none
    check.ends('no source', FILE, ["boards: can't open " + missing], row, ['--source', none])
    check.ends('short source', FILE, ['has 80 bytes: a source of 64 cells has 256\n'], row, ['--source', check.put('short', bytes(80))])
    check.ends('no folder', FILE, ["boards: can't write %s/grid: No such file or directory\n" % none], row, seed + ['--grid', none + '/grid'])
    check.ends('full', FILE, ["boards: can't write %s: File too large\n" % check.path('grid')], row, seed,
               limit=lambda: resource.setrlimit(resource.RLIMIT_FSIZE, (100, 100)))
    check.ends('a folder', FILE, ["boards: can't write %s: Is a directory\n" % check.scratch], row, seed + ['--grid', check.scratch])
    check.ends('standard output', FILE, ["can't write to standard output: No space left on device\n"], row, seed + ['--no-verify'], full=True)


def check_refusals(check):
    """What the engine refuses, and command lines that are none."""
    shape = model.encode([4, 4], [2, 2], [2, 0], [(1, 0)], bounds=[(0, 1, 0, 1, 0)])
    one = 'boards: recipe refused 1, ragged: '
    check.ends('ragged', REFUSED, [one], model.ROWS['A'][:-1], ['--seed', '1'])
    check.ends('empty', REFUSED, [one], b'', ['--seed', '1'])
    check.ends('direct only', REFUSED, ['boards: recipe refused 21, direct only: '], shape, ['--seed', '1', '--route', 'indirect'])
    for arguments, said in [
            ([], 'either --source or --seed is asked for'),
            (['--seed', '1', '--source', 'x'], 'either --source or --seed is asked for'),
            (['--seed', '-1'], '--seed -1: not a whole number'),
            (['--seed', '4294967296'], '--seed 4294967296: not a whole number'),
            (['--seed', '1', '--route', 'wrong'], '--route wrong: neither direct nor indirect'),
            (['--seed', '1', '--timeout', '0'], '--timeout 0: not a number of seconds'),
            (['--seed', '1', '--timeout', 'nan'], '--timeout nan: not a number of seconds'),
            (['--seed', '1', '--run'], '--run: its value is missing'),
            (['--seed', '1', '--wrong'], '--wrong: no such option'),
            (['--seed', '1', 'another'], 'one recipe is asked for, 2 given')]:
        check.ends('usage ' + ' '.join(arguments), USAGE, ['boards: ' + said], model.ROWS['A'], arguments)


def check_manual(check):
    """The options that --help lists are the manual's, and so are the statuses."""
    ran = check.start(1, ['--help'])
    said = check.taken('said').decode()
    with open(os.path.join(os.path.dirname(os.path.abspath(__file__)), 'MANUAL.md'), encoding='utf-8') as file:
        manual = file.read()
    listed = set(re.findall(r'--[a-z][a-z-]*', said))
    rows = ' '.join(line for line in manual.split('\n') if line.startswith('| `'))
    statuses = re.findall(r'^\| (\d+) \|', manual, flags=re.M)
    if ran.returncode != DONE or not listed or listed != set(re.findall(r'--[a-z][a-z-]*', rows)):
        check.blame('help', ran, 'its options are not the manual\'s')
    if statuses != [str(status) for status in range(MACHINE + 1)] or any('%s ' % status not in said.split('Exit:')[-1] for status in statuses):
        check.blame('help', ran, 'its statuses are not the manual\'s')


def main(folder, seed, recipes):
    with tempfile.TemporaryDirectory() as scratch:
        check = Check(folder, False, scratch)
        check_rows(check)
        check_random(check, seed, recipes)
        check_timeouts(check)
        check_hosts(check)
        check_files(check)
        check_refusals(check)
        check_manual(check)
        print('%d runs, %d wrong' % (check.runs, check.wrong))
        return 1 if check.wrong else 0


if __name__ == '__main__':
    parser = argparse.ArgumentParser(description=__doc__, formatter_class=argparse.RawDescriptionHelpFormatter)
    parser.add_argument('folder')
    parser.add_argument('--seed', type=int, default=27)
    parser.add_argument('--recipes', type=int, default=40)
    given = parser.parse_args()
    sys.exit(main(given.folder, given.seed, given.recipes))
