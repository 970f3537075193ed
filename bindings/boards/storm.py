"""Storms against the program boards. Run as

    python3 bindings/boards/storm.py FOLDER [--runs 1000] [--minutes 120] [--lanes 1] [--seed 1] [--only NAME ..]

with the folder of a program that is linked with faults.c (bindings/boards/build FOLDER faults sockets). Boards are killed and halted, packets are lost, sent
twice, late and damaged, strangers put packets in, the coordinator is killed, networks delay. Every run that ends with 0 must have the model's grid, word for
word; every other leaves no file; which runs are to end well is known before. What needs a right that is not there (raw sockets, network namespaces) is named
and not run. All packets go to 127.0.0.0/8, ::1 and namespaces made here; signals go to processes started here and to their children. It ends after so many
runs or minutes. Lanes are storms side by side.
The last line is `N runs, M faults, 0 wrong, K ended well`: faults are kills, halts, packets put in, and packets that runs told as lost, repeated or dropped.
Status 1 where one is wrong.
"""

import argparse
import itertools
import os
import random
import re
import signal
import struct
import subprocess
import sys
import tempfile
import threading
import time
import zlib

sys.dont_write_bytecode = True
sys.path.insert(0, os.path.dirname(os.path.abspath(__file__)))
from check import ROUTES, model, random_recipe, words_of  # noqa: E402
from stranger import Wire, addresses, free_ports  # noqa: E402

EIGHT = model.encode([128, 128], [16, 16], [8, 0], [(1, 0), (0, 1), (1, 1)])
MOST = model.encode([128, 128], [2, 8], [64, 0], [(1, 0), (0, 1), (1, 1)])
WIDE = model.encode([128, 128], [32, 64], [4, 0], [(32, 0), (0, 64), (32, 64), (1, 1)])    # messages of eight chunks
ALL_FAULTS = 'BOARDS_NET=30:10:5:20'    # percentages: lost, twice, corrupted, late
PATIENCE = ['--timeout', '30']
GIVEN_UP = 600    # seconds after which a run is taken to hang: on a machine that others keep busy 64 boards take minutes
HUB = os.path.join(os.path.dirname(os.path.abspath(__file__)), 'hub.py')
COUNTED = ('lost', 'repeated', 'dropped')


class Swept:
    """A recipe, a route, a source, and the model's sweep."""

    def __init__(self, rng, encoded, route='direct'):
        self.encoded, self.route = encoded, route
        self.boards = model.plan_of(encoded, ROUTES[route])[1].boards
        self.again(rng)

    def again(self, rng):
        """The same recipe with another source."""
        plan = model.plan_of(self.encoded, ROUTES[self.route])[1]
        source = [rng.randrange(2 ** 32) for _ in range(plan.cells)]
        self.source, self.grid = words_of(source), words_of(plan.swept(source))
        return self


def send(pid, number):
    try:
        os.kill(pid, number)
        return 1
    except ProcessLookupError:
        return 0


def children(pid):
    try:
        with open('/proc/%d/task/%d/children' % (pid, pid), encoding='ascii') as file:
            return [int(child) for child in file.read().split()]
    except OSError:
        return []


class Storm:
    """Runs of one program, in a folder of their own, and what became of them."""

    def __init__(self, folder, scratch, seed):
        self.program = os.path.join(os.path.abspath(folder), 'boards')
        self.scratch = scratch
        # a program that was built with keys has this text
        with open(self.program, 'rb') as file:
            self.has_keys = b'libsodium does not start' in file.read()
        self.rng = random.Random(seed)
        self.runs = self.wrong = self.well = self.faults = 0
        self.groups = {}

    def put(self, name, content, mode=0o644):
        path = os.path.join(self.scratch, name)
        with open(path, 'wb') as file:
            file.write(content)
        os.chmod(path, mode)
        return path

    def swept(self, encoded, route='direct'):
        return Swept(self.rng, encoded, route)

    def random(self, most=16):
        encoded, shape = random_recipe(self.rng, most)
        return self.swept(encoded, 'direct' if shape else self.rng.choice(list(ROUTES)))

    def start(self, swept, grid, arguments, faults, prefix):
        command = list(prefix) + [self.program, self.put('recipe', swept.encoded), '--source', self.put('source', swept.source), '--grid', grid,
                                  '--route', swept.route] + PATIENCE
        # the search for leaks has a process of its own, which is not to be taken for a board
        environment = dict(os.environ, ASAN_OPTIONS='detect_leaks=0', **dict(item.split('=', 1) for item in faults.split()))
        return subprocess.Popen(command + list(arguments), stdout=subprocess.PIPE, stderr=subprocess.PIPE, text=True, env=environment)

    def run(self, what, swept, faults='', befalls=None, arguments=(), survives=True, prefix=()):
        """One run; what befalls it is called with its process. It ends well, or was not to, and then leaves no grid."""
        grid = os.path.join(self.scratch, 'grid')
        start = time.time()
        ran = self.start(swept, grid, arguments, faults, prefix)
        if befalls is not None:
            befalls(ran)
        try:
            said, told = ran.communicate(timeout=GIVEN_UP)
        except subprocess.TimeoutExpired:
            ran.kill()
            said, told = ran.communicate()
            told += 'it hangs\n'
        written = None
        if os.path.exists(grid):
            with open(grid, 'rb') as file:
                written = file.read()
            os.remove(grid)
        well = ran.returncode == 0 and written == swept.grid
        good = well or (not survives and ran.returncode > 0 and written is None and bool(told))
        self.count(what, good and 'Sanitizer' not in told and 'runtime error' not in told, well, said if survives else '', time.time() - start,
                   'status %s, grid %s\n%s%s' % (ran.returncode, 'none' if written is None else 'right' if written == swept.grid else 'WRONG', said, told))

    def count(self, what, good, well, said, seconds, about):
        self.runs += 1
        self.well += well
        self.wrong += not good
        counts = dict((name, int(value)) for name, value in re.findall(r'(\w+) (\d+)', said.partition(';')[2]))
        self.faults += sum(counts.get(name, 0) for name in COUNTED)
        group = self.groups.setdefault(what, [0, 0, 0., {}])
        group[0] += 1
        group[1] += well
        group[2] += seconds
        for name, value in counts.items():
            group[3][name] = group[3].get(name, 0) + value
        if not good:
            print('%s: %s' % (what, about), flush=True)

    # ---- what befalls a run

    def kills(self, least=.02, most=.05, lasts=1.):
        """A random board is killed every so often, until so many seconds have gone."""
        def storm(ran):
            until = time.time() + lasts
            while time.time() < until and ran.poll() is None:
                time.sleep(self.rng.uniform(least, most))
                boards = children(ran.pid)
                self.faults += sum(send(pid, signal.SIGKILL) for pid in self.rng.sample(boards, min(1, len(boards))))
        return storm

    def massacre(self, ran):
        """All boards at once, three times."""
        for _ in range(3):
            time.sleep(self.rng.uniform(.02, .1))
            self.faults += sum(send(pid, signal.SIGKILL) for pid in children(ran.pid))

    def halts(self, ran):
        """A random board is halted, and goes on a moment later; for a second."""
        until = time.time() + 1
        while time.time() < until and ran.poll() is None:
            for pid in self.rng.sample(children(ran.pid), 1) if children(ran.pid) else []:
                self.faults += send(pid, signal.SIGSTOP)
                time.sleep(self.rng.uniform(.01, .15))
                send(pid, signal.SIGCONT)
            time.sleep(.01)

    def halts_for_good(self, ran):
        time.sleep(.1)
        for pid in self.rng.sample(children(ran.pid), min(2, len(children(ran.pid)))):
            self.faults += send(pid, signal.SIGSTOP)

    def halts_coordinator(self, ran):
        """The coordinator itself, longer than the timeout."""
        time.sleep(.05)
        self.faults += send(ran.pid, signal.SIGSTOP)
        time.sleep(2.5)
        send(ran.pid, signal.SIGCONT)


class Boards:
    """Boards of a hosts file, each started again when it ends with a status that is not among `ends`, until all is over."""

    def __init__(self, storm, hosts, boards, more=(), prefix=lambda board: [], ends=(None, 0), faults=''):
        self.storm, self.ends = storm, ends
        self.environment = dict(os.environ, **dict(item.split('=', 1) for item in faults.split()))
        self.command = lambda board: prefix(board) + [storm.program, '--board', str(board), '--hosts', hosts] + list(more)
        self.processes = {board: self.begin(board) for board in range(boards)}
        self.over, self.lock = False, threading.Lock()
        self.thread = threading.Thread(target=self.tend)
        self.thread.start()

    def begin(self, board):
        return subprocess.Popen(self.command(board), stderr=subprocess.DEVNULL, env=self.environment)

    def tend(self):
        while not self.over:
            with self.lock:
                for board, process in self.processes.items():
                    if process.poll() not in self.ends:
                        self.processes[board] = self.begin(board)
            time.sleep(.003)

    def kill_one(self):
        with self.lock:
            process = self.storm.rng.choice(list(self.processes.values()))
            if process.poll() is None:
                process.kill()
                self.storm.faults += 1

    def kills(self, ran, lasts=1.):
        until = time.time() + lasts
        while time.time() < until and ran.poll() is None:
            time.sleep(self.storm.rng.uniform(.02, .05))
            self.kill_one()

    def close(self):
        self.over = True
        self.thread.join()
        until = time.time() + .5
        while any(process.poll() is None for process in self.processes.values()) and time.time() < until:
            time.sleep(.01)
        for process in self.processes.values():
            if process.poll() is None:
                process.kill()
            process.wait()


# ---- the storms, each a few runs

def clean(storm):
    row = storm.rng.choice('ABCDEF')
    storm.run('rows A to F, no faults', storm.swept(model.ROWS[row], storm.rng.choice(list(ROUTES))))
    storm.run('random recipes, no faults', storm.random())
    storm.run('128x128 on 8, 64 or 4 boards, no faults', storm.swept(storm.rng.choice([EIGHT, MOST, WIDE])))


def mail(storm):
    row = storm.rng.choice('ABCDEF')
    storm.run('rows A to F, mail faults', storm.swept(model.ROWS[row], storm.rng.choice(list(ROUTES))), ALL_FAULTS)
    for _ in range(3):
        storm.run('random recipes, mail faults', storm.random(), ALL_FAULTS)
    storm.run('8 boards, mail faults', storm.swept(EIGHT), ALL_FAULTS)
    storm.run('4 boards of long messages, mail faults', storm.swept(WIDE), ALL_FAULTS)
    if storm.rng.random() < .2:
        storm.run('8 boards, 70 percent lost', storm.swept(EIGHT), 'BOARDS_NET=70:0:0:0')


def kills(storm):
    storm.run('8 boards, kill storm', storm.swept(EIGHT), 'BOARDS_PAUSE=20000', storm.kills())
    storm.run('8 boards, kill storm and mail faults', storm.swept(EIGHT), 'BOARDS_PAUSE=20000 ' + ALL_FAULTS, storm.kills())
    storm.run('4 boards of long messages, kill storm and mail faults', storm.swept(WIDE), 'BOARDS_PAUSE=100000 ' + ALL_FAULTS, storm.kills())
    storm.run('8 boards, all killed three times', storm.swept(EIGHT), 'BOARDS_PAUSE=10000', storm.massacre)
    for _ in range(3):
        storm.run('random recipes, kills every 2 to 10 ms', storm.random(), 'BOARDS_PAUSE=1000 ' + storm.rng.choice(['', ALL_FAULTS]),
                  storm.kills(.002, .01, .3))


def many(storm):
    storm.run('64 boards, mail faults', storm.swept(MOST), ALL_FAULTS)
    storm.run('64 boards, kill storm', storm.swept(MOST), 'BOARDS_PAUSE=10000', storm.kills())
    storm.run('64 boards, kill storm and mail faults', storm.swept(MOST), 'BOARDS_PAUSE=10000 ' + ALL_FAULTS, storm.kills())


def halts(storm):
    storm.run('8 boards, halted and going on', storm.swept(EIGHT), 'BOARDS_PAUSE=10000', storm.halts)
    storm.run('8 boards, coordinator halted for longer than the timeout', storm.swept(EIGHT), 'BOARDS_PAUSE=20000', storm.halts_coordinator,
              ['--timeout', '2'])
    storm.run('8 boards, two halted for good', storm.swept(EIGHT), 'BOARDS_PAUSE=10000', storm.halts_for_good, ['--timeout', '4'])


def coordinator(storm):
    """The coordinator is killed, some times, and started again: the boards go on, without a number told."""
    swept, grid = storm.swept(EIGHT), os.path.join(storm.scratch, 'grid')
    hosts = storm.put('hosts', addresses(free_ports(9)))
    faults = 'BOARDS_PAUSE=20000 ' + storm.rng.choice(['', ALL_FAULTS])
    boards = Boards(storm, hosts, 8, ends=(None,), faults=faults)
    try:
        for _ in range(3):
            died = storm.start(swept, grid, ['--hosts', hosts], faults, ())
            time.sleep(storm.rng.uniform(.02, .15))
            died.kill()
            died.communicate()
            storm.faults += 1
        storm.run('8 boards, coordinator killed three times', swept, faults, arguments=['--hosts', hosts])
    finally:
        boards.close()


# ---- strangers

def remote(storm, what, swept, hosts, more=(), befalls=lambda ran, boards: None, survives=True, faults='', arguments=()):
    boards = Boards(storm, hosts, swept.boards, more, faults=faults)
    try:
        storm.run(what, swept, faults, lambda ran: befalls(ran, boards), ['--hosts', hosts, *more, *arguments], survives)
    finally:
        boards.close()


def altered(rng, packet, keyed):
    """A packet of the same or a later message, with other words and the right check word; the tag, where there is one, can't be made."""
    tag = 32 if keyed else 0
    body = bytearray(packet[:len(packet) - tag - 4])
    body[40:44] = struct.pack('<I', struct.unpack('<I', body[40:44])[0] + rng.choice([0, 1, 1, 2]) & 2 ** 32 - 1)
    body[56:] = rng.randbytes(len(body) - 56)
    if rng.random() < .3:
        at = 4 * rng.randrange(1, 14)
        body[at:at + 4] = struct.pack('<I', rng.choice([0, 1, 2, 5, 8, 57, 63, 64, 65, 2 ** 31, 2 ** 32 - 1, rng.randrange(2 ** 32)]))
    return bytes(body) + struct.pack('<I', zlib.crc32(bytes(body))) + packet[len(packet) - tag:]


def replays(storm, wire, recorded):
    """Packets of another run, garbage, packets from wrong addresses, and now and then a kill."""
    def befalls(ran, boards):
        until = time.time() + 1.5
        while ran.poll() is None and time.time() < until:
            for from_port, to_port, payload in storm.rng.sample(recorded, min(len(recorded), 100)):
                wire.put(from_port, to_port, payload)
                if storm.rng.random() < .3:
                    wire.put(from_port, to_port, os.urandom(storm.rng.randrange(1, 1400)))
                if storm.rng.random() < .3:
                    wire.put(storm.rng.randrange(1024, 65535), to_port, payload)
            if storm.rng.random() < .3:
                boards.kill_one()
            time.sleep(.005)
    return befalls


def stranger(storm, keyed):
    more = ['--key', storm.put('key', os.urandom(40), 0o600)] if keyed else []
    name = ', with a key' if keyed else ', no key'
    swept, ports = storm.swept(EIGHT), free_ports(9)
    hosts = storm.put('hosts', addresses(ports))
    slow = 'BOARDS_PAUSE=20000'
    with Wire(ports) as wire:
        remote(storm, 'boards of their own' + name, swept, hosts, more)
        recorded = list(wire.seen)
        remote(storm, 'replay of another run with the same source' + name, swept, hosts, more, replays(storm, wire, recorded), faults=slow)
        swept.again(storm.rng)
        remote(storm, 'replay of another run with another source' + name, swept, hosts, more, replays(storm, wire, recorded), faults=slow)
        # every packet of the run itself once more: late, and in another order
        held = []

        def repeat(from_port, to_port, payload):
            held.append((from_port, to_port, payload))
            if len(held) > 20 and len(wire.seen) < 50000:
                wire.put(*held.pop(storm.rng.randrange(len(held))))

        wire.heeds = repeat
        remote(storm, 'replay of the same run, late' + name, swept, hosts, more, faults='BOARDS_PAUSE=5000')
        # words altered by one who hears this run: with a key they are dropped, without one the grid is held to the sweep and not written
        wire.heeds = lambda from_port, to_port, payload: storm.rng.random() < (.3 if payload[28] == 1 else .1) and len(wire.seen) < 50000 and wire.put(
            from_port, to_port, altered(storm.rng, payload, keyed))
        remote(storm, 'forged packets of the same run' + name, swept, hosts, more, survives=keyed, faults='BOARDS_PAUSE=5000',
               arguments=[] if keyed else ['--timeout', '3'])
        wire.heeds = None
        storm.faults += wire.puts


def strangers(storm):
    if not Wire.may():
        print('not run: strangers, which want raw sockets')
        return
    for keyed in (False, True) if storm.has_keys else (False,):
        stranger(storm, keyed)
    hosts = storm.put('hosts', addresses(free_ports(9, '::1'), '::1')) if free_ports(1, '::1') else None
    if hosts:
        remote(storm, 'boards of their own at ::1', storm.swept(EIGHT), hosts)


# ---- machines of their own

def shell(line):
    return subprocess.run(line, shell=True, check=False, stderr=subprocess.DEVNULL).returncode == 0


def connect(names, hub):
    """A namespace for each name, with a device to the hub's."""
    made = shell('ip netns add ' + hub)
    for k, name in enumerate(names):
        made = made and shell(
            'ip netns add {0} && ip link add eth0 netns {0} type veth peer name port{1} netns {3} && ip -n {3} link set port{1} up'
            ' && ip -n {0} addr add 10.77.0.{2}/24 dev eth0 && ip -n {0} link set eth0 up && ip -n {0} link set lo up'.format(name, k, k + 1, hub))
    return made


def namespaces(storm):
    """The coordinator and each board in a network namespace of its own; between them hub.py, with delay, loss, repeats, damage and another order."""
    if not storm.has_keys:
        print('not run: network namespaces, which want keys')
        return
    mine, slow = os.getpid(), 'BOARDS_PAUSE=20000'
    names, hub = ['boards%d-%d' % (mine, k) for k in range(9)], 'boards%d-hub' % mine
    key = ['--key', storm.put('key', os.urandom(40), 0o600)]
    hosts = storm.put('far', ''.join('10.77.0.%d:7000\n' % (k + 1) for k in range(9)).encode())
    # a script a namespace, so that the process that is killed is the board: each exec keeps its number
    inside = [storm.put('in%d' % k, ('#!/bin/sh\nexec ip netns exec %s "$@"\n' % name).encode(), 0o755) for k, name in enumerate(names)]
    try:
        if not connect(names, hub):
            print('not run: network namespaces, which may not be made here')
            return
        for way in '1 0 0 0 0', '5 4 30 10 5', '20 15 10 0 1':
            between = subprocess.Popen(['ip', 'netns', 'exec', hub, sys.executable, HUB] + way.split() + ['port%d' % k for k in range(9)])
            time.sleep(.3)
            label = 'namespaces, %s ms give or take %s, %s%% lost, %s%% twice, %s%% damaged' % tuple(way.split())
            try:
                for stormy in (False, True):
                    boards = Boards(storm, hosts, 8, key, lambda board: [inside[board + 1]], faults=slow)
                    befalls = boards.kills if stormy else None
                    try:
                        storm.run(label + (', kill storm' if stormy else ''), storm.swept(EIGHT), slow, befalls,
                                  ['--hosts', hosts] + key, prefix=[inside[0]])
                    finally:
                        boards.close()
            finally:
                between.kill()
                between.wait()
    finally:
        for name in names + [hub]:
            shell('ip netns del ' + name)


STORMS = {'clean': clean, 'mail': mail, 'kills': kills, 'many': many, 'halts': halts, 'coordinator': coordinator, 'strangers': strangers,
          'namespaces': namespaces}
# each once, and then those more often that take less long
MORE = ['mail', 'kills', 'coordinator', 'strangers', 'mail', 'kills', 'halts', 'mail', 'kills', 'namespaces', 'coordinator', 'mail', 'kills', 'many', 'clean']


def lanes(count, arguments):
    """So many storms side by side, each with a seed of its own and its share of the runs; their last lines are added up."""
    command = [sys.executable, os.path.abspath(__file__)] + arguments
    share = -(-given.runs // count)
    command += ['--runs', str(share), '--minutes', str(given.minutes)]
    started = [subprocess.Popen(command + ['--seed', str(given.seed + k)], stdout=subprocess.PIPE, text=True) for k in range(count)]
    total = [0, 0, 0, 0]
    for one in started:
        said = one.communicate()[0]
        print(said, end='', flush=True)
        last = re.fullmatch(r'(\d+) runs, (\d+) faults, (\d+) wrong, (\d+) ended well', said.rstrip('\n').rpartition('\n')[2])
        total = [a + int(b) for a, b in zip(total, last.groups() if last else (0, 0, 1, 0))]
    print('%d runs, %d faults, %d wrong, %d ended well' % tuple(total))
    return 1 if total[2] else 0


def main(folder, runs, minutes, seed, only):
    until = time.time() + 60 * minutes
    with tempfile.TemporaryDirectory() as scratch:
        storm = Storm(folder, scratch, seed)
        first, more = ([name for name in names if not only or name in only] for names in (list(STORMS), MORE))
        # lanes side by side are not to do the same at the same time
        storm.rng.shuffle(first)
        storm.rng.shuffle(more)
        for name in itertools.chain(first, itertools.cycle(more)):
            if storm.runs >= runs and not first or time.time() > until:
                break
            STORMS[name](storm)
            first = first[1:]
        for what, (ran, well, seconds, counts) in sorted(storm.groups.items()):
            print('%-75s %3d of %3d, %.2f s each, %s' % (what, well, ran, seconds / ran, ' '.join('%s %d' % item for item in counts.items() if item[1])))
        print('%d runs, %d faults, %d wrong, %d ended well' % (storm.runs, storm.faults, storm.wrong, storm.well))
        return 1 if storm.wrong else 0


if __name__ == '__main__':
    parser = argparse.ArgumentParser(description=__doc__, formatter_class=argparse.RawDescriptionHelpFormatter)
    parser.add_argument('folder')
    parser.add_argument('--runs', type=int, default=1000)
    parser.add_argument('--minutes', type=float, default=120)
    parser.add_argument('--lanes', type=int, default=1)
    parser.add_argument('--seed', type=int, default=1)
    parser.add_argument('--only', nargs='*', choices=list(STORMS))
    given = parser.parse_args()
    if given.lanes > 1:
        sys.exit(lanes(given.lanes, [given.folder] + (['--only', *given.only] if given.only else [])))
    sys.exit(main(given.folder, given.runs, given.minutes, given.seed, given.only))
