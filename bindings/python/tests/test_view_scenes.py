"""Offices, hours and boards apart on the page of `rolwyddac view`, and boards driven by hand: every number and word against the independent model."""

import base64
import array
import http.client
import json
import os
import re
import signal
import socket
import struct
import subprocess
import unittest
import zlib
from unittest import mock

from command_support import START, InFolder, content_of, environment, heeded, setUpModule  # noqa: F401
from support import Case, Draw, model
from test_view import SHORE, SINGLE, THREE, data_in

from rolwyddac.view import Differs, Shown, apart, offices, page_of, served

ROW_A = bytes(model.encode([8, 8], [2, 2], [2, 0], [[1, 0], [0, 1], [1, 1]]))
RECIPES = (ROW_A, bytes(THREE), bytes(SHORE), bytes(SINGLE))

TURN, DELIVER, COLLECT = 0, 1, 2


def cells_of(encoded):
    return model.plan_of(encoded)[1].cells


def table_of(encoded):
    """Hours of each processor: some of the week, other ones for each."""
    found = []
    for b in range(model.plan_of(encoded)[1].boards):
        windows = [60 * b, 60 * b + 45, 1440, 1441 + b, 5000, 10080]
        found += windows + [0] * (2 * model.WINDOWS - len(windows))
    return array.array('I', found)


def made(encoded, seed=1, **more):
    source = list(range(100, 100 + cells_of(encoded)))
    return data_in(page_of(encoded, source, seed, Shown('a page', 'told', [], **more)))


class States:
    """The words of a scene, as its changes make them."""

    def __init__(self, scene):
        self.scene, self.words = scene, list(scene['start'])
        self.sums = array.array('I', base64.b64decode(scene['sums'])).tolist()

    def behind(self, at):
        """The words behind event `at`, which is the next one."""
        changes = self.scene['changes'][at]
        for place, word in zip(changes[::2], changes[1::2]):
            self.words[place] = word
        return self.words

    def told(self, at):
        """The check number that the page has."""
        return self.sums[at]

    def sum(self):
        return zlib.crc32(struct.pack('<%dI' % len(self.words), *self.words))


class Offices(Case):

    def holds(self, encoded, scene, sources, table):
        """Each call's number and words by the model."""
        plan, states = model.plan_of(encoded)[1], States(scene)
        both = [model.areas_for(plan, source) for source in sources]
        engaged = [model.FREE] * plan.boards
        met, shared = set(), len(sources) == 2
        for at, (kind, which, number, office, minute) in enumerate(scene['events']):
            areas, hours = both[office], model.Hours(list(table), minute) if table else None
            rig = model.Rig(engaged, both[1 - office].progress, office) if shared else None
            given = (model.turn(encoded, areas, which, 0, rig, hours) if kind == TURN else model.deliver(encoded, areas, which, 0, rig) if kind == DELIVER
                     else model.collect(encoded, areas, 0, rig))
            self.assertEqual(given, number, (at, kind, which))
            words = [word for each in both for word in each.progress] + engaged + [mark for each in both for mark in each.status]
            self.assertEqual(states.behind(at), words, at)
            self.assertEqual(states.sum(), states.told(at + 1))
            met.add(number)
        for areas, source in zip(both, sources):
            self.assertEqual(areas.grid, plan.swept(source))
        return met

    def test_two(self):
        met = set()
        for encoded in RECIPES:
            cells = cells_of(encoded)
            second = [word * 7919 % 2 ** 32 for word in range(cells)]
            for table in (None, table_of(encoded)):
                for seed in (1, 2):
                    data = made(encoded, seed, second=second, hours=table)
                    self.assertEqual(data['offices']['offices'], 2)
                    self.assertEqual(data['offices']['hours'], None if table is None else list(table))
                    met |= self.holds(encoded, data['offices'], [list(range(100, 100 + cells)), second], table)
        self.assertLessEqual({0, 12, 19, 24}, met)

    def test_one_by_hours(self):
        for encoded in RECIPES:
            data = made(encoded, hours=table_of(encoded))
            met = self.holds(encoded, data['offices'], [list(range(100, 100 + cells_of(encoded)))], table_of(encoded))
            self.assertIn(24, met)

    def test_left_out(self):
        self.assertEqual({'offices', 'apart'} & set(made(ROW_A)), set())


class Modelled:
    """Boards apart by the model: their own parts, and the packets' words."""

    def __init__(self, encoded):
        self.encoded, self.plan = encoded, model.plan_of(encoded)[1]
        self.source = list(range(100, 100 + self.plan.cells))
        self.own = [self.fresh(b) for b in range(self.plan.boards)]
        self.starts, self.packets = [1] * self.plan.boards, []

    def fresh(self, b):
        return model.own_areas_for(self.plan, b, self.source)

    def ends(self, m):
        return [self.plan.board_of[tile] for tile in (self.plan.messages[m].sender, self.plan.messages[m].taker)]

    def mail(self, m):
        sender = self.ends(m)[0]
        at = sum(len(self.plan.messages[k].cells) for k in model.handled(self.plan, sender) if k < m)
        return self.own[sender].mail[at:at + len(self.plan.messages[m].cells)]

    def take(self, kind, which):
        """The number, none where the engine is not asked."""
        if kind == apart.TURN:
            return model.part_turn(self.encoded, self.own[which], which)
        if kind in (apart.POST, apart.AGAIN):
            number = model.part_post(self.encoded, self.own[self.ends(which)[0]], self.ends(which)[0], which) if kind == apart.POST else None
            if not number:
                self.packets.append((which, self.mail(which)))
            return number
        if kind == apart.ARRIVE:
            m, words = self.packets[which]
            taker = self.ends(m)[1]
            return None if self.own[taker] is None else model.part_arrive(self.encoded, self.own[taker], taker, m, words)
        if kind in (apart.CRASH, apart.START):
            self.own[which] = self.fresh(which) if kind == apart.START else None
            self.starts[which] += kind == apart.START
        if kind == apart.COLLECT:
            return next((number for number in (model.part_collect(self.encoded, own, b) for b, own in enumerate(self.own)) if number), 0)
        return None

    def words(self):
        found = [word for b, own in enumerate(self.own) for word in (self.starts[b], int(own is not None), *(own.progress if own else [0] * 3))]
        for m in range(len(self.plan.messages)):
            for b in self.ends(m):
                found.append(0 if self.own[b] is None else self.own[b].marks[model.handled(self.plan, b).index(m)])
        return found

    def grid(self):
        found = [self.plan.nest.boundary] * self.plan.cells
        for b, own in enumerate(self.own):
            for c in model.own_cells(self.plan, b):
                found[c] = own.grid[c]
        return found


class Boards(Case):

    def test_apart(self):
        """Every number and word by the model, crashes, losses and repeats among them; what is collected is the sweep."""
        met = set()
        for encoded in RECIPES:
            for seed in range(1, 5):
                scene = made(encoded, seed, boards=True)['apart']
                modelled, states, sent = Modelled(encoded), States(scene), 0
                self.assertEqual(states.sum(), states.told(0))
                for at, (kind, which, number, packet) in enumerate(scene['events']):
                    self.assertEqual(modelled.take(kind, which), number, (seed, at, kind, which))
                    self.assertEqual(states.behind(at), modelled.words(), (seed, at))
                    self.assertEqual(states.sum(), states.told(at + 1))
                    met.add((kind, number))
                    if kind in (apart.POST, apart.AGAIN):
                        self.assertEqual((packet, scene['packets'][packet]), (sent, which))
                        sent += 1
                self.assertEqual((modelled.grid(), sent), (modelled.plan.swept(modelled.source), len(scene['packets'])))
        kinds = {(apart.TURN, 0), (apart.TURN, 12), (apart.POST, 0), (apart.ARRIVE, 0), (apart.ARRIVE, 14), (apart.LOSE, None), (apart.AGAIN, None),
                 (apart.CRASH, None), (apart.START, None), (apart.COLLECT, 0)}
        self.assertLessEqual(kinds, met)

    def test_by_hand(self):
        """Any event, sensible or not, in a drawn order: the answer is the model's."""
        draw, met = Draw(46), set()
        # mostly what brings a run on; 8 is no kind
        kinds = [apart.TURN] * 20 + [apart.POST] * 8 + [apart.ARRIVE] * 12 + [apart.AGAIN] * 4 + [apart.START] * 3 + [apart.LOSE, apart.COLLECT, apart.CRASH, 8]
        for encoded in (ROW_A, bytes(SHORE)):
            _, session = served(encoded, list(range(100, 100 + cells_of(encoded))), 1, Shown('a page', 'told', []))
            modelled, words = Modelled(encoded), list(session.data()['start'])
            for _ in range(600):
                kind = kinds[draw.below(len(kinds))]
                which = draw.below(max(1, len(modelled.packets)) if kind in (apart.ARRIVE, apart.LOSE) else 6)
                told = session.event(kind, which)
                if 'refused' in told:
                    met.add('refused')
                    continue
                self.assertEqual(told['event'][:3], [kind, which, modelled.take(kind, which)])
                for place, word in zip(told['changes'][::2], told['changes'][1::2]):
                    words[place] = word
                self.assertEqual(words, modelled.words())
                self.assertEqual(told['sum'], zlib.crc32(struct.pack('<%dI' % len(words), *words)))
                self.assertEqual(told['packets'], [m for m, _ in modelled.packets])
                met.add((kind, told['event'][2]))
        self.assertLessEqual({'refused', (apart.TURN, 0), (apart.TURN, 12), (apart.POST, 14), (apart.ARRIVE, 14), (apart.COLLECT, 15),
                              (apart.CRASH, None)}, met)


class Faults(Case):
    """A scene whose grid is not the sweep's is not made."""

    def differs(self, place, name, changed, **more):
        whole = getattr(place, name)
        with mock.patch.object(place, name, changed(whole)), self.assertRaises(Differs):
            made(ROW_A, **more)

    def test_planted(self):
        # an arrival brings another message's words; a board keeps nothing of its part
        self.differs(apart.Apart, '_send', lambda whole: lambda self, message, words: whole(self, message, array.array('I', [word ^ 1 for word in words])),
                     boards=True)
        self.differs(apart.Apart, '_fresh', lambda whole: lambda self, b: apart.PartBoard(self.encoded, 0, [1] * 32, b), boards=True)
        self.differs(offices, 'EXPORTED', lambda whole: {**whole, 'sweep': lambda *words: None}, second=[1] * 64)


class Command(InFolder):

    HOURS = '[[open]]\ndays = ["Mon", "Tue"]\nfrom = "08:00"\nto = "12:30"\n[[open]]\nfrom = "23:00"\nto = "24:00"\nprocessors = [1]\n'

    def test_options(self):
        recipe, second = self.put('r', ROW_A), self.put('s', struct.pack('<64I', *range(64)))
        self.ends(0, 'view', recipe, '--second', second, '--hours', self.put('h', self.HOURS), '--boards', '--out', self.path('p'))
        data = data_in(content_of(self.path('p')))
        self.assertEqual(data['offices']['hours'][:6] + data['offices']['hours'][28:34], [480, 750, 1920, 2190, 0, 0, 480, 750, 1920, 2190, 1380, 1440])
        self.assertIn('apart', data)
        again = content_of(self.path('p'))
        self.ends(0, 'view', recipe, '--second', second, '--hours', self.path('h'), '--boards', '--out', self.path('p'))
        self.assertEqual(content_of(self.path('p')), again)

    def test_faults(self):
        recipe = self.put('r', ROW_A)
        self.ends(2, 'view', recipe, told='one of the arguments -o/--out --serve is required')
        self.ends(2, 'view', recipe, '--serve', '--out', self.path('p'), told='not allowed with argument')
        self.ends(2, 'view', recipe, '--port', 80, '--out', self.path('p'), told='--port goes with --serve')
        self.ends(1, 'view', recipe, '--second', self.put('s', b'abc'), '--out', self.path('p'), told='256 are needed')
        for text, told in ((self.HOURS.replace('"Tue"', '"Die"'), '`days` is a list of Mon'), (self.HOURS.replace('12:30', '07:00'), 'begins at 08:00'),
                           (self.HOURS.replace('12:30', '12:60'), 'needs `to`'), (self.HOURS.replace('from = "08', 'since = "08'), 'unknown key `since`'),
                           (self.HOURS.replace('[1]', '[2]'), '`processors` is a list'),
                           ('[[open]]\nfrom = "00:00"\nto = "01:00"\nprocessors = [0]\n', 'processor 1 never opens'),
                           (self.HOURS * 4, 'processor 1 has 36 windows; at most 14'), ('open = 3\n', 'tables [[open]]'), ('[shut]\n', '`shut` is none'),
                           ('x', 'no TOML')):
            self.ends(1, 'view', recipe, '--hours', self.put('h', text), '--out', self.path('p'), told=told)
        self.ends(3, 'view', recipe, '--hours', self.path('none'), '--out', self.path('p'), told='No such file')
        self.assertFalse(os.path.exists(self.path('p')))


class Served(InFolder):

    def setUp(self):
        super().setUp()
        with heeded(signal.SIGINT), heeded(signal.SIGHUP):
            self.child = subprocess.Popen([*START, 'view', self.put('r', ROW_A), '--serve'], stdout=subprocess.PIPE, stderr=subprocess.PIPE,
                                          env=environment())
        self.addCleanup(self.child.stdout.close)
        self.addCleanup(self.child.stderr.close)
        self.addCleanup(self.child.wait)
        self.addCleanup(self.child.kill)
        self.port, self.token = re.fullmatch(r'http://127\.0\.0\.1:(\d+)/([\w-]{22})/\n', self.child.stdout.readline().decode()).groups()

    def asked(self, method, path, body=None, **headers):
        connection = http.client.HTTPConnection('127.0.0.1', int(self.port), timeout=60)
        connection.request(method, path, body, {'Host': '127.0.0.1:' + self.port, **headers})
        answer = connection.getresponse()
        content = answer.read()
        connection.close()
        return answer.status, content

    def test_page_and_events(self):
        status, content = self.asked('GET', '/%s/' % self.token)
        self.assertEqual((status, data_in(content)['apart']['live'], data_in(content)['apart']['events']), (200, True, []))
        event = '/%s/event' % self.token
        told = [json.loads(self.asked('POST', event, json.dumps({'kind': kind, 'which': which}))[1]) for kind, which in
                ((apart.TURN, 1), (apart.TURN, 0), (apart.CRASH, 1), (apart.TURN, 1), (apart.START, 1), (apart.COLLECT, 0))]
        self.assertEqual([each['event'][2] if 'event' in each else None for each in told], [12, 0, None, None, None, 15])
        self.assertIn('refused', told[3])

    def test_others_are_not_answered(self):
        """Neither another path, nor a page of another site, nor what is no event."""
        event = '/%s/event' % self.token
        good = json.dumps({'kind': 0, 'which': 0})
        for method, path, body, headers in (
                ('GET', '/', None, {}), ('GET', '/%s/' % ('x' * 22), None, {}), ('GET', event, None, {}), ('POST', '/event', good, {}),
                ('GET', '/%s/' % self.token, None, {'Host': 'evil.example'}), ('POST', event, good, {'Host': 'evil.example:' + self.port}),
                ('POST', event, good, {'Origin': 'http://evil.example'})):
            self.assertEqual(self.asked(method, path, body, **headers)[0], 404, (method, path, headers))
        for body in ('', 'x', '[]', '{"kind": 0}', '{"kind": 0, "which": -1}', '{"kind": true, "which": 0}', '{"kind": 0, "which": 0, "more": 0}', ' ' * 2000):
            self.assertEqual(self.asked('POST', event, body)[0], 400, body)
        self.assertEqual(self.asked('POST', event, good, Origin='http://127.0.0.1:' + self.port)[0], 200)

    def test_ends_with_the_terminal(self):
        self.child.send_signal(signal.SIGHUP)
        self.assertEqual(self.child.wait(timeout=60), -signal.SIGHUP)

    def test_port_in_use(self):
        self.ends(3, 'view', self.path('r'), '--serve', '--port', self.port, told='port %s of 127.0.0.1: Address already in use' % self.port)

    def test_browser_that_goes_away(self):
        """Who hangs up in the middle is not told of in the terminal, and others are answered."""
        for words in (b'GET /%s/ HTTP/1.1\r\nHost: 127.0.0.1:%s\r\n\r\n', b'POST /%s/event HTTP/1.1\r\nHost: 127.0.0.1:%s\r\nContent-Length: 9\r\n\r\n{'):
            for _ in range(5):
                with socket.create_connection(('127.0.0.1', int(self.port))) as connection:
                    connection.sendall(words % (self.token.encode(), self.port.encode()))
                    # closed at once, what has come unread
                    connection.setsockopt(socket.SOL_SOCKET, socket.SO_LINGER, struct.pack('ii', 1, 0))
        self.assertEqual(self.asked('GET', '/%s/' % self.token)[0], 200)
        self.child.send_signal(signal.SIGINT)
        self.child.wait(timeout=60)
        self.assertEqual(self.child.stderr.read(), b'')

    def test_ends_with_ctrl_c(self):
        self.child.send_signal(signal.SIGINT)
        self.assertEqual(self.child.wait(timeout=60), -signal.SIGINT)


if __name__ == '__main__':
    unittest.main()
