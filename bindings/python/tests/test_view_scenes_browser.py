"""Offices, hours, boards apart and boards by hand in a headless chromium: what the page shows against the independent model, by real events.

    python3 bindings/python/tests/test_view_scenes_browser.py
"""

import json
import os
import signal
import subprocess
import tempfile
import time
import unittest

from command_support import START, environment, heeded, setUpModule  # noqa: F401
from support import Draw, model
from test_view import SHORE, data_in
from test_view_browser import InBrowser
from test_view_scenes import ROW_A, Modelled, States, cells_of, table_of

from rolwyddac.command.hours import DAYS
from rolwyddac.view import Shown, apart, page_of


def made(encoded, seed=1):
    """A page with all that can be shown."""
    cells = cells_of(encoded)
    about = Shown('a page', 'told', [], [word * 7919 % 2 ** 32 for word in range(cells)], table_of(encoded), True)
    return page_of(encoded, list(range(100, 100 + cells)), seed, about)


def behind(scene, t):
    """The words behind t events."""
    states = States(scene)
    for at in range(t):
        states.behind(at)
    return states.words


class Scenes(InBrowser):

    def go(self, name, count, draw):
        """To a drawn event by the slider, then by keys and buttons; where that is."""
        browser, stop = self.browser, draw.below(count + 1)
        wide = browser.js("document.getElementById('%sslider').getBoundingClientRect().width" % name)
        browser.click('#%sslider' % name, 8 + (wide - 16) * stop / count)
        now = browser.js('SCENES.%s.t' % name)
        self.assertLess(abs(now - stop), 2 + count // 50)
        browser.focus(name + 'slider')
        for key, step in (('ArrowRight', 1), ('ArrowLeft', -1), ('ArrowLeft', -1)):
            browser.key(key)
            now = max(0, min(count, now + step))
        for button, step in (('forward', 1), ('forward', 1), ('back', -1)):
            browser.click('#' + name + button)
            now = max(0, min(count, now + step))
        self.assertEqual(browser.text(name + 'count'), 'event %d of %d' % (now, count))
        self.assertIn('✓ the same', browser.text(name + 'check'))
        return now

    def offices(self, encoded, scene, draw):
        """Who holds a processor, whether it is open, and how far each office is."""
        plan, now = model.plan_of(encoded)[1], self.go('offices', len(scene['events']), draw)
        words, busy = behind(scene, now), [b for b in range(plan.boards) if plan.tiles_of[b]]
        minute = scene['events'][now - 1][4] if now else 0
        hours = model.Hours(scene['hours'], minute)
        held = words[6 * plan.boards:7 * plan.boards]
        lines = self.table('#officestables')
        self.assertEqual([line[:4] for line in lines], [
            [str(b), 'none' if held[b] == 2 else 'office %d' % held[b], 'open' if hours.is_open(b) else 'closed',
             '%d of %d' % (words[3 * b], len(plan.tiles_of[b]))] for b in busy])
        self.assertEqual([line[6] for line in lines], ['%d of %d' % (words[3 * (plan.boards + b)], len(plan.tiles_of[b])) for b in busy])
        if now:
            kind, which, number, office, minute = scene['events'][now - 1]
            self.assertTrue(self.browser.text('officeshead').startswith('%d' % number))
            self.assertIn('for office %d at ' % office, self.browser.text('officeshead'))
        first, last = self.browser.js('(g => [g.from, g.to])(columnsOf(SCENES.offices))')
        shut = sum(not model.Hours(scene['hours'], scene['events'][k][4]).is_open(b) for k in range(first, last) for b in busy)
        self.assertEqual(self.browser.js("document.querySelectorAll('#officesstrip .shut').length"), shut)
        self.assertEqual(self.browser.js("document.querySelectorAll('#officesweek .shut').length"), 3 * len(busy) - (0 in busy))

    def apart(self, encoded, scene, draw):
        """Boards and packets."""
        plan, now = model.plan_of(encoded)[1], self.go('apart', len(scene['events']), draw)
        words, busy = behind(scene, now), [b for b in range(plan.boards) if plan.tiles_of[b]]
        lines = self.browser.js("[...document.querySelectorAll('#aparttables .lines:not(.packets) tr')].slice(1).map(r => [...r.cells].map(c => c.innerText))")
        self.assertEqual([line[:4] for line in lines], [
            [str(b), 'up' if words[5 * b + 1] else 'down', str(words[5 * b]),
             '%d of %d' % (words[5 * b + 2], len(plan.tiles_of[b])) if words[5 * b + 1] else '–'] for b in busy])
        wanted = []
        for at, (kind, which, number, packet) in enumerate(scene['events'][:now], 1):
            if kind in (apart.POST, apart.AGAIN):
                wanted.append([str(packet), str(which), at, 'in flight', '–'])
            elif kind in (apart.ARRIVE, apart.LOSE):
                fate = 'lost' if kind == apart.LOSE else {None: 'lost, its board was down', 0: 'taken in', 14: 'turned away, it was here before'}[number]
                wanted[which][3:] = [fate, str(at)]
        shown = [[line[0], line[1], int(line[3]), line[4], line[5]] for line in self.table('#aparttables .packets')]
        self.assertEqual(shown, wanted[::-1])

    def test_pages(self):
        draw = Draw(45)
        for encoded in (ROW_A, bytes(SHORE)):
            data = self.show(made(encoded))
            for _ in range(5):
                self.offices(encoded, data['offices'], draw)
                self.apart(encoded, data['apart'], draw)
            self.browser.js('checkAll()')
            self.assertTrue(self.browser.text('stateresult').endswith('✓ all.'))
            self.assertEqual(self.browser.text('officestitle'), 'Two offices, by hours')

    def test_every_event_has_its_words(self):
        data = self.show(made(ROW_A))
        told = self.browser.js('upTo(SCENES.apart.count).map(k => apartTold(SCENES.apart, k).join(": "))')
        self.assertEqual([text for text in told if 'undefined' in text or 'NaN' in text], [])
        for (kind, which, _, _), text in zip(data['apart']['events'], told):
            self.assertIn(('turn of board %d', 'posts message %d', 'packet %d,', 'packet %d,', 'posts message %d again', 'board %d crashes',
                           'board %d starts again', 'collecting%.0s')[kind] % which, text)
        told = self.browser.js('upTo(SCENES.offices.count).map(k => officeTold(SCENES.offices, k).join(": "))')
        self.assertEqual([text for text in told if 'undefined' in text or 'NaN' in text], [])
        for (kind, which, number, office, minute), text in zip(data['offices']['events'], told):
            when = '%s %02d:%02d' % (DAYS[minute // 1440], minute % 1440 // 60, minute % 60)
            self.assertIn(('turn of processor %d for', 'delivery of message %d for', 'collecting the grid for%.0s')[kind] % which, text)
            self.assertIn('for office %d at %s' % (office, when), text)
            if number == 24:
                wait = model.opens(ROW_A, data['offices']['hours'], minute, which)[2]
                there = (minute + wait) % model.WEEK
                self.assertIn('It opens at %s %02d:%02d.' % (DAYS[there // 1440], there % 1440 // 60, there % 60), text)

    def test_left_out(self):
        """What is not given is not shown; what is shown has names for screen readers, each once."""
        self.show(page_of(ROW_A, [1] * 64, 1, Shown('a page', 'told', [])))
        self.assertEqual(self.browser.js("['offices', 'apart', 'tooffices', 'toapart', 'hand'].map(id => $(id).hidden)"), [True] * 5)
        self.show(made(ROW_A))
        tree = self.browser.do('Accessibility.getFullAXTree')['nodes']
        roles = ('button', 'slider', 'image', 'img', 'link')
        self.assertEqual([node['role']['value'] for node in tree if not node.get('ignored') and node['role']['value'] in roles
                          and not node.get('name', {}).get('value')], [])
        self.assertEqual(self.browser.js("(ids => ids.length - new Set(ids).size)([...document.querySelectorAll('[id]')].map(e => e.id))"), 0)
        self.assertLessEqual(self.browser.js("document.documentElement.scrollWidth - document.documentElement.clientWidth"), 0)

    def test_play(self):
        self.show(made(ROW_A))
        self.browser.js('sceneGo(SCENES.apart, SCENES.apart.count - 3)')
        self.browser.click('#apartplay')
        for _ in range(100):
            if self.browser.js('SCENES.apart.t === SCENES.apart.count && !SCENES.apart.playing'):
                break
            time.sleep(.05)
        self.assertEqual(self.browser.text('apartplay'), 'play')
        self.assertIn('collecting', self.browser.text('aparthead'))

    def test_swaps_over_more_than_two_places(self):
        """A call is moved by keys as far as the engine was asked, and every state on the way has its check number."""
        self.show(made(ROW_A))
        far = self.browser.js("""upTo(R.count).map(k => { let order = plan.order.slice(), at = k; const kept = plan.order;
          for (;;) { plan.order = order; if (!mayBe(plan, at - 1)) break; order = turned(order, at - 1); at--; } plan.order = kept; return k - at; })""")
        self.assertGreaterEqual(max(far), 3)
        k = far.index(max(far))
        for at in range(k - 1, k - 1 - max(far), -1):
            self.browser.js('go(%d)' % (at + 1))
            self.browser.key('s')
            self.assertEqual(self.browser.js('plan.order[%d]' % at), k)
        self.assertEqual(self.browser.js('upTo(R.count + 1).filter(t => sumAt(R, t) !== engineSum(plan, plan.order, t)).length + R.differs'), 0)
        self.assertFalse(self.browser.js('mayBe(plan, %d)' % (k - max(far) - 1)))


class Planted(InBrowser):
    """A page with one thing changed has to tell it."""

    def told(self, change):
        content = made(ROW_A)
        data = data_in(content)
        change(data)
        begin, end = content.index(b'id="data">') + len('id="data">'), content.index(b'</script>')
        self.show(content[:begin] + json.dumps(data).encode() + content[end:])
        self.browser.js('checkAll()')
        return '✗ not all' in self.browser.text('stateresult')

    def test_faults(self):
        def changed(name, key, at, new):
            def change(data):
                data[name][key][at] = new(data[name][key][at])
            return change
        faults = [
            ('a word at the start', changed('apart', 'start', 1, lambda word: 1 - word), True),
            ('a word that changed', changed('apart', 'changes', 0, lambda found: [found[0], found[1] + 1, *found[2:]]), True),
            ('a change left out', lambda data: next(found for found in data['offices']['changes'] if found).clear(), True),
            ('who holds a processor', changed('offices', 'start', 12, lambda word: 0), True),
            ('nothing', lambda data: None, False)]
        for name, change, wanted in faults:
            self.assertEqual(self.told(change), wanted, name)


class ByHand(InBrowser):
    """Boards driven by clicks; the engine answers with the model's number."""

    def setUp(self):
        super().setUp()
        folder = tempfile.TemporaryDirectory()
        self.addCleanup(folder.cleanup)
        with open(os.path.join(folder.name, 'r'), 'wb') as file:
            file.write(ROW_A)
        with heeded(signal.SIGINT):
            self.child = subprocess.Popen([*START, 'view', file.name, '--serve'], stdout=subprocess.PIPE, env=environment())
        self.addCleanup(self.child.wait)
        self.addCleanup(self.child.kill)
        self.addCleanup(self.child.stdout.close)
        self.address = self.child.stdout.readline().decode().strip()
        self.browser.do('Page.navigate', url=self.address)
        for _ in range(400):
            if self.browser.js("document.readyState === 'complete' && !!document.querySelector('#hand button')"):
                return
            time.sleep(.05)
        self.fail('the page did not open')

    def tearDown(self):
        # nothing is asked of another address
        self.assertEqual([url for url in self.browser.wanted if not url.startswith(self.address)], [])
        self.browser.wanted = []
        super().tearDown()

    def chosen(self, kind, which):
        """A button clicked; what is told then."""
        count = self.browser.js('SCENES.apart.count')
        self.browser.click('#hand button[data-kind="%d"][data-which="%d"]' % (kind, which))
        for _ in range(200):
            if self.browser.js('SCENES.apart.count') > count and not self.browser.js("document.querySelector('#hand button').disabled"):
                break
            time.sleep(.02)
        return self.browser.text('handtold')

    @staticmethod
    def missing(modelled):
        """Messages that a board waits for and has not."""
        found = []
        for b, own in enumerate(modelled.own):
            if own is not None and own.progress[1] == 0 and own.progress[0] < len(modelled.plan.tiles_of[b]):
                marks = dict(zip(model.handled(modelled.plan, b), own.marks))
                found += [m for m in modelled.plan.due_at[modelled.plan.tiles_of[b][own.progress[0]]] if marks[m] == 0]
        return found

    def test_to_the_end(self):
        modelled, draw, met = Modelled(ROW_A), Draw(47), set()
        for step in range(400):
            buttons = [tuple(map(int, each)) for each in self.browser.js(
                "[...document.querySelectorAll('#hand button')].map(b => [b.dataset.kind, b.dataset.which])")]
            kinds = {kind for kind, _ in buttons}
            plan = modelled.plan
            left = [b for b, own in enumerate(modelled.own) if own is None or own.progress[0] < len(plan.tiles_of[b])]
            wanted = [each for each in buttons if each[0] in (apart.POST, apart.ARRIVE, apart.START) or each[0] == apart.TURN and each[1] in left]
            if step in (20, 45) and apart.CRASH in kinds:
                wanted = [each for each in buttons if each[0] == apart.CRASH]
            elif step % 9 == 8 and step < 60 and apart.LOSE in kinds:
                wanted = [each for each in buttons if each[0] == apart.LOSE]
            elif step % 7 == 6 and step < 60 and apart.AGAIN in kinds:
                wanted = [each for each in buttons if each[0] == apart.AGAIN]
            elif step % 5 == 4 and any((apart.AGAIN, m) in buttons for m in self.missing(modelled)):
                wanted = [(apart.AGAIN, m) for m in self.missing(modelled) if (apart.AGAIN, m) in buttons]
            kind, which = (wanted or [(apart.COLLECT, 0)])[draw.below(len(wanted) or 1)]
            told, number = self.chosen(kind, which), modelled.take(kind, which)
            self.assertTrue(told.startswith('Done: ' if number is None else 'The engine answers %d' % number), (step, kind, which, number, told))
            self.assertEqual(self.browser.js('[...SCENES.apart.wordsAt(SCENES.apart.count)]'), modelled.words())
            self.assertIn('✓ the same', self.browser.text('apartcheck'))
            met.add((kind, number))
            if kind == apart.COLLECT:
                break
        self.assertIn('The grid equals the sequential sweep.', told)
        self.assertLessEqual({(apart.TURN, 0), (apart.TURN, 12), (apart.ARRIVE, 0), (apart.LOSE, None), (apart.AGAIN, None), (apart.CRASH, None),
                              (apart.START, None), (apart.COLLECT, 0)}, met)
        # by keyboard: what was used stays in focus
        self.assertEqual(self.browser.js('document.activeElement.dataset.kind'), str(apart.COLLECT))

    def test_ended(self):
        self.child.send_signal(signal.SIGINT)
        self.child.wait(timeout=60)
        self.browser.click('#hand button')
        for _ in range(100):
            if 'No answer' in self.browser.text('handtold'):
                return
            time.sleep(.05)
        self.fail(self.browser.text('handtold'))


if __name__ == '__main__':
    unittest.main()
