"""The page of `rolwyddac view` in a headless chromium: real pointer and key events, what it shows against the independent model, faults
planted in a page, print on A4. It is run by itself, for it takes a minute; without a chromium it is skipped.

    python3 bindings/python/tests/test_view_browser.py
    python3 bindings/python/tests/test_view_browser.py frames    # how long frames take for 128 by 128 cells
"""

import base64
import json
import os
import pathlib
import re
import sys
import tempfile
import time
import unittest

from command_support import setUpModule  # noqa: F401
from support import Draw, model, rolwyddac
from test_view import SHORE, SINGLE, THREE, data_in, readers_of, unpacked
from view_browser import CHROMIUM, Browser

from rolwyddac.view import Shown, page_of

ROW_A = bytes(model.encode([8, 8], [2, 2], [2, 0], [[1, 0], [0, 1], [1, 1]]))
LONG = bytes(model.encode([256, 4], [16, 2], [4, 0], [[1, 0], [0, 1]], shift=1, boundary=7))
WIDE = bytes(model.encode([128, 128], [16, 16], [8, 0], [[1, 0], [0, 1], [1, 1]], shift=2, boundary=1000))

# A4 in points, upright
A4 = 595, 842

# the state's check number is shown this long after the run rests
RESTED = .15

# not with this folder's other tests
BY_ITSELF = os.path.basename(sys.argv[0]) in ('test_view_browser.py', 'test_view_scenes_browser.py')

MARKS = ('unsent', 'in flight', 'delivered', 'taken')


def made(encoded, seed=1):
    cells = model.all_product(model.read(encoded)[1].lengths)
    return page_of(bytes(encoded), list(range(100, 100 + cells)), seed, Shown('a page', 'the words 100, 101, 102 and so on', []))


class InBrowser(unittest.TestCase):

    @classmethod
    def setUpClass(cls):
        if not CHROMIUM or not BY_ITSELF:
            raise unittest.SkipTest('no chromium' if BY_ITSELF else 'it is run by itself')
        cls.folder = tempfile.TemporaryDirectory()
        cls.browser = Browser()

    @classmethod
    def tearDownClass(cls):
        cls.browser.close()
        cls.folder.cleanup()

    def setUp(self):
        self.browser.faults, self.browser.wanted = [], []

    def tearDown(self):
        self.assertEqual(self.browser.faults, [])
        self.assertEqual([url for url in self.browser.wanted if not url.startswith(('file:', 'data:'))], [])

    def show(self, content):
        """Opens a page; what it is given."""
        path = pathlib.Path(self.folder.name, 'page.html')
        path.write_bytes(content)
        self.browser.open(path)
        return data_in(content)

    def table(self, selector):
        return self.browser.js("[...document.querySelectorAll('%s tr')].slice(1).map(r => [...r.cells].map(c => c.innerText))" % selector)


class Shows(InBrowser):

    def sum_text(self, plan, source, grid, cell):
        """A cell's sum written out."""
        if not plan.inside[cell]:
            return 'outside the shape: %d, never calculated or sent' % plan.nest.boundary
        total, told = source[cell], str(source[cell])
        for d, weight in zip(plan.nest.components, plan.nest.weights):
            at = plan.cell_number.get(tuple(i - x for i, x in zip(plan.places[cell], d)))
            value = plan.nest.boundary if at is None or not plan.inside[at] else grid[at]
            total, told = total + weight * value, told + ' + %d × %d' % (weight, value)
        told += ' = %d' % total
        if plan.nest.shift:
            told += ', %d / %d = %d' % (total, 2 ** plan.nest.shift, total >> plan.nest.shift)
        return told

    def cells(self, encoded, draw):
        """Cells pointed at, and gone to by keys."""
        plan, browser = model.plan_of(encoded)[1], self.browser
        source = list(range(100, 100 + plan.cells))
        grid = plan.swept(source)
        self.assertIn('yes, {0:,} of {0:,} words'.format(plan.cells), browser.text('verdict'))
        for _ in range(4):
            cell = draw.below(plan.cells)
            x, y, side = browser.js('[...sheets.grid.spot(%d), sheets.grid.s]' % cell)
            browser.point('#result', x + side / 2, y + side / 2)
            self.assertEqual(browser.text('cellhead'), 'Cell %d at (%s)' % (cell, ', '.join(map(str, plan.places[cell]))))
            self.assertEqual(browser.text('celltext'), self.sum_text(plan, source, grid, cell))
        browser.focus('source')
        place = list(plan.places[cell])
        for key, e, step in (('ArrowRight', -1, 1), ('ArrowDown', -2, 1), ('ArrowLeft', -1, -1), ('ArrowUp', -2, -1), ('ArrowUp', -2, -1)):
            browser.key(key)
            place[e] += step * (0 <= place[e] + step < plan.nest.lengths[e])
        self.assertEqual(browser.text('celltext'), self.sum_text(plan, source, grid, plan.cell_number[tuple(place)]))
        # a click on the cell that is held lets it go
        x, y, side = browser.js('[...sheets.grid.spot(S.cell), sheets.grid.s]')
        browser.click('#source', x + side / 2, y + side / 2)
        self.assertFalse(browser.js('S.held'))

    def messages(self, encoded, route, draw):
        """Tiles clicked on the map; their messages with all readers."""
        plan, browser, source = model.plan_of(encoded, route)[1], self.browser, list(range(100, 100 + model.plan_of(encoded)[1].cells))
        grid = plan.swept(source)
        for _ in range(3):
            t = draw.below(plan.tiles)
            cell = plan.cells_of[t][-1]
            x, y, side = browser.js('[...sheets.map.spot(%d), sheets.map.s]' % cell)
            browser.click('#map', x + side / 2, y + side / 2)
            self.assertEqual(browser.text('tilehead').split(' at ')[0], 'Tile %d' % t)
            handled = plan.sends_of[t] + plan.due_at[t]
            shown = browser.js("[...document.querySelectorAll('#tilemail tr.row')].map(r => [...r.cells].slice(0, 5).map(c => c.innerText))")
            self.assertEqual([int(line[0]) for line in shown], handled)
            for m in handled[:2]:
                message = plan.messages[m]
                browser.click('#tilemail button[data-message="%d"]' % m)
                lines = self.table('#messagecells')
                self.assertEqual([[int(line[0]), int(line[1]), int(line[4].replace(',', ''))] for line in lines],
                                 [[message.offset + k, c, grid[c]] for k, c in enumerate(message.cells)])
                for line, c in zip(lines, message.cells):
                    read = {(int(one.split()[0]), tuple(map(int, re.search(r'by \((.*?)\)', one)[1].split(', ')))): one.endswith('passed on')
                            for one in line[5].split('\n')}
                    self.assertEqual(read, readers_of(plan, message, c, route), (route, m, c))
                browser.click('#tilemail button[data-message="%d"]' % m)
                self.assertTrue(browser.js("document.getElementById('messagepanel').hidden"))

    def run_shown(self, encoded, route, found, draw):
        """The run by the slider, its buttons and keys, against the model."""
        plan, browser = model.plan_of(encoded, route)[1], self.browser
        events, numbers = unpacked('H', found['events']), unpacked('B', found['numbers'])
        for _ in range(4):
            stop = draw.below(len(events) + 1)
            wide = browser.js("document.getElementById('slider').getBoundingClientRect().width")
            browser.click('#slider', 8 + (wide - 16) * stop / len(events))
            now = browser.js('S.t')
            self.assertLess(abs(now - stop), 2 + len(events) // 50)
            browser.focus('slider')
            for key, step in (('ArrowRight', 1), ('ArrowLeft', -1), ('.', 1), (',', -1), ('.', 1)):
                browser.key(key)
                now = max(0, min(len(events), now + step))
                self.assertEqual(browser.text('count'), 'call %d of %d' % (now, len(events)))
            browser.click('#back')
            browser.click('#forward')
            browser.click('#forward')
            now = min(len(events), now + 1) if now < len(events) else now
            areas = model.areas_for(plan, list(range(100, 100 + plan.cells)))
            for event in events[:now]:
                kind, which = event >> 14, event & 0x3FFF
                (model.turn if kind == 0 else model.deliver)(encoded, areas, which, route) if kind < 2 else model.collect(encoded, areas, route)
            self.assertEqual(browser.text('count'), 'call %d of %d' % (now, len(events)))
            if now:
                self.assertEqual(browser.js("document.querySelector('#eventhead .badge').innerText"), str(numbers[now - 1]))
            busy = [b for b in range(plan.boards) if plan.tiles_of[b]]
            self.assertEqual([line[:2] for line in self.table('#records')],
                             [[str(b), '%d of %d' % (areas.progress[3 * b], len(plan.tiles_of[b]))] for b in busy])
            if plan.messages:
                told = re.findall(r'(\d+) (?:unsent|in flight|delivered|taken)', browser.text('marktext'))
                self.assertEqual([int(n) for n in told], [areas.status.count(mark) for mark in range(len(MARKS))])
            time.sleep(RESTED)
            self.assertIn('✓ the same', browser.text('eventcheck'))

    def swaps(self):
        """Pairs gone to and swapped by keys, overlapping ones too; the check number is the engine's at every call."""
        browser = self.browser
        browser.click('#first')
        swapped = 0
        for _ in range(12):
            browser.key('n')
            at = browser.js('openPair()')
            if at is None:
                break
            browser.click('#both')
            self.assertEqual(browser.text('swappanel').count('✗'), 0)
            self.assertEqual(len(re.findall('[0-9a-f]{8} ✓', browser.text('swappanel'))), 4)
            browser.click('#both')
            before = browser.js('[eventWords(R, %d)[2], eventWords(R, %d)[2]]' % (at, at + 1))
            browser.key('s')
            self.assertEqual(browser.js('[eventWords(R, %d)[2], eventWords(R, %d)[2]]' % (at + 1, at)), before)
            swapped += 1
        self.assertEqual(browser.js('upTo(R.count + 1).filter(t => sumAt(R, t) !== engineSum(plan, plan.order, t)).length + R.differs'), 0)
        return browser.js('plan.order.some((e, k) => Math.abs(e - k) > 1)'), swapped

    def test_pages(self):
        draw, overlapping = Draw(44), []
        for encoded in (ROW_A, bytes(THREE), bytes(SHORE), bytes(SINGLE), LONG):
            data = self.show(made(encoded))
            self.cells(encoded, draw)
            for route, found in enumerate(data['plans']):
                self.browser.click('#route%d' % route)
                self.messages(encoded, route, draw)
                self.run_shown(encoded, route, found, draw)
                overlapping.append(self.swaps())
                self.browser.click('#checkstates')
                for _ in range(200):
                    if self.browser.text('stateresult').endswith('all.'):
                        break
                    time.sleep(.05)
                self.assertTrue(self.browser.text('stateresult').endswith('✓ all.'))
        self.assertIn(True, [further for further, _ in overlapping])
        self.assertGreater(sum(count for _, count in overlapping), 30)

    def test_folded_and_idle(self):
        self.show(made(LONG))
        self.assertTrue(self.browser.js('sheets.grid.isFolded && sheets.map.isFolded'))
        self.assertEqual(self.browser.js('upTo(CELLS).filter(c => { const [x, y] = sheets.grid.spot(c), h = sheets.grid.s / 2;'
                                         'return sheets.grid.cellAt(x + h, y + h) !== c }).length'), 0)
        self.assertLessEqual(self.browser.js("document.documentElement.scrollWidth - document.documentElement.clientWidth"), 0)
        self.show(made(bytes(SINGLE)))
        self.assertEqual(self.browser.js('[BUSY, IDLE]'), [[0, 1, 2], [3, 4]])
        self.assertIn('2 processors without a tile (3, 4) not shown', self.browser.text('idletext'))
        self.show(made(ROW_A))
        self.assertFalse(self.browser.js('sheets.grid.isFolded'))
        # no figure is cut off
        self.assertEqual(self.browser.js("[...document.querySelectorAll('figure')].filter(f => f.scrollWidth > f.clientWidth).length"), 0)

    def test_by_keyboard(self):
        """Every control is reached by the tab key, a message's button by it and enter; what is in focus is outlined."""
        self.show(made(ROW_A))
        met = set()
        self.browser.js('document.activeElement.blur()')
        for _ in range(50):
            self.browser.key('Tab')
            met.add(self.browser.js('(e => e.id || e.className || e.tagName)(document.activeElement)'))
            self.assertTrue(self.browser.js("(e => e === document.body || getComputedStyle(e).outlineStyle !== 'none')(document.activeElement)"))
        self.assertLessEqual({'skip', 'route0', 'route1', 'source', 'result', 'map', 'roundsbox', 'slider', 'play', 'plain', 'checkstates', 'nextpair'}, met)
        self.browser.js("document.querySelector('#tilemail button').focus()")
        before = self.browser.js('S.message')
        self.browser.key('Enter')
        self.assertNotEqual(self.browser.js('S.message'), before)
        self.assertEqual(self.browser.js('document.activeElement.className'), 'plain')
        for key, place in (('g', 'source'), ('m', 'map'), ('o', 'roundsbox'), ('r', 'slider')):
            self.browser.key(key)
            self.assertEqual(self.browser.js('document.activeElement.id'), place)
        self.browser.key('x')
        self.assertEqual(self.browser.js('plan.route'), 'indirect')

    def test_texts_for_screen_readers(self):
        """Every control and every drawing has a name; ids that are referred to are there; the names of ids are used once."""
        self.show(made(ROW_A))
        tree = self.browser.do('Accessibility.getFullAXTree')['nodes']
        unnamed = [node['role']['value'] for node in tree if not node.get('ignored') and node['role']['value'] in (
            'button', 'slider', 'spinbutton', 'checkbox', 'combobox', 'image', 'img', 'application', 'link') and not node.get('name', {}).get('value')]
        self.assertEqual(unnamed, [])
        self.assertEqual(self.browser.js("[...document.querySelectorAll('[aria-describedby],[aria-labelledby]')].flatMap(e => [e.getAttribute('aria-describedby'),"
                                         "e.getAttribute('aria-labelledby')]).filter(id => id && !document.getElementById(id))"), [])
        self.assertEqual(self.browser.js("(ids => ids.length - new Set(ids).size)([...document.querySelectorAll('[id]')].map(e => e.id))"), 0)
        self.assertRegex(self.browser.js("document.getElementById('slider').getAttribute('aria-valuetext')"), r'^call \d+: \w')

    def test_print(self):
        self.show(made(ROW_A))
        pdf = self.browser.pdf()
        boxes = {tuple(round(float(n)) for n in box.split()[2:]) for box in re.findall(rb'/MediaBox\s*\[([^\]]*)\]', pdf)}
        self.assertEqual(boxes, {A4})
        self.assertLess(len(re.findall(rb'/Type\s*/Page[^s]', pdf)), 12)


class Planted(InBrowser):
    """A page with one thing changed has to tell it."""

    def told(self, change):
        content = made(ROW_A)
        data = data_in(content)
        change(data, data['plans'][0])
        begin, end = content.index(b'id="data">') + len('id="data">'), content.index(b'</script>')
        self.show(content[:begin] + json.dumps(data).encode() + content[end:])
        self.browser.js('checkAll()')
        return '✗ not all' in self.browser.text('stateresult'), '✗' in self.browser.text('verdict')

    def test_faults(self):
        def turned(place, key, at, bit=1):
            content = bytearray(base64.b64decode(place[key]))
            content[at] ^= bit
            place[key] = base64.b64encode(bytes(content)).decode()
        faults = [
            ('a word of the result', lambda data, plan: turned(data, 'grid', 4 * 21), (True, True)),
            ('a word of the source', lambda data, plan: turned(data, 'source', 4 * 21), (False, True)),
            ('a cell of a message', lambda data, plan: turned(plan, 'cells', 2 * 5), (True, False)),
            ('a call', lambda data, plan: turned(plan, 'events', 0), (True, False)),
            ('a number', lambda data, plan: turned(plan, 'numbers', 3, 12), (True, False)),
            ('a check number', lambda data, plan: turned(plan, 'sums', 8), (True, False)),
            ('a check number of another order', lambda data, plan: turned(plan, 'others', 8), (True, False)),
            ('nothing', lambda data, plan: None, (False, False))]
        for name, change, wanted in faults:
            self.assertEqual(self.told(change), wanted, name)


FRAMES = '''(async () => {
  const told = times => { times.sort((a, b) => a - b); return [.5, .95, 1].map(f => Math.round(times[Math.min(times.length - 1, Math.floor(times.length * f))] * 10) / 10); };
  const timed = act => { const begun = performance.now(); act(); document.body.offsetHeight; return performance.now() - begun; };
  const steps = upTo(R.count).map(t => timed(() => go(t))), cells = upTo(200).map(k => timed(() => chooseCell(k * 7919 % CELLS)));
  const tiles = upTo(TILES).map(t => timed(() => chooseTile(t))), frames = [];
  $('run').scrollIntoView();
  go(0);
  $('speed').value = '120';
  for (let k = 0; k < 5; k++) await new Promise(requestAnimationFrame);
  play(true);
  await new Promise(done => { let last = 0; const f = now => { if (last) frames.push(now - last); last = now; S.playing ? requestAnimationFrame(f) : done(); };
    requestAnimationFrame(f); });
  return {step: told(steps), cell: told(cells), tile: told(tiles), frame: told(frames), frames: frames.length};
})()'''


def frames(as_table=False):
    """Milliseconds for 128 by 128 cells: the median, 95 of 100, the most; as rows of docs/BENCHMARKS.md the ranges of three runs."""
    runs = []
    begun = time.time()
    content = made(WIDE)
    print('page of %d bytes in %.1f s; load %s' % (len(content), time.time() - begun, ' '.join('%.1f' % load for load in os.getloadavg())))
    browser = Browser()
    try:
        with tempfile.TemporaryDirectory() as folder:
            path = pathlib.Path(folder, 'page.html')
            path.write_bytes(content)
            for _ in range(3):
                browser.open(path)
                runs.append(browser.js(FRAMES))
                print(json.dumps(runs[-1]), 'load %.1f' % os.getloadavg()[0])
    finally:
        browser.close()
    named = {'frame': 'a frame at 120 calls a second', 'step': 'one step of the run', 'cell': 'a cell pointed at', 'tile': 'a tile chosen'}
    for what, label in named.items() if as_table else ():
        ends = [(min(times), max(times)) for times in zip(*(run[what] for run in runs))]
        print('| %s | %s |' % (label, ' | '.join('%g' % low if low == high else '%g to %g' % (low, high) for low, high in ends)))


if __name__ == '__main__':
    if sys.argv[1:2] == ['frames']:
        frames(as_table=sys.argv[2:] == ['table'])
    else:
        unittest.main()
