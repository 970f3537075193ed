"""The page of `rolwyddac view`, without a browser: its bytes, its parts, and the values in it against the independent model."""

import array
import base64
import itertools
import json
import os
import re
import struct
import unittest
import zlib
from unittest import mock

from command_support import BASIN, SMALL, SURVEYS, InFolder, content_of, setUpModule  # noqa: F401
from support import Case, Draw, fields_of, model, recipe_of, rolwyddac

from rolwyddac.view import Differs, Shown, page_of
from rolwyddac.view import nest as reading
from rolwyddac.view import page, recording, states

# a part's lines, and a line's columns, so that a person can read it
MOST_LINES, MOST_COLUMNS = 300, 160

# WCAG: text against its ground
LEAST_CONTRAST = 4.5

SHORE = model.encode([6, 6], [2, 2], [3, 0], [[1, 0], [1, 1]], shift=1, boundary=9, bounds=[(0, 1, 0, 1, 0)])
THREE = model.encode([6, 6, 4], [2, 2, 2], [2, 3, 0], [[1, 1, 0], [2, 0, 1], [0, 1, 1]], [1, 2, 3], 1, 5)
# spread dimensions on one processor, the first or the second, and more processors than tiles
SINGLE = model.encode([4, 6, 4], [2, 2, 2], [1, 5, 0], [[1, 1, 0], [1, 0, 1]], [1, 1], 0, 1)
SECOND_SINGLE = model.encode([6, 4, 4], [2, 2, 2], [3, 1, 0], [[1, 1, 0], [1, 0, 1]], [1, 1], 0, 1)


def data_in(content):
    """What a page's script is given."""
    return json.loads(re.search('<script type="application/json" id="data">(.*?)</script>', content.decode(), flags=re.S)[1])


def unpacked(kind, text):
    return array.array(kind, base64.b64decode(text)).tolist()


def data_of(encoded, source, seed=1):
    return data_in(page_of(bytes(encoded), source, seed, Shown('name', 'told', [])))


def readers_of(plan, message, cell, route):
    """The cells that read a message's cell by it, each with whether the taker passes it on: all v are tried, as the model makes the sets."""
    nest, m = plan.nest, len(message.direction)
    tile_place = [tuple(i // k for i, k in zip(place, nest.tiling)) for place in plan.places]
    own = tile_place[cell]
    sender = tile_place[plan.cells_of[message.sender][0]]
    q = message.direction.index(1) if route else None
    found = {}
    for v in itertools.product((0, 1), repeat=m):
        if route and (v[q] != 1 or own != tuple(i - (v[j] if j < q else 0) for j, i in enumerate(sender[:m])) + sender[m:]):
            continue
        if not route and v != message.direction:
            continue
        for d in nest.components:
            reader = plan.cell_number.get(tuple(i + x for i, x in zip(plan.places[cell], d)))
            if reader is not None and plan.inside[reader] and all(tile_place[reader][j] - own[j] == v[j] for j in range(m)):
                found[reader, tuple(d[:nest.n])] = bool(route) and any(v[j] and nest.counts[j] > 1 for j in range(q + 1, m))
    return found


def sum_of(plan, areas):
    """The check number of the model's areas."""
    parts = [areas.memories[b * plan.cells:(b + 1) * plan.cells] for b in range(plan.boards)]
    pack = lambda numbers: struct.pack('<%dI' % len(numbers), *numbers)  # noqa: E731
    found = zlib.crc32(pack([zlib.crc32(pack(part)) for part in parts]))
    for octets in (pack(areas.buffer), pack(areas.progress), bytes(areas.status)):
        found = zlib.crc32(octets, found)
    return found


class Values(Case):

    # the sets of calls that were taken before another
    moved = set()

    def holds(self, encoded, source, seed=1):
        """All values of a page against the model."""
        data, plan = data_of(encoded, source, seed), model.plan_of(encoded)[1]
        self.assertEqual(unpacked('I', data['grid']), plan.swept(source))
        self.assertEqual(unpacked('I', data['source']), source)
        self.assertEqual(unpacked('H', data['tile']), [page.OUTSIDE if t is None else t for t in plan.tile_of])
        self.assertEqual((data['on'], data['rounds']), (plan.board_of, model.tile_rounds(plan)))
        self.assertEqual(len(data['plans']), 1 if plan.nest.bounds else 2)
        for route, found in enumerate(data['plans']):
            self.messages(encoded, route, found)
            self.moved.update(self.run_again(encoded, route, source, found))
        return data

    def messages(self, encoded, route, found):
        """Rows, cells and readers, the readers complete."""
        plan = model.plan_of(encoded, route)[1]
        rows, cells, masks = unpacked('H', found['rows']), unpacked('H', found['cells']), unpacked('B', found['readers'])
        self.assertEqual(unpacked('I', found['words']), [len(message.cells) for message in plan.messages])
        self.assertEqual(cells, [cell for message in plan.messages for cell in message.cells])
        self.assertEqual(len(masks), 2 * len(cells))
        distances = [tuple(d[:plan.nest.n]) for d in plan.nest.components]
        for m, message in enumerate(plan.messages):
            self.assertEqual(rows[4 * m:4 * m + 4], [message.sender, message.taker, plan.board_of[message.sender], plan.board_of[message.taker]])
            self.assertEqual(found['directions'][m], ''.join(map(str, message.direction)))
            for k, cell in enumerate(message.cells):
                by, further = masks[2 * (message.offset + k):][:2]
                got = {}
                for bit, d in enumerate(distances):
                    if by >> bit & 1:
                        got[plan.cell_number[tuple(i + x for i, x in zip(plan.places[cell], d))], d] = bool(further >> bit & 1)
                self.assertEqual(got, readers_of(plan, message, cell, route), (route, m, cell))
                self.assertTrue(got)
        if route == 0:
            self.assertEqual(found['hops'], [model.hops(encoded, m)[1] for m in range(len(plan.messages))])

    def run_again(self, encoded, route, source, found):
        """Each call's number and the check number of all areas behind it; then the other orders."""
        plan, events = model.plan_of(encoded, route)[1], [(event >> 14, event & 0x3FFF) for event in unpacked('H', found['events'])]

        def take(areas, event):
            kind, which = event
            return (model.turn(encoded, areas, which, route) if kind == 0 else model.deliver(encoded, areas, which, route) if kind == 1
                    else model.collect(encoded, areas, route))

        def behind(order):
            areas = model.areas_for(plan, source)
            self.assertEqual(model.fresh(encoded, areas, route), 0)
            numbers, sums = [], [sum_of(plan, areas)]
            for event in order:
                numbers.append(take(areas, event))
                sums.append(sum_of(plan, areas))
            return numbers, sums

        numbers, sums = behind(events)
        self.assertEqual((unpacked('B', found['numbers']), unpacked('I', found['sums'])), (numbers, sums))
        self.assertEqual((numbers[-1], numbers.count(0)), (0, plan.steps + 1))
        others, met = unpacked('I', found['others']), set()
        for first, done, told in zip(*[iter(others)] * 3):
            later = range(1, done.bit_length() + 1)
            early = [k for k in later if done >> k - 1 & 1]
            way, count = [*early, 0, *(k for k in later if k not in early)], len(early)
            met.add(done)
            order = events[:first] + [events[first + k] for k in way]
            given, other = behind(order)
            self.assertEqual((given[first:], other[first + count], other[-1]), ([0] * len(way), told, sums[len(order)]), (first, done))
        return met

    def test_drawn_recipes(self):
        draw, met = Draw(43), set()
        for case in range(12):
            values = recipe_of(draw)
            encoded = bytes(fields_of(values).close(values['shift'], values['boundary']))
            data = self.holds(encoded, [draw.word() for _ in range(model.plan_of(encoded)[1].cells)], case)
            met |= {word for plan in data['plans'] for word in unpacked('B', plan['numbers'])}
        self.assertLessEqual({0, 12, 14}, met)

    def test_shapes_and_spread(self):
        for encoded in (SHORE, THREE, SINGLE, SECOND_SINGLE):
            self.holds(bytes(encoded), list(range(100, 100 + model.plan_of(encoded)[1].cells)))
        self.assertEqual(self.moved, set(range(1, 2 ** recording.REACH)))


class Faults(Case):
    """A page that differs from the engine is not made."""

    def differs(self, place, name, changed, encoded=THREE):
        whole = getattr(place, name)
        with mock.patch.object(place, name, changed(whole)), self.assertRaises(Differs):
            data_of(encoded, list(range(model.plan_of(encoded)[1].cells)))

    def test_planted(self):
        def off_by_one(whole):
            return lambda *words: [word + 1 for word in whole(*words)]

        def one_less(whole):
            return lambda *words: {key: dict(list(cells.items())[1:]) for key, cells in whole(*words).items()}

        def never(whole):
            return lambda *words: []

        def other_event(whole):
            return lambda self, event: whole(self, (event[0], 0))
        self.differs(reading.Nest, 'swept', off_by_one)
        self.differs(reading.Nest, 'held', one_less)
        self.differs(states.Replay, 'due', never)
        self.differs(states.Replay, 'take', other_event)
        self.differs(states.Replay, '_write', lambda whole: lambda *words: None)
        self.differs(states.State, 'same', lambda whole: lambda *words: False)
        self.differs(reading.Nest, '_processor', lambda whole: lambda *words: 0)
        data_of(THREE, list(range(144)))

    def test_another_order_differs(self):
        """An engine whose calls did not commute would be told."""
        whole = states.State.take

        def take(self, event):
            number = whole(self, event)
            if number == 0 and getattr(self, 'gone', False):
                self.areas.memories[0] ^= 1
            return number

        def go_to(self, kept, whole=states.State.go_to):
            whole(self, kept)
            self.gone = True
        with mock.patch.object(states.State, 'take', take), mock.patch.object(states.State, 'go_to', go_to), self.assertRaises(Differs):
            data_of(THREE, list(range(144)))


def light(colour):
    """WCAG's relative luminance."""
    parts = [int(colour[at:at + 2], 16) / 255 for at in (1, 3, 5)]
    linear = [part / 12.92 if part <= 0.03928 else ((part + 0.055) / 1.055) ** 2.4 for part in parts]
    return sum(weight * part for weight, part in zip((0.2126, 0.7152, 0.0722), linear))


def contrast(one, other):
    low, high = sorted([light(one), light(other)])
    return (high + 0.05) / (low + 0.05)


class Parts(unittest.TestCase):

    def test_lines(self):
        names = set(os.listdir(page.PARTS))
        self.assertEqual(names, {name + '.js' for name in (*page.SCRIPTS, page.LIVE)} | {'page.html', 'style.css'})
        for name in names - {'page.html'}:
            lines = content_of(os.path.join(page.PARTS, name)).decode().splitlines()
            self.assertLessEqual(len(lines), MOST_LINES, name)
            self.assertEqual([line for line in lines if len(line) > MOST_COLUMNS], [], name)

    def test_contrast(self):
        """Colours of text, of the style sheet and of the drawings, on white and on the darkest ground that text stands on."""
        style = content_of(os.path.join(page.PARTS, 'style.css')).decode()
        words = content_of(os.path.join(page.PARTS, 'words.js')).decode()
        inks = dict(re.findall(r'--(ink|soft|faint|pick|mail): (#\w{6})', style) + re.findall(r'\b(INK|SOFT|PICK|MAIL) = \'(#\w{6})\'', words))
        self.assertEqual(len(inks), 9)
        for name, ink in inks.items():
            for ground in ('#ffffff', '#f6f6f3'):
                self.assertGreaterEqual(contrast(ink, ground), 4.4 if ground != '#ffffff' else LEAST_CONTRAST, (name, ground))

    def test_told_apart_without_hue(self):
        """What memories have is told apart by light and dark alone, for every kind of sight."""
        words = content_of(os.path.join(page.PARTS, 'words.js')).decode()
        kinds = dict(re.findall(r'\b(OWN|BROUGHT|UNKNOWN) = \'(#\w{6})\'', words), WHITE='#ffffff')
        lights = sorted(light(colour) for colour in kinds.values())
        self.assertEqual(len(lights), 4)
        for darker, lighter in list(zip(lights, lights[1:]))[:2]:
            self.assertGreater((lighter + 0.05) / (darker + 0.05), 1.8)


class Command(InFolder):

    def made(self, *words, name='page.html'):
        self.ends(0, 'view', *words, '--out', self.path(name))
        return content_of(self.path(name))

    def test_same_bytes(self):
        words = [BASIN, '--soundings', *SURVEYS, '--value', '3000', '--cell', '10', '--seed', '7']
        first = self.made(*words)
        self.assertEqual(first, self.made(*words, name='again.html'))
        self.assertEqual(first, self.ends(0, 'view', *words, '--out', '-'))
        self.assertNotEqual(first, self.made(*words[:-1], '8'))
        data = data_in(first)
        self.assertEqual((data['name'], data['told']), ('basin.toml', 'the soundings spring.csv and autumn.csv; 3000 where there is none'))
        self.assertEqual(data['limits'][-3:][0][:1] + data['limits'][-3:][0][2:], ['tiles', 1024])

    def test_nothing_is_fetched(self):
        text = self.made(BASIN).decode()
        self.assertEqual(re.findall(r'https?:|\bsrc=|@import|url\((?!#)|<link|fetch\(|XMLHttpRequest|import\(', text), [])
        self.assertEqual(text.count('<script'), 2)

    def test_recipe_as_bytes_and_toml(self):
        toml, octets = self.put('recipe', SMALL), self.path('octets')
        self.ends(0, 'recipe', toml, '-o', octets)
        page_made = self.made(toml, '--name', 'one')
        self.assertEqual(page_made, self.made(octets, '--name', 'one'))
        self.assertEqual(page_made, self.ends(0, 'view', '-', '--name', 'one', '--out', '-', given=SMALL.encode()))

    def test_names_are_words(self):
        """A name can neither be a part of the page nor end its script."""
        name = '{{SCRIPT}}</script><b>&\udcff'
        text = self.made(self.put('r', SMALL), '--name', name)
        self.assertEqual(data_in(text)['name'], '{{SCRIPT}}</script><b>&\\xff')
        self.assertEqual((text.count(b'<script'), text.count(b'</script>')), (2, 2))
        self.assertIn(b'<h1>{{SCRIPT}}&lt;/script&gt;&lt;b&gt;&amp;\\xff</h1>', text)

    def test_source(self):
        words = [7, 2 ** 32 - 1, 0, 5]
        data = data_in(self.made(self.put('r', SMALL), '--source', self.put('s', struct.pack('<4I', *words))))
        self.assertEqual((unpacked('I', data['source']), data['told']), (words, 'the file s'))

    def test_faults(self):
        recipe = self.put('r', SMALL)
        self.ends(2, 'view', recipe, told='one of the arguments -o/--out --serve is required')
        self.ends(2, 'view', recipe, '--value', '3', '--out', self.path('p'), told='--value goes with --soundings')
        self.ends(2, 'view', recipe, '--out', recipe, told='named twice')
        self.ends(1, 'view', recipe, '--source', self.put('s', b'abc'), '--out', self.path('p'), told='16 are needed')
        self.ends(1, 'view', self.put('bad', SMALL.replace('tile = 2', 'tile = 0')), '--out', self.path('p'), told='refused 6')
        self.ends(3, 'view', recipe, '--out', self.path('no/p'), told='No such file')
        self.assertFalse(os.path.exists(self.path('p')))
        self.assertEqual(rolwyddac.version(), data_in(self.made(recipe))['version'])


if __name__ == '__main__':
    unittest.main()
