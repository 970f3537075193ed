"""Plans, schedules, checks, numbers and boards of the command, against the model."""

import array
import glob
import json
import os
import re
import shutil
import signal
import struct
import subprocess
import time
import unittest
from unittest import mock

from command_support import BASIN, HAS_BOARDS, ROOT, SMALL, START, InFolder, content_of, environment, setUpModule  # noqa: F401
from support import Draw, model, recipe_of, rolwyddac

import foreman  # noqa: I001
import recipe_page
from rolwyddac.command import boards, check, entry, examples, explained, plan, rounds, toml
from rolwyddac.command.fields import parts_of


def recipe(encoded):
    return toml.Recipe('drawn', bytes(encoded), parts_of(bytes(encoded)))


class Plans(InFolder):

    def test_as_the_model(self):
        draw = Draw(416)
        for case in range(60):
            encoded = model.encode(**recipe_of(draw))
            for name, route in (('direct', 0), ('indirect', 1)):
                wanted, found = model.plan_of(encoded, route)[1], plan.planned(recipe(encoded), name)
                rounds_of = [0] * wanted.tiles
                model.rounds_of(encoded, rounds_of)
                self.assertEqual(found['figures'], {
                    'cells': wanted.cells, 'processors': wanted.boards, 'tiles': wanted.tiles, 'messages': len(wanted.messages), 'words': wanted.words,
                    'steps': wanted.steps, 'cells_in_the_shape': sum(wanted.inside), 'rounds': max(rounds_of)}, case)
                self.assertEqual([tuple(message.values()) for message in found['messages']], [
                    (m, line.sender, line.taker, wanted.board_of[line.sender], wanted.board_of[line.taker], len(line.cells))
                    for m, line in enumerate(wanted.messages)])
                self.assertEqual({area: found['areas'][area]['elements'] for area in found['areas']}, {
                    'source': wanted.cells, 'memories': wanted.cells * wanted.boards, 'buffer': wanted.words, 'progress': wanted.boards,
                    'status': len(wanted.messages), 'grid': wanted.cells, 'engaged': wanted.boards})
                self.assertEqual(sum(part['source'] for part in found['parts']), sum(wanted.inside))

    def test_json(self):
        """The keys that docs/COMMAND.md tells, and no others."""
        found = json.loads(self.ends(0, 'plan', BASIN, '--json'))
        page = content_of(os.path.join(ROOT, 'docs', 'COMMAND.md')).decode()
        told = re.findall(r'^\| `([a-z_.\[\]]+)` \|', page.partition('`--json` writes one object')[2], flags=re.M)
        keys = []

        def walk(value, path):
            if isinstance(value, dict):
                for key, inside in value.items():
                    keys.append((path + '.' if path else '') + key)
                    walk(inside, keys[-1])
            elif isinstance(value, list) and value:
                walk(value[0], path + '[]')

        walk(found, '')
        areas = [key for key in keys if re.fullmatch(r'areas\.\w+(\.\w+)?', key)]
        self.assertEqual(sorted(set(keys) - set(areas)), sorted(key for key in told if not key.startswith('areas.')))
        self.assertEqual(found['figures']['cells_in_the_shape'], 4610)
        self.assertEqual([limit for limit in found['limits'] if limit['name'] == 'cells'], [{'name': 'cells', 'used': 4800, 'most': 16384, 'percent': 29.3}])

    def test_limits(self):
        """Each limit is where the engine refuses: one more is told."""
        found = {limit['name']: limit['most'] for limit in plan.planned(recipe(model.ROWS['A']), 'direct')['limits']}
        header = content_of(os.path.join(ROOT, 'bindings', 'c', 'rolwyddac_library.h')).decode()
        macros = {name.lower(): int(value) for name, value in re.findall(r'#define ROLWYDDAC_MOST_(\w+) (\d+)$', header, flags=re.M)}
        self.assertEqual(found, {
            'dimensions': macros['dimensions'], 'bounds': macros['bounds'], 'distances': macros['distances'], 'longest dimension': macros['length'],
            'longest tile': macros['tile_length'], 'shift': macros['shift'], 'cells': macros['cells'], 'processors': macros['processors'],
            'tiles': macros['tiles'], 'messages': 7 * macros['tiles'], 'words': 7 * macros['cells']})

    def test_text(self):
        written = self.ends(0, 'plan', self.put('r', SMALL), '--route', 'indirect').decode()
        self.assertIn('4 by 1 cells in tiles of 2 by 1, indirect route', written)
        self.assertRegex(written, r'message +sending tile +taking tile +sending processor +taking processor +words\n  0 +0 +1 +0 +1 +1\n')
        self.assertIn('no messages', self.ends(0, 'plan', self.put('r', SMALL.replace('processors = 2', 'processors = 1'))).decode())
        self.ends(1, 'plan', BASIN, '--route', 'indirect', told=(
            'basin.toml: refused 21, direct only: the recipe has 1 bound, and indirect passing is for recipes without'))
        self.ends(2, 'plan', BASIN, '--route', 'round', told='invalid choice')


class Rounds(InFolder):

    def test_as_the_model_draws(self):
        for encoded in foreman.accepted_recipes():
            schedule = rounds.Schedule(recipe(encoded))
            self.assertEqual((schedule.text(), schedule.picture()), (foreman.drawing(encoded), foreman.svg(encoded)))

    def test_stored_drawings(self):
        """Those of bindings/cases/rounds, one behind the other, by the command itself."""
        drawings = content_of(os.path.join(ROOT, 'bindings', 'cases', 'rounds', 'drawings'))
        drawn = b''
        for encoded in foreman.accepted_recipes():
            drawn += self.ends(0, 'rounds', self.put('recipe', bytes(encoded)))
            self.assertTrue(drawings.startswith(drawn), drawn.decode())
        self.assertEqual(drawn, drawings)

    def test_files(self):
        """A picture beside the text, alone, and through a link; what went wrong with it."""
        docs, row_a = os.path.join(ROOT, 'docs'), self.put('recipe', bytes(model.ROWS['A']))
        text, picture = (content_of(os.path.join(docs, 'rounds-row-a' + end)) for end in ('.txt', '.svg'))
        os.symlink('file.svg', self.path('link'))
        for name in ('file.svg', 'link'):
            self.put('file.svg', 'as before')
            self.assertEqual(self.ends(0, 'rounds', row_a, '--svg', self.path(name)), text)
            self.assertEqual(content_of(self.path('file.svg')), picture)
        self.assertTrue(os.path.islink(self.path('link')))
        self.assertEqual(sorted(os.listdir(self.folder)), ['file.svg', 'link', 'recipe'])
        self.ends(3, 'rounds', row_a, '--svg', self.path('none/picture.svg'), told='none/picture.svg: ')
        self.ends(3, 'rounds', self.path('missing'), told='missing: ')
        self.ends(1, 'rounds', self.put('ragged', bytes(model.ROWS['A'][1:])), told='ragged: refused 1, ')
        self.ends(2, 'rounds', told='arguments are required: RECIPE')
        self.ends(2, 'rounds', row_a, 'more', told='unrecognized arguments: more')
        with open('/dev/full', 'wb') as full:
            self.ends(3, 'rounds', row_a, told='standard output: ', stdout=full)

    def test_command(self):
        docs = os.path.join(ROOT, 'docs')
        self.assertEqual(self.ends(0, 'rounds', BASIN, '--svg', self.path('r.svg')), content_of(os.path.join(docs, 'rounds-harbour.txt')))
        self.assertEqual(content_of(self.path('r.svg')), content_of(os.path.join(docs, 'rounds-harbour.svg')))
        self.assertEqual(self.ends(0, 'rounds', BASIN, '--svg', '-'), content_of(self.path('r.svg')))


class Checks(InFolder):

    def test_equal(self):
        self.assertEqual(self.ends(0, 'check', self.put('r', SMALL), '--orders', 2, '--seed', 7).decode(),
                         '2 orders by 5 ways (direct route; indirect route; by rounds; boards, direct route; boards, indirect route), seed 7: '
                         'all equal to the sweep\n')
        self.assertIn('3 ways', self.ends(0, 'check', BASIN, '--orders', 1).decode())

    def test_ways_end_in_the_models_sweep(self):
        draw, cases = Draw(417), 0
        for _ in range(8):
            encoded = bytes(model.encode(**recipe_of(draw)))
            wanted = model.plan_of(encoded)[1]
            source = [draw.word() for _ in range(wanted.cells)]
            for kind in check.kinds_of(recipe(encoded)):
                order = check.Order(0, source, check.random.Random(cases))
                self.assertEqual(list(kind.made(encoded, order)), wanted.swept(source), kind.name)
                cases += 1
        shape = bytes(foreman.HARBOUR)
        source = [draw.word() for _ in range(4800)]
        for kind in check.kinds_of(recipe(shape)):
            self.assertEqual(list(kind.made(shape, check.Order(0, source, check.random.Random(1)))), model.plan_of(shape)[1].swept(source))

    def test_restarts_and_repeats_happen(self):
        """The orders have what they are said to have: runs taken up again, boards restarted, letters that come twice."""
        encoded, met = bytes(model.ROWS['A']), set()
        resume, restart, arrive = check.Run.resume, check._Apart.restart, check.PartBoard.arrive

        def noted(name, function):
            def called(*words):
                met.add(name)
                return function(*words)
            return called

        def arriving(board, message, words):
            try:
                arrive(board, message, words)
            except rolwyddac.NoMail:
                met.add('repeat')
                raise

        with mock.patch.object(check.Run, 'resume', noted('resume', resume)), mock.patch.object(check._Apart, 'restart', noted('restart', restart)), \
                mock.patch.object(check.PartBoard, 'arrive', arriving):
            for seed in range(3):
                for kind in check.kinds_of(recipe(encoded)):
                    kind.made(encoded, check.Order(0, [1] * 64, check.random.Random(seed)))
        self.assertEqual(met, {'resume', 'restart', 'repeat'})

    def test_a_difference_is_told(self):
        """Status 1, with the seed, the way and the cell: a sweep that is wrong in one cell stands for a library that is damaged."""
        sweep = rolwyddac.sweep

        def wrong(encoded, source):
            return [word ^ (cell == 2) for cell, word in enumerate(check.flat(sweep(encoded, source)))]

        lines = []
        with mock.patch.object(check.grids, 'sweep', wrong), mock.patch.object(check, 'tell', lines.append), \
                mock.patch.object(check.files, 'say', lines.append):
            self.assertEqual(entry.run(['check', self.put('r', SMALL), '--orders', '1', '--seed', '3']), 1)
        self.assertRegex(lines[0], r'^order 0 of seed 3, direct route: cell 2 has \d+, the sweep has \d+; 1 cell differs$')
        self.assertIn('5 differ from the sweep', lines[-1])


class Numbers(InFolder):

    def page(self):
        return content_of(os.path.join(ROOT, recipe_page.PAGE)).decode()

    def test_examples_are_those_of_the_page(self):
        known = recipe_page.recipes(self.page())
        self.assertEqual([(number, example) for number, _, example in recipe_page.numbers(self.page())], list(examples.SHORTEST.items()))
        self.assertEqual({name: known[name] for name in 'DS'}, {name: examples.RECIPES[name] for name in 'DS'})
        for number, example in examples.SHORTEST.items():
            self.assertEqual(examples.recipe_in(example), recipe_page.recipe_of(example.partition(':')[0], known))

    def test_examples_give_their_numbers(self):
        """By the engine, and by the model."""
        known = {name: content for name, content in examples.RECIPES.items() if content}
        for maker in (recipe_page.ByModel, recipe_page.ByLibrary):
            for number, example in examples.SHORTEST.items():
                self.assertEqual(recipe_page.given(maker, example, known), number, example)

    def test_command(self):
        every = self.ends(0, 'numbers').decode().splitlines()
        self.assertEqual([int(line.split()[0]) for line in every], [0, *examples.SHORTEST])
        for line in every:
            number = int(line.split()[0])
            self.assertIn(rolwyddac.term(number), line)
            self.assertTrue(line.endswith(rolwyddac.text(number)))
        told = self.ends(0, 'numbers', 6).decode()
        self.assertIn('6, tile: %s\n' % rolwyddac.text(6), told)
        self.assertIn('    0  01 00 04 00 00 00 02 00', told)
        self.assertIn('Here: dimension 1 has tile 0', told)
        self.assertIn('fresh, turn 1\n', self.ends(0, 'numbers', 12).decode())
        self.ends(2, 'numbers', 28, told='28 is no number of the engine')
        self.ends(2, 'numbers', 'six', told='is no whole number')

    def test_written_examples_are_refused(self):
        for number, example in examples.SHORTEST.items():
            if not examples.calls_in(example):
                self.assertEqual(entry.run(['numbers', str(number), '-o', self.path('r')]), 0)
                with self.assertRaisesRegex(toml.Refusal, ': refused %d, ' % number):
                    toml.recipe_of(self.path('r'))
                self.assertIsNotNone(explained.explained(number, parts_of(content_of(self.path('r'))), content_of(self.path('r'))))


@unittest.skipUnless(HAS_BOARDS, 'no sources of boards')
class Boards(InFolder):

    def test_grid(self):
        """The grid that the boards make is the model's; soundings and charts are in test_command_charts.py."""
        source = [7, 8, 9, 10]
        words = self.put('s', struct.pack('<4I', *source))
        written = self.ends(0, 'boards', self.put('r', SMALL), '--source', words, '--grid', self.path('g'), '--route', 'indirect')
        self.assertEqual(written, b'boards 2 messages 1 words 1: done, equal to the sweep\n')
        self.assertEqual(list(array.array('I', content_of(self.path('g')))), model.plan_of(toml.parts_of_text(SMALL).encoded())[1].swept(source))
        self.assertEqual(self.ends(0, 'boards', self.path('r'), '--source', words, '--out', '-', told='done, equal').split()[:2], [b'ncols', b'1'])

    def test_refused(self):
        small = self.put('r', SMALL)
        self.ends(1, 'boards', BASIN, '--seed', 1, '--route', 'indirect', told='refused 21, direct only: the recipe has 1 bound')
        self.ends(2, 'boards', small, told='one of the arguments')
        self.ends(2, 'boards', small, '--seed', 1, '--value', 3, told='--value goes with --soundings')
        self.ends(2, 'boards', small, '--seed', 1, '--timeout', 'long', told='--timeout long')
        self.ends(2, 'boards', small, '--seed', 1, '--crs', 'EPSG:25832', told='--crs goes with --out')
        self.ends(2, 'boards', small, '--seed', 1, '--grid', small, told='is named twice')
        told, full = [], OSError(28, 'No space left on device', 'scratch')
        with mock.patch.object(boards.tempfile, 'TemporaryDirectory', side_effect=full), mock.patch.object(entry, 'tell', told.append):
            self.assertEqual((entry.run(['boards', small, '--seed', '1']), told), (3, ['scratch: No space left on device']))
        self.ends(3, 'boards', small, '--seed', 1, told='none: No such file', env={'ROLWYDDAC_BOARDS': self.path('none')})
        failing = self.put('failing', '#!/bin/sh\necho lost >&2\nexit 5\n')
        os.chmod(failing, 0o755)
        self.ends(1, 'boards', small, '--seed', 1, '--grid', self.path('g'), env={'ROLWYDDAC_BOARDS': failing},
                  told='lost\nthe program boards ended with status 5')
        self.assertFalse(os.path.exists(self.path('g')))

    def test_started_by_mpirun(self):
        """As many processes as the recipe has processors, by the words that were given, the same options behind them."""
        mpirun = self.put('mpirun', '#!/bin/sh\nprintf "%%s\\n" "$@" > %s\nexit 5\n' % self.path('words'))
        os.chmod(mpirun, 0o755)
        small, found = self.put('r', SMALL), {'PATH': self.folder + os.pathsep + os.environ['PATH'], 'ROLWYDDAC_BOARDS_MPI': 'the program'}
        self.ends(1, 'boards', small, '--seed', 1, '--mpi', '--timeout', 3, env=found, told='the program boards ended with status 5')
        first = content_of(self.path('words')).decode().split('\n')
        self.assertEqual((first[:3], first[4:5], first[-5:-1]), (['-n', '2', 'the program'], ['--grid'], ['--seed', '1', '--timeout', '3']))
        self.ends(1, 'boards', small, '--seed', 1, '--mpi', '--mpirun', 'mpirun --hostfile "a file"', env=found)
        self.assertEqual(content_of(self.path('words')).decode().split('\n')[:4], ['--hostfile', 'a file', '-n', '2'])
        self.ends(2, 'boards', small, '--seed', 1, '--mpirun', 'mpirun', told='--mpirun goes with --mpi')
        self.ends(2, 'boards', small, '--seed', 1, '--mpi', '--mpirun', 'no-mpirun -v', told='--mpi needs OpenMPI: there is no no-mpirun in PATH')
        self.ends(2, 'boards', small, '--seed', 1, '--mpi', '--mpirun', '"', told='--mpirun ": No closing quotation')
        self.ends(2, 'boards', small, '--seed', 1, '--mpi', '--mpirun', '', told='there is no mpirun in PATH')

    @unittest.skipUnless(shutil.which('mpirun') and shutil.which('mpicc'), 'no OpenMPI')
    def test_over_mpi(self):
        """The grid is the model's, on either route; what mpirun has to say is told."""
        source = [7, 8, 9, 10]
        words = self.put('s', struct.pack('<4I', *source))
        root = {'OMPI_ALLOW_RUN_AS_ROOT': '1', 'OMPI_ALLOW_RUN_AS_ROOT_CONFIRM': '1'}
        for route in ('direct', 'indirect'):
            written = self.ends(0, 'boards', self.put('r', SMALL), '--source', words, '--grid', self.path('g'), '--route', route, '--mpi',
                                '--mpirun', 'mpirun --oversubscribe', env=root)
            self.assertEqual(written, b'boards 2 messages 1 words 1: done, equal to the sweep\n')
            self.assertEqual(list(array.array('I', content_of(self.path('g')))), model.plan_of(toml.parts_of_text(SMALL).encoded())[1].swept(source))
        self.ends(1, 'boards', self.path('r'), '--seed', 1, '--mpi', '--mpirun', 'mpirun --no-such-option', env=root, told='no-such-option')

    def test_ended(self):
        """A signal to the command ends the program, and its folder is gone."""
        slow = self.put('slow', '#!/bin/sh\necho $$ > %s\nexec sleep 60\n' % self.path('pid'))
        os.chmod(slow, 0o755)
        child = subprocess.Popen([*START, 'boards', self.put('r', SMALL), '--seed', '1'], stderr=subprocess.PIPE,
                                 env=environment(ROLWYDDAC_BOARDS=slow, TMPDIR=self.folder))
        while not (os.path.exists(self.path('pid')) and content_of(self.path('pid')).strip()):
            time.sleep(0.01)
        child.send_signal(signal.SIGTERM)
        self.assertEqual((child.communicate()[1], child.returncode), (b'', -signal.SIGTERM))
        with self.assertRaises(ProcessLookupError):
            os.kill(int(content_of(self.path('pid'))), 0)
        self.assertEqual(glob.glob(self.path('rolwyddac-*')), [])


if __name__ == '__main__':
    unittest.main()
