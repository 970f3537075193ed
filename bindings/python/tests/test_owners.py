"""Objects that own areas: threads on one of them, copies of one, and areas that overlap."""

import array
import copy
import multiprocessing
import pickle
import threading
import time
import unittest
from unittest import mock

from support import ROW_D, calls, flat, model, number_of, records, rolwyddac

numpy = rolwyddac.numpy
DIRECT = rolwyddac.DIRECT

# so many cells that a call takes long enough for another thread to come between
LARGE = model.encode([64, 64], [8, 8], [4, 0], [[1, 0, 0, 0], [0, 1, 0, 0], [1, 1, 0, 0]])
THREADS = 4
HOURS = ([0, 10080] + [0] * 26) * 2


class Watch:
    """Stands for the exported calls and tells how many threads were in them at once."""

    def __init__(self):
        self.lock, self.inside, self.most = threading.Lock(), 0, 0

    def over(self, call):
        def watched(*words):
            with self.lock:
                self.inside += 1
                self.most = max(self.most, self.inside)
            # as ctypes does in a call, others are let go on
            time.sleep(0.001)
            try:
                return call(*words)
            finally:
                with self.lock:
                    self.inside -= 1
        return watched


def at_once(*tasks):
    """Each task on a thread of its own; what they raise is raised."""
    raised = []

    def guarded(task):
        try:
            task()
        except BaseException as fault:
            raised.append(fault)
    threads = [threading.Thread(target=guarded, args=(task,)) for task in tasks]
    for thread in threads:
        thread.start()
    for thread in threads:
        thread.join()
    if raised:
        raise raised[0]


def tried(call, *words):
    number_of(call, *words)


class Threads(unittest.TestCase):
    """Each object has a lock: its calls go one after the other, whichever threads they come from."""

    def watched(self, *tasks):
        watch = Watch()
        watched = {name: watch.over(call) for name, call in calls.EXPORTED.items()}
        with mock.patch.dict(calls.EXPORTED, watched):
            at_once(*[lambda task=task: [task() for _ in range(3)] for task in tasks * 2])
        self.assertEqual(watch.most, 1)

    def test_one_call_at_a_time_of_a_run(self):
        run = rolwyddac.Run(ROW_D, DIRECT, [1] * 4)
        self.watched(lambda: tried(run.turn, 0), lambda: tried(run.deliver, 0), lambda: tried(run.collect), lambda: tried(run.turn_at, HOURS, 0, 1),
                     run.finish, run.in_flight, lambda: run.areas)

    def test_one_call_at_a_time_of_a_rig(self):
        rig = rolwyddac.Rig(ROW_D, DIRECT, [[1] * 4, [2] * 4])
        self.watched(lambda: tried(rig.turn, 0, 0), lambda: tried(rig.turn, 1, 0), lambda: tried(rig.deliver, 0, 0), lambda: tried(rig.collect, 1),
                     lambda: tried(rig.turn_at, HOURS, 0, 1, 1), rig.finish, lambda: rig.view(0, 1), lambda: rig.in_flight(0), lambda: rig.areas,
                     lambda: rig.engaged)

    def test_one_call_at_a_time_of_a_board(self):
        board = rolwyddac.Board(ROW_D, DIRECT, [1] * 4, 0)
        self.watched(lambda: tried(board.turn), lambda: tried(board.awaited), lambda: tried(board.post, 0), lambda: tried(board.take_in, 0, [1]),
                     board.memory, board.in_flight, lambda: board.areas)

    def test_one_call_at_a_time_of_an_own_board(self):
        board, grid = rolwyddac.PartBoard(ROW_D, DIRECT, [1] * 2, 0), array.array('I', [0] * 4)
        self.watched(lambda: tried(board.turn), lambda: tried(board.awaited), lambda: tried(board.post, 0), lambda: tried(board.arrive, 0, [1]),
                     lambda: tried(board.collect, grid), board.in_flight, lambda: board.areas, lambda: board.memory)

    def test_threads_share_a_run(self):
        """Threads that take turns and deliver as they find: as many steps as the plan has, and the grid of the sweep."""
        source = [cell * 7 for cell in range(64 * 64)]
        wanted, plan = flat(rolwyddac.sweep(LARGE, source)), rolwyddac.summary(LARGE)
        run, steps = rolwyddac.Run(LARGE, DIRECT, source), []

        def work():
            for _ in range(plan.steps):
                steps.extend(0 for processor in range(plan.processors) if number_of(run.turn, processor) == 0)
                steps.extend(0 for m in run.in_flight() if number_of(run.deliver, m) == 0)
                if len(steps) >= plan.steps:
                    return
        at_once(*[work] * THREADS)
        self.assertEqual(len(steps), plan.steps)
        self.assertEqual(flat(run.collect()), wanted)

    def test_threads_finish_a_run(self):
        for _ in range(3):
            run, steps = rolwyddac.Run(LARGE, DIRECT, [1] * (64 * 64)), []
            at_once(*[lambda: steps.append(run.finish())] * THREADS)
            self.assertEqual(sum(steps), rolwyddac.summary(LARGE).steps)


def half_way(kind):
    """An object of each kind, some turns done."""
    if kind is rolwyddac.Run:
        owner = rolwyddac.Run(ROW_D, DIRECT, [1] * 4)
        owner.turn(0)
    elif kind is rolwyddac.Rig:
        owner = rolwyddac.Rig(ROW_D, DIRECT, [[1] * 4, [2] * 4])
        owner.turn(1, 0)
    elif kind is rolwyddac.Board:
        owner = rolwyddac.Board(ROW_D, DIRECT, [1] * 4, 0)
        owner.turn()
    else:
        owner = rolwyddac.PartBoard(ROW_D, DIRECT, [1] * 2, 0)
        owner.turn()
    return owner


def content(areas):
    return [content(each) if isinstance(each, (list, tuple, rolwyddac.Areas, rolwyddac.PartAreas)) else bytes(each) for each in areas]


def turned(owner):
    owner.turn(*{rolwyddac.Run: (0,), rolwyddac.Rig: (1, 0)}.get(type(owner), ()))
    return content(owner.areas)


def collected(run):
    """What another process does with a run that it is given."""
    run.finish()
    return flat(run.collect())


KINDS = rolwyddac.Run, rolwyddac.Rig, rolwyddac.Board, rolwyddac.PartBoard


class Copies(unittest.TestCase):
    """A copy shares nothing with what it was made from."""

    WAYS = {'copy': copy.copy, 'deepcopy': copy.deepcopy, 'pickle': lambda owner: pickle.loads(pickle.dumps(owner)),
            'old pickle': lambda owner: pickle.loads(pickle.dumps(owner, 2)), 'in a list': lambda owner: copy.deepcopy([owner, owner])[1]}

    def test_copies_are_independent(self):
        for kind in KINDS:
            for name, way in self.WAYS.items():
                with self.subTest(kind.__name__, way=name):
                    owner = half_way(kind)
                    made, before = way(owner), content(owner.areas)
                    self.assertIs(type(made), kind)
                    self.assertEqual(content(made.areas), before)
                    after = turned(made)
                    self.assertNotEqual(after, before)
                    self.assertEqual(content(owner.areas), before)
                    self.assertEqual(turned(owner), after)

    def test_a_deep_copy_keeps_who_is_who(self):
        owner = half_way(rolwyddac.Run)
        first, second = copy.deepcopy([owner, owner])
        self.assertIs(first, second)

    def test_a_copy_has_a_lock_of_its_own(self):
        run = half_way(rolwyddac.Run)
        for way in self.WAYS.values():
            made = way(run)
            with run._lock:
                at_once(lambda: made.turn(0))

    def test_areas(self):
        run = half_way(rolwyddac.Run)
        for way in self.WAYS.values():
            areas = run.areas
            made = way(areas)
            self.assertEqual(content(made), content(areas))
            made.memories[0] += 1
            made.progress[0].stage += 1
            self.assertEqual(content(run.areas), content(areas))

    def test_areas_are_told_and_not_lent(self):
        """What `areas` gives is a copy: nobody changes a run but by its calls."""
        for kind in KINDS:
            owner = half_way(kind)
            before = content(owner.areas)
            for areas in owner.areas if kind is rolwyddac.Rig else [owner.areas]:
                for area in areas:
                    if len(area):
                        area[0] = rolwyddac.Progress(9, 9, 9) if isinstance(area[0], rolwyddac.Progress) else 9
            self.assertEqual(content(owner.areas), before)

    def test_resumed_runs_share_nothing(self):
        kept = half_way(rolwyddac.Run).areas
        before = content(kept)
        runs = [rolwyddac.Run.resume(ROW_D, DIRECT, [1] * 4, kept) for _ in range(2)]
        for run in runs:
            self.assertEqual(run.finish(), 5)
            self.assertEqual(flat(run.collect()), [1, 2, 3, 4])
        self.assertEqual(content(kept), before)

    def test_what_is_no_areas(self):
        for areas in ((), [], 5, 'areas', rolwyddac.sizes(ROW_D), half_way(rolwyddac.Run)):
            with self.assertRaisesRegex(TypeError, 'areas: '):
                rolwyddac.Run.resume(ROW_D, DIRECT, [1] * 4, areas)
        other = rolwyddac.Areas(rolwyddac.sizes(LARGE))
        with self.assertRaises(rolwyddac.Area):
            rolwyddac.Run.resume(ROW_D, DIRECT, [1] * 4, other)
        unfit = half_way(rolwyddac.Run).areas
        unfit.status[0] = 4
        with self.assertRaises(rolwyddac.Unfit):
            rolwyddac.Run.resume(ROW_D, DIRECT, [1] * 4, unfit)

    def test_nothing_else_can_be_set(self):
        """Recipe, route, source and processor of a run stay what they were."""
        for kind in KINDS:
            owner = half_way(kind)
            for name in ('encoded', 'route', 'areas') + (('sources', 'engaged') if kind is rolwyddac.Rig else ('source',)):
                with self.subTest(kind.__name__, name=name), self.assertRaises(AttributeError):
                    setattr(owner, name, getattr(owner, name))
            source = owner.sources[0] if kind is rolwyddac.Rig else owner.source
            with self.assertRaises(TypeError):
                source[0] = 5

    def test_a_failed_start_leaves_what_was(self):
        run = half_way(rolwyddac.Run)
        before = content(run.areas)
        for words in ((ROW_D[:-1], DIRECT, [1] * 4), (ROW_D, DIRECT, [1] * 5), (ROW_D, 7, [1] * 4), (ROW_D, DIRECT, [1.5] * 4),
                      (LARGE, DIRECT, [1] * 4)):
            with self.assertRaises((rolwyddac.Refused, ValueError, TypeError)):
                run.__init__(*words)
        self.assertEqual(content(run.areas), before)
        self.assertEqual(run.finish(), 5)

    def test_another_process(self):
        run = half_way(rolwyddac.Run)
        if 'fork' not in multiprocessing.get_all_start_methods():
            self.skipTest('no fork')
        with multiprocessing.get_context('fork').Pool(1) as pool:
            self.assertEqual(pool.apply(collected, (run,)), [1, 2, 3, 4])
        self.assertEqual(run.finish(), 5)

    def test_refusals_are_pickled(self):
        for number, kind in rolwyddac.REFUSALS.items():
            made = pickle.loads(pickle.dumps(calls.refused(number)))
            self.assertEqual((type(made), made.number, str(made)), (kind, number, str(calls.refused(number))))
