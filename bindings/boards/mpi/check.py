"""Holds the program boards_mpi to the independent model and to its manual. Run as

    python3 bindings/boards/mpi/check.py FOLDER [--seed 27] [--recipes 4]

with the folder of a program linked with mpi/faults.c (bindings/boards/build FOLDER faults mpi), which mpirun starts. Rows and seeded random recipes, with
random delays and in another order of mail: every grid is the model's, word for word. Faults: each ends with its status, tells its text, and leaves the grid's
file as it was. The last line is `N runs, 0 wrong`; status 1 where one is wrong.
"""

import argparse
import os
import random
import sys
import tempfile

sys.dont_write_bytecode = True
sys.path.insert(0, os.path.join(os.path.dirname(os.path.abspath(__file__)), '..'))
from check import DAMAGED, DIFFERS, FILE, PATIENCE, REFUSED, ROUTES, TIMEOUT, USAGE, Check, bed, model, random_recipe, words_of  # noqa: E402


def check_rows(check):
    for row in 'ABCDEF':
        for route in ROUTES if row == 'C' else ['direct']:
            check.sweeps('row %s, %s' % (row, route), model.ROWS[row], route)
    check.sweeps('row C, delays', model.ROWS['C'], 'indirect', 'BOARDS_DELAY=1:2000')
    check.sweeps('row A, another order', model.ROWS['A'], 'direct', 'BOARDS_SHUFFLE=1')


def check_random(check, seed, recipes):
    rng = random.Random(seed)
    for k in range(recipes):
        encoded, shape = random_recipe(rng, 4)
        route = 'direct' if shape else rng.choice(list(ROUTES))
        way = rng.choice(['', 'BOARDS_DELAY=%d:500' % k, 'BOARDS_SHUFFLE=%d' % k, 'BOARDS_DELAY=%d:300 BOARDS_SHUFFLE=%d' % (k, k)])
        check.sweeps('random %d of seed %d, %s, %s' % (k, seed, route, way), encoded, route, way, seed=k)


def waits(plan, m):
    message = plan.messages[m]
    return 'board %d: waits at tile %d for message %d of board %d\n' % (
        plan.board_of[message.taker], message.taker, m, plan.board_of[message.sender])


def check_mail_faults(check, encoded, route, m):
    """Mail that is lost, doubled, corrupted, cut, stale: of message m, and of the part of the board that sends it, if it is not board 0."""
    plan = model.plan_of(encoded, ROUTES[route])[1]
    sender, taker = plan.board_of[plan.messages[m].sender], plan.board_of[plan.messages[m].taker]
    given = ['--seed', '1', '--route', route]
    mail = 'board %d: mail of board %d is ' % (taker, sender)
    size = 4 * (6 + len(plan.messages[m].cells))
    label = ', message %d, %s' % (m, route)
    check.ends('lost' + label, TIMEOUT, [waits(plan, m), ': no mail for %s seconds\n' % PATIENCE], encoded, given + ['--timeout', PATIENCE],
               'BOARDS_FAULT=lost:%d' % m)
    check.sweeps('doubled' + label, encoded, route, 'BOARDS_FAULT=doubled:%d' % m,
                 said='board %d: message %d of board %d came again: turned away\n' % (taker, m, sender))
    check.ends('corrupted' + label, DAMAGED, [mail + 'corrupt: its check word is not that of what came\n'], encoded, given, 'BOARDS_FAULT=corrupted:%d' % m)
    check.ends('cut' + label, DAMAGED, [mail + 'cut: %d bytes came\n' % (size - 4)], encoded, given, 'BOARDS_FAULT=cut:%d' % m)
    check.ends('stale' + label, DAMAGED, [mail + 'stale: it is of run 6, this is run 7\n'], encoded, given + ['--run', '7'], 'BOARDS_FAULT=stale:%d' % m)


def check_board_faults(check, encoded, board):
    """A board that is killed or halted, before its first message or when all is posted."""
    plan = model.plan_of(encoded)[1]
    first = min(m for m, message in enumerate(plan.messages) if plan.board_of[message.sender] == board)
    given = ['--seed', '1', '--timeout', PATIENCE]
    check.ends('halted', TIMEOUT, [waits(plan, first)], encoded, given, 'BOARDS_FAULT=halted:%d' % board)
    # mpirun ends the others, and tells it in its own words and by its own status
    check.ends('killed', 137, ['exited on signal 9 (Killed)'], encoded, given, 'BOARDS_FAULT=killed:%d' % board)
    check.ends('killed when all is posted', 137, ['exited on signal 9 (Killed)'], encoded, given, 'BOARDS_FAULT=killed-late:%d' % board)
    late = ['board 0: has finished, and another board has not ended after %s seconds\n' % PATIENCE]
    check.ends('halted when all is posted', TIMEOUT, late, encoded, given, 'BOARDS_FAULT=halted-late:%d' % board)


def check_strays(check):
    """Mail of a run of another recipe, with this run's number: the check word is over the recipe too. Mail that is another board's."""
    plan = model.plan_of(model.ROWS['C'])[1]
    message = plan.messages[0]
    wrong = (plan.board_of[message.taker] + 1) % plan.boards
    stray = 'board %d: mail of board %d: message 0 with %d words is not due here\n' % (wrong, plan.board_of[message.sender], len(message.cells))
    check.ends('misrouted', DAMAGED, [stray], model.ROWS['C'], ['--seed', '1'], 'BOARDS_FAULT=misrouted:0')
    said = 'board 1: mail of board 0 is corrupt: its check word is not that of what came\n'
    check.ends('foreign', DAMAGED, [said], model.ROWS['A'], ['--seed', '1'], 'BOARDS_FAULT=foreign:0')


def check_part_faults(check):
    encoded, given = model.ROWS['C'], ['--seed', '1', '--run', '9', '--timeout', PATIENCE]
    mail = 'board 0: mail of board 3 is '
    check.ends('lost part', TIMEOUT, ['board 0: the part of board 3 did not come\n'], encoded, given, 'BOARDS_FAULT=lost-part:3')
    check.sweeps('doubled part', encoded, 'direct', 'BOARDS_FAULT=doubled-part:3', said='board 0: the part of board 3 came again: turned away\n')
    check.ends('corrupted part', DAMAGED, [mail + 'corrupt'], encoded, given, 'BOARDS_FAULT=corrupted-part:3')
    check.ends('cut part', DAMAGED, [mail + 'cut'], encoded, given, 'BOARDS_FAULT=cut-part:3')
    check.ends('stale part', DAMAGED, [mail + 'stale: it is of run 8, this is run 9\n'], encoded, given, 'BOARDS_FAULT=stale-part:3')


def check_processes(check):
    """What only MPI can meet, and ends that all processes have to agree on."""
    row, seed = model.ROWS['A'], ['--seed', '1']
    check.ends('processes', USAGE, ['the recipe has 2 boards and there are 3 processes: start it with mpirun -n 2\n'], row, seed, boards=3)
    check.ends('hosts', USAGE, ['--hosts, --key and --board are not for MPI'], row, seed + ['--hosts', 'none'])
    check.ends('ragged', REFUSED, ['boards: recipe refused 1, ragged: '], row[:-1], seed, boards=2)
    check.ends('no source', FILE, ["boards: can't open %s: No such file or directory\n" % check.path('none')], row, ['--source', check.path('none')])
    check.ends('differs', DIFFERS, ['boards: the grid differs from the sweep: cell 63 is '], row, seed, 'BOARDS_FAULT=differs:0')
    plan = model.plan_of(row)[1]
    ran = check.start(plan.boards, [check.put('recipe', row), '--grid', '-'] + seed)
    if check.taken('said') != words_of(plan.swept(bed(1, plan.cells))) or not ran.stderr.endswith(', grid on standard output\n'):
        check.blame('grid to standard output', ran, 'it is not there alone')


def main(folder, seed, recipes):
    with tempfile.TemporaryDirectory() as scratch:
        check = Check(folder, True, scratch)
        check_rows(check)
        check_random(check, seed, recipes)
        check_mail_faults(check, model.ROWS['C'], 'indirect', 3)
        check_board_faults(check, model.ROWS['A'], 1)
        check_strays(check)
        check_part_faults(check)
        check_processes(check)
        print('%d runs, %d wrong' % (check.runs, check.wrong))
        return 1 if check.wrong else 0


if __name__ == '__main__':
    parser = argparse.ArgumentParser(description=__doc__, formatter_class=argparse.RawDescriptionHelpFormatter)
    parser.add_argument('folder')
    parser.add_argument('--seed', type=int, default=27)
    parser.add_argument('--recipes', type=int, default=4)
    given = parser.parse_args()
    sys.exit(main(given.folder, given.seed, given.recipes))
