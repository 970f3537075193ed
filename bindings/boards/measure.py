"""Times the program boards: 1, 2, 4 and 8 processes on one recipe, with more and more extra work a cell. Run as

    python3 bindings/boards/measure.py FOLDER [--rounds 15] [--works 0 10 30 100 300 1000 3000] [--mpi]

with the folder of the program (bindings/boards/build). N 128,128, k 16,16, distances (1,0) (0,1) (1,1), as in docs/BENCHMARKS.md. All take turns
within a round; a ratio is the median over the rounds, a time the best round. A run's time is from the start of the first board until the grid is collected;
over MPI from the moment at which all processes are there. Prints a table for docs/BENCHMARKS.md: the extra work in nanoseconds a cell, the sweep of one process with that work, and the runs.
Where other work is on the machine, real-time priority keeps it away (as root): chrt -r 1 python3 bindings/boards/measure.py ..
"""

import argparse
import os
import re
import statistics
import subprocess
import sys
import tempfile

sys.dont_write_bytecode = True
sys.path.insert(0, os.path.join(os.path.dirname(os.path.abspath(__file__)), '..', '..', 'tools'))
import model  # noqa: E402

CELLS, BOARDS = 128 * 128, (1, 2, 4, 8)


def timed(command):
    """Microseconds: the run, the sweep, the sweep with the extra work."""
    environment = dict(os.environ, OMPI_ALLOW_RUN_AS_ROOT='1', OMPI_ALLOW_RUN_AS_ROOT_CONFIRM='1')
    out = subprocess.run(command, capture_output=True, text=True, check=True, env=environment).stdout
    return [float(us) for us in re.findall(r' ([\d.]+) us', out)]


def measured(commands, rounds):
    """For each number of boards the runs' times, and the times of the sweeps with and without the work: one of each a round."""
    runs, sweeps, heavies = {boards: [] for boards in commands}, [], []
    for _ in range(rounds):
        for boards, command in commands.items():
            run, sweep, heavy = timed(command)
            runs[boards].append(run)
            if boards == 1:
                sweeps.append(sweep)
                heavies.append(heavy)
    return runs, sweeps, heavies


def ratio(times, others):
    return statistics.median(a / b for a, b in zip(times, others))


def main(folder, rounds, works, mpi):
    titles = ['extra work a cell, ns', 'sweep µs'] + ['%d process%s µs' % (b, 'es' if b > 1 else '') for b in BOARDS]
    titles += ['%d to 1' % b for b in BOARDS[1:]] + ['1 to the sweep', '2 to the sweep']
    print('| ' + ' | '.join(titles) + ' |\n' + '|---' * len(titles) + '|')
    with tempfile.TemporaryDirectory() as scratch:
        for boards in BOARDS:
            with open(os.path.join(scratch, str(boards)), 'wb') as file:
                file.write(model.encode([128, 128], [16, 16], [boards, 0], [(1, 0), (0, 1), (1, 1)]))
        for work in works:
            commands = {}
            for boards in BOARDS:
                start = ['mpirun', '--oversubscribe', '-n', str(boards), os.path.join(folder, 'boards_mpi')] if mpi else [os.path.join(folder, 'boards')]
                commands[boards] = start + [os.path.join(scratch, str(boards)), '--seed', '1', '--times', '--no-verify', '--work', str(work)]
            runs, sweeps, heavies = measured(commands, rounds)
            cells = ['%.0f' % (1000 * (min(heavies) - min(sweeps)) / CELLS), '%.0f' % min(heavies)]
            cells += ['%.0f' % min(runs[b]) for b in BOARDS]
            cells += ['%.2f' % ratio(runs[b], runs[1]) for b in BOARDS[1:]]
            cells += ['%.2f' % ratio(runs[b], heavies) for b in (1, 2)]
            print('| ' + ' | '.join(cells) + ' |', flush=True)


if __name__ == '__main__':
    parser = argparse.ArgumentParser(description=__doc__, formatter_class=argparse.RawDescriptionHelpFormatter)
    parser.add_argument('folder')
    parser.add_argument('--rounds', type=int, default=15)
    parser.add_argument('--works', type=int, nargs='+', default=[0, 10, 30, 100, 300, 1000, 3000])
    parser.add_argument('--mpi', action='store_true')
    given = parser.parse_args()
    main(given.folder, given.rounds, given.works, given.mpi)
