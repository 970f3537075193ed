"""Measures every table of docs/BENCHMARKS.md, and writes it there. Run as

    bench/run page                  # some 15 minutes on two quiet cores; the page's tables, machine and commit are then today's
    bench/run page --quick          # fewer rounds, one run: to try it, in two minutes
    bench/run page --out FILE       # to another file, docs/BENCHMARKS.md as it was
    python3 bench/measure.py check  # measures nothing: does the page have each table, of the columns that are measured?

What stands between `<!-- NAME -->` and `<!-- end -->` is written. A time is the best of the runs, a ratio their range. Other work on the machine is told:
the load before and after stands in the page. The boards' and the browser's tables need what they measure; where it is missing they stay as they are.
"""

import argparse
import os
import platform
import re
import shutil
import subprocess
import sys
import tempfile

HERE = os.path.dirname(os.path.abspath(__file__))
ROOT = os.path.dirname(HERE)
PAGE = os.path.join(ROOT, 'docs', 'BENCHMARKS.md')
RUNS = 3

# tables of `bench time` by how their title begins
TITLES = {'N 128,128': 'calls', 'Growth with cells': 'cells', 'Growth with tiles': 'tiles', 'Growth with distances': 'distances',
          'Growth with dimensions': 'dimensions', 'Growth with short rows': 'short-rows', 'Routes': 'routes', 'Values': 'values', 'Offices': 'offices',
          'Shapes': 'shapes', 'Soundings': 'soundings', 'Rounds': 'rounds'}
# columns of every table of the page
COLUMNS = {
    'reached': 'what | aim | measured', 'calls': 'what | library µs | plain Rust µs | ratio',
    'values': 'what | library µs | plain µs | ratio | wavefront µs | ratio', 'shapes': 'recipe | call | box µs | nothing cut | triangle | band',
    'rounds': 'k | rounds | driver µs | plain sweep µs | ratio | aim', 'lent': ' | source | memories | buffer | progress | status | together',
    'stack': 'call | stack, kilobytes', 'part': 'call | µs', 'soundings': 'records | library µs | plain Rust µs | ratio',
    'boards': 'extra work a cell, ns | sweep µs | 1 process µs | 2 processes µs | 4 processes µs | 8 processes µs | 2 to 1 | 4 to 1 | 8 to 1 | 1 to the sweep'
              ' | 2 to the sweep',
    'browser': ' | median | 95 % | most', 'routes': 'recipe | route | messages, words | library µs | plain Rust µs | ratio',
    'offices': 'recipe | gather | calculate | send'}
GROWTH = '%s | cells, tiles, messages | sweep µs | to plain | to wavefront | whole run µs | to plain run | to plain sweep | send µs | to plain'
COLUMNS.update({name: GROWTH % name.replace('-', ' ') for name in ('cells', 'tiles', 'distances', 'dimensions', 'short-rows')})


def cells_of(line):
    return [cell.strip() for cell in line.strip().strip('|').split('|')]


def table(name, rows):
    """A table of the page; its rows are lists of words."""
    titles = COLUMNS[name].split(' | ')
    return '\n'.join('| %s |' % ' | '.join(row) for row in [titles, *rows]).replace('\n', '\n%s\n' % ('|---' * len(titles) + '|'), 1) + '\n'


def tables_of(text):
    """Rows of each table of `bench time`, without its titles."""
    found = {}
    for title, block in re.findall(r'^([A-Z][^\n|]*)\n\n((?:\|[^\n]*\n)+)', text, flags=re.M):
        name = next(name for begins, name in TITLES.items() if title.startswith(begins))
        lines = [cells_of(line) for line in block.splitlines()]
        found[name] = lines[0], lines[2:]
    return found


def spread(values):
    """The range of what several runs gave."""
    values = sorted(values, key=float)
    return values[0] if values[0] == values[-1] else '%s to %s' % (values[0], values[-1])


def merged(name, runs):
    """One table of several runs: the best times, and the ranges of ratios."""
    titles, first = runs[0][name]
    rows = []
    for at, row in enumerate(first):
        each = [run[name][1][at] for run in runs]
        made = []
        for column, title in enumerate(titles):
            values = [other[column] for other in each]
            plain = values[0] == '-' or not re.search(r'µs|ratio|^to ', title)
            made.append(values[0] if plain else min(values, key=float) if 'µs' in title else spread(values))
        rows.append(made)
    return rows


def ends_of(*told):
    """The range of several ranges."""
    return spread([number for each in told for number in each.split(' to ')])


def reached(calls, values):
    """The aims, and what the tables below have of them."""
    ratio = {row[0]: row[3] for row in calls}
    turns = [ratio[name] for name in ratio if name.startswith(('turn', 'deliver'))]
    return [['sequential sweep to a plain Rust sweep', '0.5', ratio['sweep']], ['sequential sweep to the wavefront', '1.3', values[0][5]],
            ['whole run on one core to the plain sweep', '20, better 5', ratio['whole run, against the plain sweep']],
            ['a turn or a delivery to the same call in plain Rust', '1.5', ends_of(*turns)],
            ['a fresh start, a summary to the same in plain Rust', '1.5', '%s, %s' % (ratio['fresh start'], ratio['summary'])]]


def shapes(rows):
    """A row for each call, a column for each shape."""
    order, found = [], {}
    for label, call, _, _, boxed, ratio in rows:
        tiles, shape = re.fullmatch(r'(.*), (?:a |the )(.*)', label).groups()
        if (tiles, call) not in found:
            order.append((tiles, call))
        found.setdefault((tiles, call), {})[shape] = ratio, boxed
    return [[tiles, call.lower(), spread([boxed for _, boxed in found[tiles, call].values()]),
             *(found[tiles, call][shape][0] for shape in ('whole box', 'triangle', 'band'))] for tiles, call in order]


def offices(rows):
    """A row for each recipe."""
    return [[rows[at][0], *(row[4] for row in rows[at:at + 3])] for at in range(0, len(rows), 3)]


def lent():
    """What is lent to a processor, all areas and its own part, in bytes."""
    sys.path[:0] = [os.path.join(ROOT, 'bindings', 'python'), os.path.join(ROOT, 'tools')]
    import rolwyddac
    from rolwyddac import calls
    fields = rolwyddac.Fields().dimension(128, 16, 8).dimension(128, 16)
    recipe = fields.distance((1, 0)).distance((0, 1)).distance((1, 1)).close()
    sizes = calls.sizes(recipe, rolwyddac.DIRECT)
    whole = [4 * sizes.source, 4 * sizes.memories, 4 * sizes.buffer, 12 * sizes.progress, sizes.status]
    parts = []
    for processor in range(sizes.progress):
        own = rolwyddac.part_sizes(recipe, rolwyddac.DIRECT, processor)
        parts.append([4 * own.source, 4 * own.memory, 4 * own.mail, 12, own.messages])
    if any(part != parts[1] for part in parts[1:-1]):
        raise SystemExit('the parts between differ')
    rows = [('all areas', whole), ('its own part, the first processor', parts[0]), ('its own part, the second to the seventh', parts[1]),
            ('its own part, the last', parts[-1])]
    return [[label, *('{:,}'.format(each) for each in [*sizes, sum(sizes)])] for label, sizes in rows]


def part(folder):
    """Times and stacks of the calls on a part, by bench/part.c."""
    library, program = os.environ['ROLWYDDAC_LIB'], os.path.join(folder, 'part')
    subprocess.run([os.environ.get('CC', 'cc'), '-std=c11', '-O2', '-I', os.path.join(ROOT, 'bindings', 'c'), os.path.join(HERE, 'part.c'),
                    os.path.join(library, 'librolwyddac.a'), '-pthread', '-o', program], check=True)
    told = [line.split() for line in subprocess.run([program], check=True, stdout=subprocess.PIPE, text=True).stdout.splitlines()]
    named = [(name.replace(':', ', '), us, kilobytes) for name, us, kilobytes in told]
    words = lambda name: '`%s`%s' % (name.split(', ')[0], ', ' + name.split(', ')[1] if ', ' in name else ', on all areas' if name == 'turn' else '')
    return [[words(name), us] for name, us, _ in named if us != '-'], [[words(name), kilobytes] for name, _, kilobytes in named]


def boards(folder, quick):
    """The table of bindings/boards/measure.py."""
    subprocess.run([os.path.join(ROOT, 'bindings', 'boards', 'build'), folder, 'plain', 'sockets'], check=True)
    given = ['--rounds', '2', '--works', '0', '100'] if quick else []
    told = subprocess.run([sys.executable, os.path.join(ROOT, 'bindings', 'boards', 'measure.py'), folder, *given], check=True, stdout=subprocess.PIPE, text=True)
    return [cells_of(line) for line in told.stdout.splitlines()[2:]]


def browser():
    """The frames of the page, in Chromium."""
    told = subprocess.run([sys.executable, os.path.join(ROOT, 'bindings', 'python', 'tests', 'test_view_browser.py'), 'frames', 'table'], check=True,
                          stdout=subprocess.PIPE, text=True)
    return [cells_of(line) for line in told.stdout.splitlines() if line.startswith('|')]


def timed(quick):
    command = ['cargo', 'run', '--quiet', '--release', '--offline', '--features', 'library', '--manifest-path', os.path.join(HERE, 'Cargo.toml'), '--', 'time']
    found = []
    for at in range(1 if quick else RUNS):
        print('bench time, run %d' % (at + 1), file=sys.stderr, flush=True)
        found.append(tables_of(subprocess.run(command + ['--quick'] * quick, check=True, stdout=subprocess.PIPE, text=True).stdout))
    return found


def machine(quick, before):
    """What was measured, where and how."""
    with open('/proc/cpuinfo', encoding='utf-8') as file:
        facts = dict(re.findall(r'^([\w ]+?)\s*: (.*)$', file.read(), flags=re.M))
    commit = subprocess.run(['git', '-C', ROOT, 'rev-parse', '--short=8', 'HEAD'], stdout=subprocess.PIPE, text=True, check=False).stdout.strip() or 'unknown'
    runs = 'one quick run, which tells little' if quick else '%d runs of `bench/run time`' % RUNS
    loads = ' and '.join('%.1f' % load for load in (before, os.getloadavg()[0]))
    rows = [('machine', '%d cores, %s, %s, model %s' % (os.cpu_count(), platform.machine(), facts.get('model name', 'unknown'), facts.get('model', '?'))),
            ('commit', '`%s`' % commit), ('calls', runs), ('load before and after', loads)]
    return '| | |\n|---|---|\n' + ''.join('| %s | %s |\n' % row for row in rows)


def measured(quick):
    """Every part of the page."""
    before = os.getloadavg()[0]
    runs = timed(quick)
    rows = {name: merged(name, runs) for name in TITLES.values()}
    rows.update(reached=reached(rows['calls'], rows['values']), shapes=shapes(rows['shapes']), offices=offices(rows['offices']), lent=lent())
    with tempfile.TemporaryDirectory() as folder:
        rows['part'], rows['stack'] = part(folder)
        print('boards', file=sys.stderr, flush=True)
        rows['boards'] = boards(folder, quick)
    if shutil.which('chromium'):
        print('browser', file=sys.stderr, flush=True)
        rows['browser'] = browser()
    else:
        print('no chromium: the browser\'s table stays as it is', file=sys.stderr)
    return {'machine': machine(quick, before), **{name: table(name, each) for name, each in rows.items()}}


def filled(text, parts):
    """The page with these parts."""
    def one(found):
        return '<!-- %s -->\n\n%s\n<!-- end -->' % (found[1], parts[found[1]]) if found[1] in parts else found[0]
    return re.sub(r'<!-- ([\w-]+) -->\n.*?<!-- end -->', one, text, flags=re.S)


def unlike(text):
    """What is wrong with the page's parts: one is missing, or has other columns."""
    found = dict(re.findall(r'<!-- ([\w-]+) -->\n\n(.*?)\n<!-- end -->', text, flags=re.S))
    wrong = ['has no table %s' % name for name in ['machine', *COLUMNS] if name not in found]
    wrong += ['has a part %s that is not measured' % name for name in found if name not in COLUMNS and name != 'machine']
    for name in set(COLUMNS) & set(found):
        widths = {len(cells_of(line)) for line in found[name].splitlines()}
        if found[name].splitlines()[0] != '| %s |' % COLUMNS[name] or len(widths) != 1:
            wrong.append('table %s has other columns than are measured' % name)
    outside = re.sub(r'<!-- [\w-]+ -->\n.*?<!-- end -->', '', text, flags=re.S)
    wrong += ['a number of microseconds outside of the measured tables: %s' % each for each in re.findall(r'.*\d µs.*', outside)]
    return wrong


def planted(text):
    """Faults that must be told."""
    faults = [text.replace('<!-- rounds -->', '<!-- round -->'), text.replace('| k | rounds |', '| k | turns |'), text + '\nIt takes 5 µs.\n',
              text.replace('<!-- lent -->\n\n', '<!-- lent -->\n\n| more |\n')]
    return ['planted fault %d was not told' % at for at, fault in enumerate(faults) if not unlike(fault)]


def main(words):
    parser = argparse.ArgumentParser(description=__doc__, formatter_class=argparse.RawDescriptionHelpFormatter)
    parser.add_argument('what', nargs='?', choices=['page', 'check'], default='page')
    parser.add_argument('--quick', action='store_true')
    parser.add_argument('--out', default=PAGE)
    given = parser.parse_args(words)
    with open(PAGE, encoding='utf-8') as file:
        text = file.read()
    if given.what == 'page':
        text = filled(text, measured(given.quick))
        with open(given.out, 'w', encoding='utf-8') as file:
            file.write(text)
    wrong = unlike(text) + planted(text)
    for each in wrong:
        print('docs/BENCHMARKS.md: ' + each)
    return int(bool(wrong))


if __name__ == '__main__':
    sys.exit(main(sys.argv[1:]))
