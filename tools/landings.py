"""What the whole proof costs before and after each landing: processor time of `rt prove` at the landing's commit and at its parent. Run as

    python3 tools/landings.py W-201 ..    # measures these, one after the other, and writes their rows of docs/landings/README.md
    python3 tools/landings.py             # writes the table anew; what was measured stays, what was not says so
    python3 tools/landings.py check       # compares the table with the notes and with git; status 1 where one differs

Each proof is made from nothing in a worktree of its own, which goes afterwards. It takes minutes of all cores, and must be the only work of the
machine: a row has the load at its start. Processor time is user and system time of rt and all that it started. Needs git, and in PATH the rt that these
landings were proved with, rattle-kit-5b: today's has no `rt prove`, and does not prove sources of that time.
"""

import contextlib
import functools
import glob
import os
import re
import resource
import subprocess
import sys
import tempfile

ROOT = os.path.normpath(os.path.join(os.path.dirname(os.path.abspath(__file__)), '..'))
TABLE = 'docs/landings/README.md'
NOT = 'not measured'
# digits that a commit is told by
SHORT = 8
HEAD = '| request | commit | its parent | crates before, after | before, s | after, s | ratio | load at the start |'
BEGIN, END = '<!-- landings -->', '<!-- end -->'


def git(*words):
    return subprocess.run(['git', *words], cwd=ROOT, stdout=subprocess.PIPE, check=True).stdout.decode().strip()


def requests():
    """The requests that have a note."""
    return sorted(os.path.basename(path)[:-len('.md')] for path in glob.glob(os.path.join(ROOT, 'docs/landings/W-*.md')))


def landed(request):
    """The commit that a request landed with, and its parent: the first whose subject begins with the request's number."""
    found = git('log', '--reverse', '--format=%H %P', '--grep=^%s: ' % request).splitlines()
    if not found:
        sys.exit('no commit of %s' % request)
    commit, parent, *_ = found[0].split()
    return commit[:SHORT], parent[:SHORT]


def crates(commit):
    """How many crates a commit has."""
    lines = re.sub(r'#.*', '', git('show', commit + ':crates.txt')).splitlines()
    return sum(1 for line in lines if line.strip())


@contextlib.contextmanager
def worktree(commit):
    """A folder with a commit's files, for as long as it is needed."""
    with tempfile.TemporaryDirectory(prefix='landing-') as folder:
        path = os.path.join(folder, commit)
        git('worktree', 'add', '--quiet', '--detach', path, commit)
        try:
            yield path
        finally:
            git('worktree', 'remove', '--force', path)


def spent():
    used = resource.getrusage(resource.RUSAGE_CHILDREN)
    return used.ru_utime + used.ru_stime


@functools.lru_cache(maxsize=None)
def prove(commit):
    """Seconds of processor time that proving a commit takes. One landing is often the next one's parent: each is proved once a run."""
    with worktree(commit) as path:
        before = spent()
        done = subprocess.run(['rt', 'prove'], cwd=path, stdout=subprocess.PIPE, stderr=subprocess.STDOUT)
        if done.returncode:
            sys.exit('%s is not proved by this toolchain:\n%s' % (commit, done.stdout.decode(errors='replace')[-2000:]))
        return spent() - before


def measure(request):
    """Before, after, their ratio and the load, as the table has them."""
    commit, parent = landed(request)
    load = os.getloadavg()[0]
    before, after = prove(parent), prove(commit)
    return ['%d' % before, '%d' % after, '%.2f' % (after / before), '%.1f' % load]


def kept(text):
    """What the table has of each request behind its crates."""
    rows = re.findall(r'^\| (W-\d+) \|(.*)\|$', text, flags=re.M)
    return {request: [cell.strip() for cell in rest.split('|')][3:] for request, rest in rows}


def row(request, measured):
    commit, parent = landed(request)
    return '| %s |' % ' | '.join([request, commit, parent, '%d, %d' % (crates(parent), crates(commit)), *measured])


def table(measured):
    rows = [row(request, measured.get(request) or [NOT, NOT, '', '']) for request in requests()]
    return '\n'.join([BEGIN, '', HEAD, '|' + '---|' * HEAD.count(' | ') + '---|', *rows, '', END])


def page():
    with open(os.path.join(ROOT, TABLE), encoding='utf-8') as file:
        return file.read()


def filled(text, measured):
    """The page with its table anew."""
    return re.sub('%s.*?%s' % (BEGIN, END), lambda _: table(measured), text, flags=re.S)


def write(measured):
    text = page()
    with open(os.path.join(ROOT, TABLE), 'w', encoding='utf-8') as file:
        file.write(filled(text, {**kept(text), **measured}))


def check():
    text = page()
    wrong = [] if filled(text, kept(text)) == text else ['%s: its rows are not those of the notes and of git' % TABLE]
    wrong += ['%s: %s has half a measurement' % (TABLE, request) for request, cells in kept(text).items() if (cells[0] == NOT) != (cells[1] == NOT)]
    # a row that is missing, and one of another commit, must be told
    for fault in (re.sub(r'^\| W-203 .*\n', '', text, flags=re.M), text.replace(landed('W-203')[0], '0' * SHORT)):
        if filled(fault, kept(fault)) == fault:
            wrong.append('a planted fault was not told')
    print(*wrong or ['%d landings' % len(requests())], sep='\n')
    return int(bool(wrong))


def main(words):
    if words == ['check']:
        return check()
    unknown = [word for word in words if word not in requests()]
    if unknown:
        sys.exit('there is no note of %s\n\n%s' % (', '.join(unknown), __doc__))
    for request in words:
        found = measure(request)
        print(request, *found, flush=True)
        write({request: found})
    write({})
    return 0


if __name__ == '__main__':
    sys.exit(main(sys.argv[1:]))
