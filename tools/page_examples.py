"""Runs the examples of a page as they are written, and holds them to what the page says they print. Run as

    python3 tools/page_examples.py PAGE ..    # runs them in the folder that it is started in, page after page; .ci/users does, in a fresh copy
    python3 tools/page_examples.py            # runs none: does each page have its commands in blocks that are run? Planted faults must be told

A page's blocks are taken in their order. The first line of a block says what is done with it:

    ```sh                       commands; the blocks of a page share their folder and exported variables
    ```python                   Python; the blocks of a page share their names
    ```pycon                    Python with its answers, by doctest
    ```c FILE                   saved as that file, for the next commands; so are `rust`, `toml` and others with a file's name
    ```prints                   what the block before it writes on standard output
    ```sh status 1              commands that end so; `prints` has their standard error too
    ```sh needs OpenMPI         run where that is installed, else counted: NEEDS has the names
    ```sh not run: WHY          counted

A table whose first column is headed `command` has commands too. One with a placeholder is a form, and counted. One that .ci/users runs with the same
words is not run twice. Python needs the package: PYTHONPATH=bindings/python, and the library. Status 1 where anything is wrong.
"""

import collections
import contextlib
import doctest
import glob
import importlib.util
import io
import os
import re
import shutil
import subprocess
import sys
import tempfile
import traceback

ROOT = os.path.normpath(os.path.join(os.path.dirname(os.path.abspath(__file__)), '..'))
USERS = os.path.join('.ci', 'users')

# seconds that a block may take; the first of a copy makes the library
TIME = 600

# what a block may need: programs, and modules of Python
NEEDS = {'OpenMPI': ('mpicc', 'mpirun'), 'cargo': ('cargo',), 'pkg-config': ('pkg-config',), 'dpkg-deb': ('dpkg-deb',), 'Jupyter': ('jupyter',),
         'GDAL': ('module osgeo',), 'matplotlib': ('module matplotlib',), 'pip': ('module pip',), 'venv': ('module ensurepip',), 'groff': ('groff',)}
SAVED = ('c', 'rust', 'toml')
# a schema of words, a quotation; and what tools/recipe_page.py holds to the model
QUOTED = ('', 'text', 'usage', 'recipe', 'grid', 'value', 'chart', 'rounds', 'sizes', 'run', 'hours')

# how a command begins; in a quotation or an indented block such a line would be run by nobody
COMMAND = re.compile(r'(?:\$ |>>> |\./|rt |bindings/|packaging/|python3? |bench/|tools/|\.ci/|target/|cc |pip |rolwyddac |mpirun |[A-Z_]+=\S+ |rm |git |cargo )')
PLACEHOLDER = re.compile(r'\b[A-Z]{2,}\b|\.\.(?!/)|[\[\]]|\bN\b')

Example = collections.namedtuple('Example', 'kind told body')


def pages():
    """Every page but the landings, which are history."""
    found = ['README.md', 'CONTRIBUTING.md', *glob.glob('docs/*.md', root_dir=ROOT), *glob.glob('bindings/**/*.md', root_dir=ROOT, recursive=True)]
    return found + ['tools/README.md', 'bench/README.md', *glob.glob('packaging/*.md', root_dir=ROOT)]


def content(name):
    with open(os.path.join(ROOT, name), encoding='utf-8') as file:
        return file.read()


def examples(text):
    """The blocks of a page, and the commands of its tables, in their order."""
    found, in_commands = [], False
    for block, info, body, line in re.findall(r'(^```([^\n]*)\n(.*?)^```$)|^([^\n]*)$', text, flags=re.M | re.S):
        if block:
            kind, _, told = info.partition(' ')
            found.append(Example(kind, told.strip(), body))
        in_commands = line.startswith('| command |') or in_commands and line.startswith('|')
        if in_commands:
            found += [Example('table', '', command) for command in re.findall(r'`([^`]+)`', line.split(' | ')[0])]
    return found


# What is wrong with a page's form

def hidden(name, text):
    """Lines that look like commands and that nobody runs: indented ones, and those of quotations."""
    lines, wrong = text.split('\n'), []
    inside = None
    for at, line in enumerate(lines, 1):
        if line.startswith('```'):
            inside = line[3:].split(' ')[0] if inside is None else None
            continue
        quoted = inside in ('', 'text') or inside is None and line.startswith('    ')
        if quoted and COMMAND.match(line.strip()):
            wrong.append('%s:%d: a command that is not run: %s' % (name, at, line.strip()))
    return wrong


def formed(name, text):
    """What is wrong with the blocks of a page, none of which is run for this."""
    wrong, before = hidden(name, text), None
    for example in examples(text):
        kind, told, _ = example
        known = not told or kind in QUOTED or kind in SAVED and re.fullmatch(r'[\w./-]+', told) or re.match(r'not run: \S', told)
        known = known or kind == 'sh' and re.fullmatch(r'status \d+', told)
        known = known or told.startswith('needs ') and all(word in NEEDS for word in needed(told))
        if kind not in ('sh', 'python', 'pycon', 'prints', 'table', *SAVED, *QUOTED) or not known:
            wrong.append('%s: no block is marked ```%s %s' % (name, kind, told))
        if kind in SAVED and not told:
            wrong.append('%s: a block of %s has no file\'s name' % (name, kind))
        if kind == 'prints' and (before is None or before.kind not in ('sh', 'python')):
            wrong.append('%s: nothing is run that prints %r' % (name, example.body))
        before = example
    return wrong


def needed(told):
    return [word.strip() for word in told[len('needs '):].split(',')]


def has(what):
    """Is a program or a module of Python here?"""
    kind, _, module = what.partition(' ')
    return importlib.util.find_spec(module) is not None if module else shutil.which(kind) is not None


# Running

class Page:
    """A page's examples while they are run: the commands' folder and variables, Python's names, what was printed last."""

    def __init__(self, name, scratch):
        self.name, self.wrong, self.counts, self.left = name, [], collections.Counter(), []
        self.names, self.printed = {'__name__': '__main__'}, None
        self.state = os.path.join(scratch, 'state')
        self.run_by_users = commands_of_users()
        with open(self.state, 'w', encoding='utf-8'):
            pass

    def commands(self, body, status=0):
        """What commands print. Where they have to fail, what they tell too."""
        # the state of the shell goes from block to block, as it does in a terminal
        script = '. "$0"\n%s\n{ export -p; printf \'cd "%%s"\\n\' "$PWD"; } > "$0"\n' % body.rstrip('\n')
        done = subprocess.run(['sh', '-eu', '-c', script, self.state], stdin=subprocess.DEVNULL, stdout=subprocess.PIPE,
                              stderr=subprocess.STDOUT if status else None, check=False, timeout=TIME, text=True)
        if done.returncode != status:
            self.wrong.append('%s: status %d, and the page has %d, of\n%s%s' % (self.name, done.returncode, status, body, done.stdout))
        return done.stdout

    def python(self, body):
        printed = io.StringIO()
        with contextlib.redirect_stdout(printed):
            try:
                exec(compile(body, self.name, 'exec'), self.names)  # pylint: disable=exec-used
            except Exception:  # pylint: disable=broad-except
                self.wrong.append('%s: %s' % (self.name, traceback.format_exc()))
        return printed.getvalue()

    def dialogue(self, body):
        """Python with its answers. What is wrong is told by doctest."""
        test = doctest.DocTestParser().get_doctest(body, self.names, self.name, self.name, 0)
        told = io.StringIO()
        if doctest.DocTestRunner(verbose=False).run(test, out=told.write, clear_globs=False).failed:
            self.wrong.append(told.getvalue())

    def save(self, path, body):
        os.makedirs(os.path.dirname(path) or '.', exist_ok=True)
        with open(path, 'w', encoding='utf-8') as file:
            file.write(body)

    def leave(self, why, body):
        self.counts['not run'] += 1
        self.left.append('%s: not run, %s: %s' % (self.name, why, body.split('\n')[0]))
        self.printed = None

    def compare(self, body):
        if self.printed is not None and self.printed != body:
            self.wrong.append('%s: the page has\n%sand what was printed is\n%s' % (self.name, body, self.printed))

    def table(self, body):
        if PLACEHOLDER.search(re.sub(r'\bREADME\b|\bMANUAL\b', '', body)):
            self.counts['forms'] += 1
        elif body in self.run_by_users:
            self.counts['run by .ci/users itself'] += 1
        else:
            self.counts['run'] += 1
            self.commands(body)

    def take(self, example):
        """Does what one block is for."""
        kind, told, body = example
        missing = [word for word in needed(told) if not all(map(has, NEEDS[word]))] if told.startswith('needs ') else []
        if kind in QUOTED:
            return
        if kind == 'table':
            self.table(body)
        elif told.startswith('not run: '):
            self.leave(told[len('not run: '):], body)
        elif missing:
            self.leave('no ' + ', '.join(missing), body)
        elif kind == 'prints':
            self.compare(body)
        elif kind in SAVED:
            self.save(told, body)
        else:
            self.counts['run'] += 1
            print(body, flush=True)
            status = int(told.split(' ')[1]) if told.startswith('status ') else 0
            self.printed = self.commands(body, status) if kind == 'sh' else self.python(body) if kind == 'python' else self.dialogue(body)
            print(self.printed or '', flush=True)


def commands_of_users():
    """What .ci/users runs as it stands: `check NAME COMMAND`."""
    return {command.strip() for command in re.findall(r'\bcheck [\w"$-]+ ((?:python3 )?[\w./-]+(?: [\w./-]+)*)(?=[;\n])', content(USERS))}


def ran(name, text):
    """A page's examples, run in their order."""
    here = os.getcwd()
    with tempfile.TemporaryDirectory() as scratch:
        page = Page(name, scratch)
        page.wrong += formed(name, text)
        try:
            for example in examples(text) if not page.wrong else []:
                page.take(example)
        finally:
            os.chdir(here)
    return page


# Faults that must be told

FAULTS = ('```sh\necho 1\n```\n```prints\n2\n```\n', '```sh\nfalse\n```\n', '```sh status 1\ntrue\n```\n', '```sh\nfalse\ntrue\n```\n',
          '```python\nprint(1)\n```\n```prints\n2\n```\n', '```python\n1 / 0\n```\n', '```pycon\n>>> 1\n2\n```\n', '```sh status 2\nexit 1\n```\n',
          '```sh\nexport A=1\n```\n```sh\necho $A\n```\n```prints\n2\n```\n', '```sh needs luck\ntrue\n```\n', '```shell\ntrue\n```\n',
          '```prints\n1\n```\n', '    bindings/library\n', '```text\n./rolwyddac plan r\n```\n', '```c\nint a;\n```\n', '```sh not run:\ntrue\n```\n',
          '| command | what |\n|---|---|\n| `false` | fails |\n')
SOUND = ('```sh\nexport A=1; cd /\n```\n```sh\necho $A $PWD\n```\n```prints\n1 /\n```\n', '```sh status 1\necho 1 >&2; exit 1\n```\n```prints\n1\n```\n',
         '```python\na = 1\n```\n```python\nprint(a)\n```\n```prints\n1\n```\n', '```pycon\n>>> 1\n1\n```\n', '```sh not run: for a reason\nfalse\n```\n',
         '| command | what |\n|---|---|\n| `true` | ends |\n| `false FILE` | a form |\n\n| other |\n|---|\n| `false` |\n', '    a drawing\n',
         '```usage\nrolwyddac plan RECIPE\n```\n')


def planted():
    """Each of these pages is wrong, and then each of these is right."""
    wrong = []
    for text in FAULTS + SOUND:
        with contextlib.redirect_stdout(io.StringIO()):
            told = ran('a planted page', text).wrong
        if bool(told) == (text in SOUND):
            wrong.append('told of the page\n%s: %s' % (text, told))
    return wrong


def main(words):
    wrong = [] if words else planted()
    for name in words:
        page = ran(name, content(name))
        wrong += page.wrong
        print(*page.left, sep='\n')
        print('%s: %s' % (name, ', '.join('%d %s' % (count, what) for what, count in sorted(page.counts.items())) or 'no examples'), flush=True)
    for name in [] if words else pages():
        wrong += formed(name, content(name))
    print(*wrong, sep='\n')
    return int(bool(wrong))


if __name__ == '__main__':
    sys.exit(main(sys.argv[1:]))
