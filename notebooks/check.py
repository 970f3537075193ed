"""Runs the code cells of notebooks/harbour.ipynb in their order and compares what each prints with what the notebook has. Run as

    python3 notebooks/check.py           # by plain Python, and by `jupyter nbconvert --execute` where that is installed
    python3 notebooks/check.py --write   # stores what the cells print in the notebook, with jupyter also the picture

It takes the package of bindings/python, and the library that ROLWYDDAC_LIB names or bindings/library made. What the cells assert must hold. The
chart that they write is held to the command's, byte for byte. Planted faults must be told. Status 1 where anything is wrong.
"""

import contextlib
import copy
import io
import json
import os
import shutil
import subprocess
import sys
import tempfile
import traceback

HERE = os.path.dirname(os.path.abspath(__file__))
ROOT = os.path.dirname(HERE)
PACKAGE = os.path.join(ROOT, 'bindings', 'python')
NAME = 'harbour.ipynb'
CHART = 'harbour.asc'

# seconds that jupyter may take
TIME = 300

CODE_KEYS = {'cell_type', 'execution_count', 'id', 'metadata', 'outputs', 'source'}
TEXT_KEYS = {'cell_type', 'id', 'metadata', 'source'}


def code(notebook):
    return [cell for cell in notebook['cells'] if cell['cell_type'] == 'code']


def printed(cell):
    """What a code cell has as its printed output."""
    return ''.join(''.join(each['text']) for each in cell['outputs'] if each['output_type'] == 'stream' and each['name'] == 'stdout')


def formed(notebook):
    """What is wrong with its form, as Jupyter wants it."""
    wrong = [] if (notebook['nbformat'], notebook['nbformat_minor']) == (4, 5) else ['it is not of format 4.5']
    for cell in notebook['cells']:
        if set(cell) != (CODE_KEYS if cell['cell_type'] == 'code' else TEXT_KEYS):
            wrong.append('cell %s has other keys: %s' % (cell.get('id'), ', '.join(sorted(cell))))
    if len({cell['id'] for cell in notebook['cells']}) != len(notebook['cells']):
        wrong.append('two cells have the same id')
    return wrong


@contextlib.contextmanager
def beside_data():
    """A folder of its own, beside the data, as the notebook's folder lies."""
    before = os.getcwd()
    with tempfile.TemporaryDirectory() as folder:
        os.symlink(os.path.join(ROOT, 'data'), os.path.join(folder, 'data'))
        os.mkdir(os.path.join(folder, 'notebooks'))
        os.chdir(os.path.join(folder, 'notebooks'))
        try:
            yield
        finally:
            os.chdir(before)


def ran(notebook):
    """What each code cell prints, one after the other; and what went wrong, where the rest is not run."""
    names, told = {'__name__': '__main__'}, []
    for cell in code(notebook):
        output = io.StringIO()
        try:
            with contextlib.redirect_stdout(output):
                exec(compile(''.join(cell['source']), 'cell ' + cell['id'], 'exec'), names)
        except Exception:
            return told, ['cell %s:\n%s' % (cell['id'], traceback.format_exc())]
        told.append(output.getvalue())
    return told, []


def differing(notebook, told):
    """Cells that print something else than the notebook has."""
    return ['cell %s printed\n%sand the notebook has\n%s' % (cell['id'], got, printed(cell))
            for cell, got in zip(code(notebook), told) if got != printed(cell)]


def chart_differs():
    """Is the chart that the cells wrote the command's?"""
    surveys = [os.path.join('../data/harbour', name) for name in ('autumn.csv', 'spring.csv')]
    made = subprocess.run([os.path.join(ROOT, 'rolwyddac'), 'chart', '../data/harbour/basin.toml', '--soundings', *surveys, '--value', '3000',
                           '--cell', '10', '--out', '-'], stdout=subprocess.PIPE, check=True).stdout
    with open(CHART, 'rb') as file:
        return [] if file.read() == made else ['the chart is not the command\'s']


def by_python(notebook):
    with beside_data():
        told, wrong = ran(notebook)
        return wrong or differing(notebook, told) + chart_differs()


def has_jupyter():
    """Is there a jupyter that runs notebooks?"""
    found = shutil.which('jupyter')
    return bool(found) and not subprocess.run([found, 'nbconvert', '--version'], stdout=subprocess.DEVNULL, stderr=subprocess.DEVNULL).returncode


def executed(notebook):
    """The notebook as jupyter executes it, in this folder; or what went wrong."""
    with open(NAME, 'w', encoding='utf-8') as file:
        json.dump(notebook, file)
    done = subprocess.run(['jupyter', 'nbconvert', '--to', 'notebook', '--execute', '--output', 'executed.ipynb', NAME], timeout=TIME,
                          stdout=subprocess.PIPE, stderr=subprocess.STDOUT)
    if done.returncode:
        return None, [done.stdout.decode(errors='replace')]
    with open('executed.ipynb', encoding='utf-8') as file:
        return json.load(file), []


def by_jupyter(notebook):
    with beside_data():
        made, wrong = executed(notebook)
        return wrong or differing(notebook, [printed(cell) for cell in code(made)]) + chart_differs()


def pictures(notebook):
    """The pictures of each code cell, where there is a jupyter that makes them."""
    if not has_jupyter():
        return [[each for each in cell['outputs'] if each['output_type'] == 'display_data'] for cell in code(notebook)], []
    with beside_data():
        made, wrong = executed(notebook)
    return [[{'data': {kind: each['data'][kind] for kind in sorted(each['data'])}, 'metadata': {}, 'output_type': 'display_data'}
             for each in cell['outputs'] if each['output_type'] == 'display_data'] for cell in code(made)] if made else [], wrong


def planted(notebook):
    """Faults that must be told: an asserted number, an order that ends too soon, another shore, another depth where nothing was sounded, a
    stored output."""
    told = []
    for old, new in (('(60, 80)', '(60, 81)'), ('while busy or letters', 'while len(busy) > 1'), ("bound['slope']", "-bound['slope']"),
                     ('CELL, WITHOUT = 10, 3000', 'CELL, WITHOUT = 10, 3001')):
        wrong = copy.deepcopy(notebook)
        for cell in code(wrong):
            cell['source'] = [line.replace(old, new) for line in cell['source']]
        if wrong == notebook or not by_python(wrong):
            told.append('planted fault was not told: %s' % new)
    wrong = copy.deepcopy(notebook)
    code(wrong)[1]['outputs'] = [{'name': 'stdout', 'output_type': 'stream', 'text': ['0 bytes\n']}]
    return told if by_python(wrong) else told + ['planted fault was not told: a stored output']


def write(path, notebook):
    with beside_data():
        told, wrong = ran(notebook)
    shown, unshown = pictures(notebook)
    for number, (cell, text, drawn) in enumerate(zip(code(notebook), told, shown), 1):
        stream = [{'name': 'stdout', 'output_type': 'stream', 'text': text.splitlines(True)}] if text else []
        cell['execution_count'], cell['outputs'] = number, stream + drawn
    with open(path, 'w', encoding='utf-8') as file:
        file.write(json.dumps(notebook, indent=1, ensure_ascii=False) + '\n')
    return wrong + unshown


def main(words):
    path = os.path.join(HERE, NAME)
    # for this Python, and for the one that jupyter starts
    sys.path.insert(0, PACKAGE)
    os.environ['PYTHONPATH'] = PACKAGE
    if os.environ.get('ROLWYDDAC_LIB'):
        os.environ['ROLWYDDAC_LIB'] = os.path.abspath(os.environ['ROLWYDDAC_LIB'])
    with open(path, encoding='utf-8') as file:
        notebook = json.load(file)
    if words == ['--write']:
        wrong = write(path, notebook)
    elif words:
        sys.exit(__doc__)
    else:
        wrong = formed(notebook) + by_python(notebook) + planted(notebook)
        print('%d code cells by %s' % (len(code(notebook)), sys.version.split()[0]))
        if has_jupyter():
            wrong += by_jupyter(notebook)
            print('and by jupyter nbconvert')
        else:
            print('not run: no jupyter nbconvert')
    print(*wrong, sep='\n')
    return int(bool(wrong))


if __name__ == '__main__':
    sys.exit(main(sys.argv[1:]))
