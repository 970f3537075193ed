"""Holds what a newcomer reads to its measure. Run as

    python3 tools/readme_words.py            # words, lines, counts and limits of README.md; sentences, columns, paths and links of all pages
    python3 tools/readme_words.py first      # writes README.md's first command, for a shell

A path is a word in backticks, or a link, that looks like a file of the repository: it must exist. Planted faults must be told.
Status 1 where anything is wrong. tools/page_examples.py runs the examples.
"""

import glob
import os
import re
import sys

import model

ROOT = os.path.normpath(os.path.join(os.path.dirname(os.path.abspath(__file__)), '..'))
README = 'README.md'
PAGES = (README, 'CONTRIBUTING.md', 'bindings/README.md', 'docs/CALLS.md', 'docs/COMMAND.md', 'docs/DEMANDS.md', 'docs/GLOSSARY.md',
         'docs/INSTALL.md', 'docs/MODELLERS.md', 'docs/PROOFS.md', 'docs/RECIPE.md', 'docs/VIEW.md')

MOST_LINES = 150
WORDS_BELOW = 1500
MEAN_BELOW = 20
MOST_COLUMNS = 100
# bytes of a recipe's record
RECORD = 16
# the library's header has the limits; rows of README.md's table by how they begin
LIBRARY = 'bindings/c/rolwyddac_library.h'
LIMITS = {'DIMENSIONS': 'dimensions', 'CELLS': 'cells', 'LENGTH': 'length', 'TILES': 'tiles', 'PROCESSORS': 'processors', 'DISTANCES': 'distances',
          'BOUNDS': 'bounds', 'SHIFT': 'shift'}

# what the gate and the library's scripts make is no file of the repository
MADE = ('target/', 'out/')
FOLDERS = ('.ci', 'bench', 'bindings', 'crates', 'data', 'docs', 'notebooks', 'packaging', 'prebuilt', 'tools')


def page(name):
    with open(os.path.join(ROOT, name), encoding='utf-8') as file:
        return file.read()


def blocks(text, kind):
    """What the fenced blocks of a kind have."""
    return re.findall(r'^```%s\n(.*?)^```$' % kind, text, flags=re.M | re.S)


def prose(text):
    """The sentences: no blocks, tables, headings or pictures; an item of a list begins a sentence."""
    text = re.sub(r'^```.*?^```$', '', text, flags=re.M | re.S)
    kept = [line for line in text.split('\n') if not re.match(r'    |\||#|!\[| {5}', line)]
    joined = re.sub(r'\n(?=- |\d+\. )', '\n\n', '\n'.join(kept))
    found = []
    for paragraph in re.split(r'\n\s*\n', joined):
        plain = re.sub(r'^(- |\d+\. )', '', ' '.join(paragraph.split()))
        found += [each for each in re.split(r'(?<=[.!?:])\s+(?=[A-Z`*])', plain) if re.search(r'[A-Za-z]', each)]
    return found


def lengthy(name, text):
    """What is wrong with the sentences of a page."""
    sentences = prose(text)
    mean = sum(len(each.split()) for each in sentences) / max(1, len(sentences))
    told = '%s: %d words, %d lines, %d sentences of %.1f words' % (name, len(text.split()), len(text.splitlines()), len(sentences), mean)
    print(told)
    return [told + ', %d are too many' % MEAN_BELOW] if mean >= MEAN_BELOW else []


def measured(text):
    """What is wrong with README.md's size: everything is counted, tables and examples too."""
    wrong = []
    words, lines = len(text.split()), len(text.splitlines())
    if words >= WORDS_BELOW:
        wrong.append('%s: %d words, %d are too many' % (README, words, WORDS_BELOW))
    if lines > MOST_LINES:
        wrong.append('%s: %d lines, more than %d' % (README, lines, MOST_LINES))
    return wrong


def named(text):
    """The paths that a page names: in backticks, without their options; as links; unquoted in its prose."""
    ticked = [word.split()[0] for word in re.findall(r'`([^`\n]+)`', text) if word.split()]
    links = re.findall(r'\]\(([^)#\s]+)', text)
    bare = re.findall(r'(?<![\w/.`(-])((?:%s)/[\w./*-]+\w)' % '|'.join(re.escape(each) for each in FOLDERS), text)
    return ticked, links, bare


def is_path(word):
    """Does it look like a file of the repository? A name with a wildcard or a placeholder is none."""
    if word.startswith(MADE) or '/out/' in word or not re.fullmatch(r'[\w./-]+', word) or re.search(r'\.\.|NAME|WHAT|NNN', word):
        return False
    return word.split('/')[0] in FOLDERS and '/' in word or bool(re.fullmatch(r'\w+\.md', word))


def missing(name, text):
    """The paths of a page that are not there, seen from the root or from the page; a link is seen from the page alone."""
    beside = os.path.dirname(os.path.join(ROOT, name))
    ticked, links, bare = named(text)
    gone = []
    for word in ticked + bare:
        # a definition is named without its ending
        places = [os.path.join(folder, word + ending) for folder in (ROOT, beside) for ending in ('', '.antt')]
        if is_path(word) and not any(map(os.path.exists, places)):
            gone.append(word)
    gone += [link for link in links if '://' not in link and not os.path.exists(os.path.join(beside, link))]
    return ['%s: there is no %s' % (name, word) for word in sorted(set(gone))]


def wide(name, text):
    """Lines that are too long; those of tables and blocks can't be broken."""
    text = re.sub(r'^```.*?^```$', lambda block: '\n' * block[0].count('\n'), text, flags=re.M | re.S)
    return ['%s:%d: more than %d columns' % (name, at, MOST_COLUMNS) for at, line in enumerate(text.splitlines(), 1)
            if len(line) > MOST_COLUMNS and not re.match(r'\||    ', line) and '](' not in line]


def counted(text):
    """README.md's numbers of crates and must-fail edits, and its limits, as the tree and the library's header have them."""
    crates = len(os.listdir(os.path.join(ROOT, 'crates')))
    edits = len(glob.glob(os.path.join(ROOT, 'crates/*/must-fail/*.edit')))
    wrong = [told for told in ('%d crates' % crates, '%d *must-fail edits*' % edits) if told not in ' '.join(text.split())]
    limits = dict(re.findall(r'^#define ROLWYDDAC_MOST_(\w+) (\d+)$', page(LIBRARY), flags=re.M))
    for name, begins in LIMITS.items():
        row = re.search(r'^\| %s[^|]*\| \d+ \| ([\d,]+) \|$' % begins, text, flags=re.M)
        if not row or row[1].replace(',', '') != limits[name]:
            wrong.append('limit %s, %s' % (begins, limits[name]))
    return ['%s: has not %s' % (README, each) for each in wrong]


def drawn(text):
    """README.md's grid of 5 by 5 cells, laid out in columns."""
    return [[int(word) for word in row.split()] for row in re.findall(r'^    ((?: +\d+){5})\b', text, flags=re.M)]


def differs(text):
    """Is that grid the model's? Source 8, each cell with the one above and the one to the left, halved."""
    records = ((1, 0, 5, 0, 2, 0, 2), (1, 0, 5, 0, 3), (2, 0, 1, 0, 0, 0, 1), (2, 0, 0, 1, 0, 0, 1), (3, 1))
    grid = [0] * 25
    number = model.sweep(b''.join(bytes(each).ljust(RECORD, b'\0') for each in records), [8] * 25, grid)
    same = number == 0 and drawn(text) == [grid[at:at + 5] for at in range(0, 25, 5)]
    return [] if same else ['%s: its grid is not the model\'s' % README]


def planted():
    """Faults that must be told."""
    text = page(README)
    faults = [measured(text + ' word' * WORDS_BELOW), measured(text + '\n' * MOST_LINES),
              lengthy('a planted page', 'A sentence ' + 'that goes on ' * 10 + 'and on.'),
              missing(README, 'see `docs/nowhere.md`'), missing(README, '[a page](docs/nowhere.md)'),
              missing(README, 'or docs/nowhere.md'), counted(text.replace('crates from', 'crate from')),
              counted(text.replace('| tiles | 1 | 1,024 |', '| tiles | 1 | 1,025 |')), differs(text.replace('  25  29', '  25  30')),
              wide(README, 'x' * (MOST_COLUMNS + 1))]
    return ['planted fault %d was not told' % at for at, told in enumerate(faults) if not told]


def held():
    wrong = measured(page(README)) + counted(page(README)) + differs(page(README))
    for name in PAGES:
        text = page(name)
        wrong += lengthy(name, text)
        wrong += missing(name, text)
        wrong += wide(name, text)
    wrong += planted()
    print(*wrong, sep='\n')
    return int(bool(wrong))


def first():
    print(blocks(page(README), 'sh')[0], end='')
    return 0


def main(words):
    if words == ['first']:
        return first()
    if words:
        sys.exit(__doc__)
    return held()


if __name__ == '__main__':
    sys.exit(main(sys.argv[1:]))
