"""Holds docs/ARCHITECTURE.md to the tree, and the developers' pages to their measure. Run as

    python3 tools/map_page.py

Every crate of crates.txt has one row and stands in the drawing of the layers; rows stand in the order of crates.txt. The table of exported calls has
those of crates/calls. Every file of specs/ that says "Read this" is in the tables of what to read, and every file there exists. Of all pages below:
sentences, columns, and each path that they name. Planted faults must be told. Status 1 where anything is wrong.
"""

import glob
import os
import re
import sys

import readme_words

MAP = 'docs/ARCHITECTURE.md'
PAGES = (MAP, 'docs/BENCHMARKS.md', 'docs/landings/README.md', 'docs/landings/SPEED.md', 'CHANGELOG.md')


def crates():
    lines = re.sub(r'#.*', '', readme_words.page('crates.txt')).splitlines()
    return [line.split(':')[0].split()[0] for line in lines if line.strip()]


def exported():
    """The names of the exported calls, without what they all begin with."""
    found = set()
    for path in glob.glob(os.path.join(readme_words.ROOT, 'crates/calls/src/*.rt')):
        with open(path, encoding='utf-8') as file:
            found |= set(re.findall(r'\bfn rolwyddac_(\w+)', file.read()))
    return found


def part(text, begin, end):
    """What stands between two lines, or nothing."""
    return text.partition(begin)[2].partition(end)[0]


def unlike(text):
    """What the map has otherwise than the tree."""
    wanted, wrong = crates(), []
    rows = re.findall(r'^\| `(\w+)` \|', part(text, '\n## Crates\n', '\n### Offered'), flags=re.M)
    if rows != wanted:
        wrong.append('%s: rows of crates that are not as in crates.txt: %s' % (MAP, ' '.join(sorted(set(rows) ^ set(wanted))) or 'their order'))
    drawn = re.findall(r'\w+', part(text, '\n## The layers\n', '\n## '))
    wrong += ['%s: %s is not drawn' % (MAP, name) for name in wanted if name not in drawn]
    if '%d crates' % len(wanted) not in text:
        wrong.append('%s: does not say %d crates' % (MAP, len(wanted)))
    calls = re.findall(r'`(\w+)`', '\n'.join(re.findall(r'^\| ((?:`\w+`(?:, )?)+) \|', part(text, '| exported, each with', '\n\n'), flags=re.M)))
    if sorted(calls) != sorted(exported()):
        wrong.append('%s: exported calls that are not those of crates/calls: %s' % (MAP, ' '.join(sorted(set(calls) ^ exported()))))
    if 'the %d calls' % len(exported()) not in text:
        wrong.append('%s: does not say the %d calls' % (MAP, len(exported())))
    return wrong


def to_read(text):
    """The files of the tables of what to read, and the words there that name none: a folder names all its files, a name without one is
    beside the file before it."""
    found, gone, at = set(), [], None
    for cell in re.findall(r'^\| ([^|]*) \|', part(text, '\n## What to read', '\n### The chain'), flags=re.M):
        for word in re.findall(r'`([\w/.]+)`', cell):
            path = os.path.join(readme_words.ROOT, word if word.startswith('crates/') or at is None else at + '/' + word)
            files = glob.glob(path + '/**/*.antt', recursive=True) if os.path.isdir(path) else [path + '.antt'] if os.path.exists(path + '.antt') else []
            found |= set(files)
            if word.startswith('crates/'):
                at = word if os.path.isdir(path) else os.path.dirname(word)
            if not files and not path.endswith('/src') and not os.path.exists(path):
                gone.append(word)
    return found, gone


def unread(text):
    """What a reader is told to read and does not find here, and what is not there."""
    found, gone = to_read(text)
    wrong = ['%s: there is no %s to read' % (MAP, word) for word in gone]
    for path in sorted(glob.glob(os.path.join(readme_words.ROOT, 'crates/*/specs/**/*.antt'), recursive=True)):
        with open(path, encoding='utf-8') as file:
            if 'Read this' in file.readline() and path not in found:
                wrong.append('%s: does not name %s, which is to be read' % (MAP, os.path.relpath(path, readme_words.ROOT)))
    return wrong


def planted():
    text = readme_words.page(MAP)
    faults = [('| `rank_index` |', '| `rank_indices` |'), ('rank_index part part_calls', 'part part_calls'), ('`take_in` | a transport', '`took_in` | a transport'),
              ('%d crates' % len(crates()), 'some crates')]
    told = ['planted fault was not told: %s' % new for old, new in faults
            if old not in text or not set(unlike(text.replace(old, new))) - set(unlike(text))]
    for old, new in (('`Shape` |', '`Shape`, `Nowhere` |'), ('`crates/nest/specs/Recipes` |', '`crates/nest/specs/Nest` |')):
        if old not in text or not set(unread(text.replace(old, new))) - set(unread(text)):
            told.append('planted fault was not told: %s' % new)
    return told


def main():
    wrong = unlike(readme_words.page(MAP)) + unread(readme_words.page(MAP)) + planted()
    for name in PAGES:
        text = readme_words.page(name)
        wrong += readme_words.lengthy(name, text) + readme_words.missing(name, text) + readme_words.wide(name, text)
    print(*wrong or ['%d crates, %d calls' % (len(crates()), len(exported()))], sep='\n')
    return int(bool(wrong))


if __name__ == '__main__':
    sys.exit(main())
