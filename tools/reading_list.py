"""Holds the list of what to read to the tree. Run as

    python3 tools/reading_list.py            every file of the list exists, what a file imports from specs/ is on the list, lines are as counted
    python3 tools/reading_list.py --write    counts anew, and puts the counts into docs/ARCHITECTURE.md

A file that says "For contracts below the calls" may be imported without being on the list: what is cited of it is no definition to believe, but a
name of one. Planted faults must be told. Status 1 where anything is wrong.
"""

import os
import re
import sys

import map_page
import readme_words

OWN = map_page.crates()
HEAD, END = '| table | files | lines |\n|---|---|---|\n', '\n\n'


def lines_of(path):
    with open(os.path.join(readme_words.ROOT, path), encoding='utf-8') as file:
        return file.read().count('\n')


def tables(text):
    """Each table's name with its files, in the page's order; a file counts where it stands first."""
    body, seen, found = map_page.part(text, '\n## What to read', '\n### The chain'), set(), []
    for piece in re.split(r'\n### ', body)[1:]:
        files, _ = map_page.to_read('\n## What to read\n### %s\n### The chain' % piece)
        files = {os.path.relpath(path, readme_words.ROOT) for path in files if not path.endswith('/Lib.antt')} - seen
        seen |= files
        found.append((piece.split('\n')[0], sorted(files)))
    return found


def counted(text):
    """The rows of the table of counts."""
    rows, all_files, all_lines = [], 0, 0
    for name, files in tables(text):
        lines = sum(map(lines_of, files))
        rows.append('| %s | %d | %s |' % (name, len(files), format(lines, ',')))
        all_files, all_lines = all_files + len(files), all_lines + lines
    return rows + ['| all | %d | %s |' % (all_files, format(all_lines, ','))]


def imported(path):
    """The files of specs/ that a file imports, structs of code aside."""
    with open(os.path.join(readme_words.ROOT, path), encoding='utf-8') as file:
        for crate, kind, rest in re.findall(r'^(?:pub )?use Rattle\.(\w+)\.(specs|proofs)\.([\w.]+?)(?:\.\{|$| as )', file.read(), flags=re.M):
            if crate in OWN and not rest.startswith('declared'):
                yield 'crates/%s/%s/%s.antt' % (crate, kind, rest.replace('.', '/'))


def for_contracts(path):
    with open(os.path.join(readme_words.ROOT, path), encoding='utf-8') as file:
        return 'For contracts below the calls' in file.readline()


def wrong_with(text):
    listed = {path for _, files in tables(text) for path in files}
    wrong = ['%s is to be read and not there' % word for word in map_page.to_read(text)[1]]
    for path in sorted(listed):
        for other in imported(path):
            if '/proofs/' in other:
                wrong.append('%s is to be read and cites %s' % (path, other))
            elif other not in listed and not for_contracts(other):
                wrong.append('%s cites %s, which is not on the list' % (path, other))
    for row in counted(text):
        if row not in text:
            wrong.append('%s does not say %s' % (map_page.MAP, row))
    return wrong


def planted(text):
    faults = [('`Machine`, `Runs` |', '`Runs` |'), ('`crates/machine/specs/Plan`', '`crates/machine/specs/Plans`'), ('| all | ', '| all | 1')]
    return ['planted fault was not told: %s' % new for old, new in faults if old not in text or not set(wrong_with(text.replace(old, new))) - set(wrong_with(text))]


def main():
    text = readme_words.page(map_page.MAP)
    if sys.argv[1:] == ['--write']:
        before, after = text.split(HEAD)
        text = before + HEAD + '\n'.join(counted(text)) + END + after.split(END, 1)[1]
        with open(os.path.join(readme_words.ROOT, map_page.MAP), 'w', encoding='utf-8') as file:
            file.write(text)
    wrong = wrong_with(text) + planted(text)
    print(*wrong or [counted(text)[-1]], sep='\n')
    return int(bool(wrong))


if __name__ == '__main__':
    sys.exit(main())
