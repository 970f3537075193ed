"""The table of numbers stands once, in docs/RECIPE.md. This puts its terms and meanings wherever else they are written, and holds them to it. Run as

    python3 tools/number_table.py          # writes them into the C header and the Rust crate
    python3 tools/number_table.py check    # compares; status 1 where one differs, or a planted fault is not told

A meaning ends at its first semicolon: what follows is a remark, for readers of the page alone. Where the texts are:

    bindings/c/rolwyddac.h           the table in the comment on top; library and Python have their texts from it, docs/CALLS.md its numbers
    bindings/rust/src/refusal.rs     the list of refusals
    crates/program_io/src/lib.rt     the lines of the reader, which the two programs tell; tools/programs.py runs them

Order, numbers and terms are compared besides. That a number has a name of its own in each language is tools/header.py's.
"""

import os
import re
import sys

ROOT = os.path.join(os.path.dirname(os.path.abspath(__file__)), '..')
PAGE, HEADER, CRATE, PROGRAMS = 'docs/RECIPE.md', 'bindings/c/rolwyddac.h', 'bindings/rust/src/refusal.rs', 'crates/program_io/src/lib.rt'
ALL = (PAGE, HEADER, CRATE, PROGRAMS)

# the header's line of a number, a refusal of the crate, a line of the programs
IN_HEADER = re.compile(r'^ \* +(\d+) (\S.*?)  +(\S.*)$', flags=re.M)
IN_CRATE = re.compile(r'^    (\d+) \w+ "([^"]*)":\s+"([^"]*)";$', flags=re.M)
IN_PROGRAMS = re.compile(r'"(\d+), ([^:"]+): ([^"]*)\\n"')

# the programs' limit of 512 bytes is a part of their line 1
RAGGED = 'the recipe is empty, longer than 512 bytes or no multiple of 16 bytes'

# columns of the crate's lines
MOST = 120


def read(name):
    with open(os.path.join(ROOT, name), encoding='utf-8') as file:
        return file.read()


def table(page):
    """Number, term and meaning of each row, in the order of the page."""
    rows = re.findall(r'^\| (\d+) \| ([^|]+) \| ([^|]+) \| `[^`]+` \|$', page, flags=re.M)
    return [(int(number), term, meaning.partition(';')[0]) for number, term, meaning in rows]


def found(pattern, text):
    return [(int(number), term, meaning) for number, term, meaning in pattern.findall(text)]


def unlike(name, got, wanted):
    """What differs, a line each."""
    told = ['%s: %d, %s: "%s", and %s has "%s, %s"' % (name, number, term, meaning, PAGE, *wanted[number])
            for number, term, meaning in got if number in wanted and (term, meaning) != wanted[number]]
    strays = [number for number, _, _ in got if number not in wanted]
    return told + ['%s: %s has no number %d' % (name, PAGE, number) for number in strays]


def differences(texts):
    """What is wrong, over the texts of all files by their names."""
    rows = table(texts[PAGE])
    wanted, order = {number: (term, meaning) for number, term, meaning in rows}, [number for number, _, _ in rows]
    wrong = [] if sorted(order) == list(range(1, len(order) + 1)) and order else ['%s: its numbers are %s' % (PAGE, order)]
    for name, pattern in ((HEADER, IN_HEADER), (CRATE, IN_CRATE)):
        got = found(pattern, texts[name])
        wrong += unlike(name, got, wanted)
        if [number for number, _, _ in got] != order:
            wrong.append('%s: its numbers stand as %s, those of %s as %s' % (name, [number for number, _, _ in got], PAGE, order))
    told = found(IN_PROGRAMS, texts[PROGRAMS])
    wrong += unlike(PROGRAMS, told, {**wanted, 1: (wanted.get(1, ('',))[0], RAGGED)})
    if not told:
        wrong.append('%s: no lines of numbers' % PROGRAMS)
    return wrong


def planted(texts):
    """One wording changed in each file must be told, and so must a line that is missing and two that changed places."""
    header_lines = [each[0] for each in re.finditer(r'^ \* +\d+ \S.*?  +\S.*\n', texts[HEADER], flags=re.M)]
    faults = [(PAGE, '| the last dimension is spread |', '| the last dimension is not spread |'), (HEADER, 'last dimension is spread', 'last one is spread'),
              (CRATE, '"more than 64 processors"', '"more than 65 processors"'), (PROGRAMS, 'more than 16,384 cells', 'above 16,384 cells'),
              (CRATE, '"no mail":', '"no post":'), (HEADER, header_lines[3], ''), (HEADER, header_lines[3] + header_lines[4], header_lines[4] + header_lines[3])]
    untold = []
    for name, old, new in faults:
        if old not in texts[name]:
            untold.append('nothing to plant in %s: %s' % (name, old))
        elif len(differences({**texts, name: texts[name].replace(old, new, 1)})) <= len(differences(texts)):
            untold.append('a planted fault in %s was not told: %s' % (name, new))
    return untold


def in_crate(row, term, meaning):
    """A line of the crate with its term and meaning, broken where it is too long; one that has them already as it stands."""
    if (row[2], row[3]) == (term, meaning):
        return row[0]
    begin = '%s "%s":' % (re.match(r'    \d+ \w+', row[0])[0], term)
    whole = '%s "%s";' % (begin, meaning)
    return whole if len(whole) <= MOST else '%s\n        "%s";' % (begin, meaning)


def written(texts):
    """Header and crate with the page's terms and meanings; numbers and their order stay."""
    wanted = {number: (term, meaning) for number, term, meaning in table(texts[PAGE])}
    header = IN_HEADER.sub(lambda row: ' *%5d %-14s %s' % (int(row[1]), *wanted[int(row[1])]), texts[HEADER])
    crate = IN_CRATE.sub(lambda row: in_crate(row, *wanted[int(row[1])]), texts[CRATE])
    return {HEADER: header, CRATE: crate}


def write(texts):
    for name, text in written(texts).items():
        if text != texts[name]:
            with open(os.path.join(ROOT, name), 'w', encoding='utf-8') as file:
                file.write(text)
            print(name)
    return 0


def main(words):
    texts = {name: read(name) for name in ALL}
    if not words:
        return write(texts)
    if words != ['check']:
        sys.exit(__doc__)
    wrong = differences(texts) + planted(texts)
    print(*wrong or ['%d numbers, the same in %s' % (len(table(texts[PAGE])), ', '.join(ALL))], sep='\n')
    return int(bool(wrong))


if __name__ == '__main__':
    sys.exit(main(sys.argv[1:]))
