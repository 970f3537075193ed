"""Puts a modeller's own recipe into crates/worked: its bytes and what the independent model expects of it.

    ./rolwyddac recipe mine.toml -o mine.recipe
    python3 tools/worked.py mine.recipe [FIRST]     writes specs/Harbour.antt, proofs/Computed.antt and src/lib.rt
    rt check, in crates/worked                      has the checker compute every figure from the definitions
    python3 tools/worked.py check                   are the stored figures those of the model? status 1 where not

The source is FIRST, FIRST + 1, .., 100 where none is given. `git checkout crates/worked` brings the harbour back. docs/MODELLERS.md walks
through it.
"""

import os
import re
import sys

import model

ROOT = os.path.join(os.path.dirname(os.path.abspath(__file__)), '..')
SPECS = 'crates/worked/specs/Harbour.antt'
PROOFS = 'crates/worked/proofs/Computed.antt'
SOURCE = 'crates/worked/src/lib.rt'

# places of a nest's arrays
PLACES = {'lengths': 4, 'tiling': 4, 'counts': 4, 'components': 32, 'weights': 8}


COUNTED = ['', 'one distance'] + [word + ' distances' for word in 'two three four five six seven eight'.split()]


class Wrong(Exception):
    pass


def listed(numbers):
    return ' ∷ '.join([str(number) for number in numbers] + ['[]'])


def filled(numbers, places):
    """An array of that many places, the zeros at its end as one word where they are five or more."""
    numbers = list(numbers) + [0] * (places - len(numbers))
    end = max([at + 1 for at, number in enumerate(numbers) if number], default=0)
    if places - end < 5:
        return listed(numbers)
    return ' ∷ '.join([str(number) for number in numbers[:end]] + ['replicate %d 0' % (places - end)])


def lines_of(plan):
    """The plan's message lines, a list of lists."""
    return ' ∷ '.join(['(%s)' % listed([m, message.sender, message.taker, plan.board_of[message.sender],
                                         plan.board_of[message.taker], len(message.cells)])
                       for m, message in enumerate(plan.messages)] + ['[]'])


def put(text, pattern, new, times=1):
    """The text with what the pattern's last group holds replaced, as often as it must stand there."""
    found = list(re.finditer(pattern, text, flags=re.M))
    if len(found) != times:
        raise Wrong('%s stands %d times, not %d' % (pattern, len(found), times))
    for match in reversed(found):
        text = text[:match.start(match.lastindex)] + new + text[match.end(match.lastindex):]
    return text


def with_recipe(specs, proofs, source, encoded, first):
    """The three files with another recipe in them."""
    number, plan = model.plan_of(encoded)
    if number != 0:
        raise Wrong('the recipe is refused: %d' % number)
    if getattr(plan.nest, 'bounds', None):
        raise Wrong('a recipe with bounds: its plan is not computed here')
    if not plan.messages:
        raise Wrong('a recipe without messages: there is no message to look at')
    nest = plan.nest
    told = min(1, len(plan.messages) - 1)
    figures = '%d %d %d %d' % (plan.tiles, len(plan.messages), plan.words, plan.steps)
    grid = listed(plan.swept([first + c for c in range(plan.cells)]))

    specs = put(specs, r'own\. (.*)$', 'N %s, k %s, P %s, %s.' % (
        *(','.join(map(str, field)) for field in (nest.lengths, nest.tiling, nest.counts)), COUNTED[len(nest.weights)]))
    specs = put(specs, r'^harbour =\n    (.*)$', listed(encoded))
    specs = put(specs, r'^-- the source: (.*)$', '%d, %d, ..' % (first, first + 1))
    specs = put(specs, r'^depths = tabulate \(λ c\. (.*)$', '%d + c) %d' % (first, plan.cells))
    both = []
    for text in (specs, proofs):
        text = put(text, r'≡ accepted (.*)$', figures)
        text = put(text, r'(?:lines_of Direct harbour|\)\)) ≡ (\(.*)$', lines_of(plan))
        text = put(text, r'held_by \(.*\) (\d+ ≡ .*)$', '%d ≡ %s' % (told, listed(plan.messages[told].cells)))
        text = put(text, r'depths\n +≡ (.*)$', grid)
        both.append(text)
    specs, proofs = both

    for name, value in (('dimensions', nest.n), ('spread', len([p for p in nest.counts if p])),
                        ('distances', len(nest.weights)), ('shift', nest.shift), ('boundary', nest.boundary)):
        proofs = put(proofs, r'^ +%s = (.*);$' % name, str(value))
    for name, places in PLACES.items():
        numbers = getattr(nest, name)
        if name == 'components':
            numbers = [x for d in numbers for x in d]
        proofs = put(proofs, r'^ +%s = (.*);$' % name, filled(numbers, places))
    if re.search(r'held_by p (\d+)', proofs):
        proofs = put(proofs, r'held_by p (\d+)', str(told))
    source = put(source, r'result ≡ (\d+) }', str(plan.cells))
    source = put(source, r'^    (\d+)$', str(plan.cells))
    return specs, proofs, source


def read(name):
    return open(os.path.join(ROOT, name), encoding='utf-8').read()


def stored():
    """The three files, the recipe in them and the source's first word."""
    specs, proofs, source = read(SPECS), read(PROOFS), read(SOURCE)
    encoded = bytes(int(word) for word in re.search(r'^harbour =\n    (.*) ∷ \[\]$', specs, flags=re.M)[1].split(' ∷ '))
    first = int(re.search(r'^depths = tabulate \(λ c\. (\d+)', specs, flags=re.M)[1])
    return specs, proofs, source, encoded, first


def check():
    """Are the stored files what the model makes of their recipe? And is a changed figure told?"""
    specs, proofs, source, encoded, first = stored()
    found = ['%s is not as the model has it' % name for name, old, new in zip(
        (SPECS, PROOFS, SOURCE), (specs, proofs, source), with_recipe(specs, proofs, source, encoded, first)) if old != new]
    if not found:
        changed = specs.replace(' ∷ 1404 ∷ ', ' ∷ 1405 ∷ ')
        if with_recipe(changed, proofs, source, encoded, first)[0] == changed:
            found = ['a changed figure is not told']
    return found


def main(words):
    try:
        if words == ['check']:
            found = check()
            print('\n'.join(found) if found else 'the worked recipe, %d bytes: its figures are the model\'s' % len(stored()[3]))
            return 1 if found else 0
        if len(words) not in (1, 2) or words[0].startswith('-') or not words[-1:] or (len(words) == 2 and not words[1].isdigit()):
            print(__doc__, file=sys.stderr)
            return 2
        encoded = open(words[0], 'rb').read()
        specs, proofs, source, _, _ = stored()
        first = int(words[1]) if len(words) == 2 else 100
        made = with_recipe(specs, proofs, source, encoded, first)
    except (Wrong, OSError) as wrong:
        print('worked: %s' % wrong, file=sys.stderr)
        return 1
    for name, text in zip((SPECS, PROOFS, SOURCE), made):
        with open(os.path.join(ROOT, name), 'w', encoding='utf-8') as file:
            file.write(text)
    print('written; next: rt check, in crates/worked')
    return 0


if __name__ == '__main__':
    sys.exit(main(sys.argv[1:]))
