"""Fills docs/CALLS.md with what the header says of each call, and with the call's names in Rust, Python and Rattle.

    python3 tools/calls_page.py          # writes the page
    python3 tools/calls_page.py check    # compares it; status 1 where it differs, or where a planted fault is not told

Only what stands between `<!-- NAME -->` and `<!-- end -->` is written: the call's parameters, comment and struct in bindings/c/rolwyddac.h, its
numbers in the order in which they are tested, and the functions of bindings/rust and bindings/python that call it. Each call stands once.
Between `<!-- FILE.c -->` and `<!-- end -->` stands the program of bindings/c, whole.
"""

import ast
import glob
import os
import re
import sys
import textwrap

import header

ROOT = header.ROOT
PAGE = 'docs/CALLS.md'
HEADER = header.HEADER
RUST = 'bindings/rust/src'
PYTHON = 'bindings/python/rolwyddac'
COLUMNS = 100
PREFIX = 'rolwyddac_'

# the number of an office, a processor or a message that is too high
NO_SUCH, AREA, UNFIT, HOURS = 11, 9, 10, 25

# the call below each exported one: what a program in Rattle calls
RATTLE = {
    'fresh': 'engine::fresh', 'turn': 'engine::turn', 'deliver': 'engine::deliver', 'collect': 'engine::collect', 'sweep': 'engine::sweep',
    'summary': 'summary::summary', 'message': 'summary::message', 'hops': 'summary::hops',
    'rounds': 'schedule::run', 'rounds_of': 'schedule::rounds_of',
    'messages': 'transport::messages', 'owners': 'transport::owners', 'awaited': 'transport::awaited', 'take_in': 'transport::take_in',
    'fingerprint': 'packets::fingerprint', 'packet': 'wire::packet', 'packet_read': 'wire::packet_read', 'chunk': 'packets::chunks::take_chunk',
    'send': 'wire::send', 'receive': 'calls::mail::rolwyddac_receive',
    'part_sizes': 'part_calls::sizes', 'part_messages': 'part_calls::messages', 'part_fresh': 'part_calls::fresh',
    'part_turn': 'calls::part::rolwyddac_part_turn', 'part_post': 'part_calls::post', 'part_arrive': 'part_calls::arrive',
    'part_collect': 'part_calls::collect',
    'soundings': 'soundings::fill', 'chart': 'chart::write', 'chart_length': 'chart::length_of', 'read': 'writer::reading::read', 'write': 'writer::write',
    'fresh_both': 'sharing::fresh', 'tenant_turn': 'sharing::turn', 'tenant_deliver': 'sharing::deliver', 'tenant_collect': 'sharing::collect',
    'view': 'sharing::view::view', 'turn_at': 'calendar_calls::turn', 'tenant_turn_at': 'calendar_calls::turn_for', 'opens': 'calendar_calls::opens',
}


def source(name):
    with open(os.path.join(ROOT, name), encoding='utf-8') as file:
        return file.read()


# The header: comments and prototypes

def declared(text):
    """Name to comment, parameters and what is returned of each call, in the header's order."""
    structs, found = header.c_structs(text), {}
    for comment, result, name, inside in re.findall(r'/\* ((?:(?!\*/).)*?) \*/\n(\w+) (\w+)\((.*?)\);', text, flags=re.S):
        words = ' '.join(re.sub(r'^ \* ?', '', line) for line in comment.split('\n'))
        fields = [field for field, _ in structs.get(result, [])]
        found[name[len(PREFIX):]] = ' '.join(words.split()), [' '.join(each.split()) for each in inside.split(',')], (result, fields)
    return found


def order_of(text):
    """The numbers in the order of the header's table."""
    return [int(number) for number in re.findall(r'^ \* {2,4}(\d+) [a-z]', text, flags=re.M)]


def spread(told):
    """The numbers of a header's line: `1 to 8, 16`."""
    found = set()
    for first, last in re.findall(r'(?<![\w,])(\d+)(?: to (\d+))?(?! words?\b)', re.sub(r' if [^;.]*', '', told)):
        found.update(range(int(first), int(last or first) + 1))
    return found


def tested(name, numbers, parameters, order):
    """The numbers behind the reader's, in the order of their tests: the table's but for 11, which an office's number has before 10, and that of a
    processor with its own part before 9."""
    behind = [number for number in order[order.index(8) + 1:] if number in numbers]
    names = [each.split()[-1].lstrip('*') for each in parameters]
    early = AREA if name.startswith('part_') and AREA in numbers else UNFIT if 'office' in names and UNFIT in numbers else None
    if early is None or NO_SUCH not in numbers:
        return behind
    again = 'message' in names or early == UNFIT and 'processor' in names
    if not again:
        behind.remove(NO_SUCH)
    behind.insert(behind.index(early), NO_SUCH)
    return behind


def reader(numbers, order):
    """How the reader's numbers are told; not at all by a call that reads no recipe."""
    whole = order[:order.index(8) + 1]
    if not numbers.intersection(whole):
        return None
    left_out = [str(number) for number in whole if number not in numbers]
    return "the reader's" + (' but ' + ' and '.join(left_out) if left_out else '')


# The other languages' names

def rust_names(name):
    """What Rust has for an exported call: the function, the handier form, the methods."""
    texts = {path: source(os.path.relpath(path, ROOT)) for path in sorted(glob.glob(os.path.join(ROOT, RUST, '*.rs')))}
    whole = ''.join(texts.values())
    docs, function = re.search(r'((?: +///[^\n]*\n)+) +%s%s as (\w+)\(' % (PREFIX, name), whole).groups()
    handier = re.findall(r'\[`(\w+)`\]\s+is\s+the\s+handier\s+form', re.sub(r'\s*///\s*', ' ', docs))
    methods = []
    for text in texts.values():
        for kind, inside in re.findall(r'^impl(?:<[^>]*>)? (\w+)(?:<[^>]*>)? \{\n(.*?)^\}', text, flags=re.M | re.S):
            for method, body in re.findall(r'^    pub fn (\w+)(?:<[^>]*>)?\((.*?)^    \}', inside, flags=re.M | re.S):
                if re.search(r'(?<![\w.:])%s\(' % function, body):
                    methods.append('%s::%s' % (kind, method))
    return [function] + [each for each in handier if each not in ('Rig', 'PartBoard', 'Fields')] + methods


def called(node, names):
    """Does a function's body hand an exported call's name to what makes the call?"""
    found = set()
    for each in ast.walk(node):
        if isinstance(each, ast.Subscript) and ast.unparse(each.value).endswith('EXPORTED'):
            found.update(word.value for word in ast.walk(each.slice) if isinstance(word, ast.Constant))
        elif isinstance(each, ast.Call) and ast.unparse(each.func).startswith('self._') and each.args:
            found.update(word.value for word in each.args if isinstance(word, ast.Constant))
    return found & names


def python_names(names):
    """What Python has for each exported call: functions of the package, constructors and methods."""
    found = {name: [] for name in names}
    for path in sorted(glob.glob(os.path.join(ROOT, PYTHON, '*.py'))):
        for node in ast.parse(source(os.path.relpath(path, ROOT))).body:
            inside = node.body if isinstance(node, ast.ClassDef) else [node]
            for function in inside:
                if not isinstance(function, ast.FunctionDef) or function.name.startswith('_') and function.name != '__init__':
                    continue
                shown = function.name if function is node else node.name if function.name == '__init__' else '%s.%s' % (node.name, function.name)
                for name in called(function, names):
                    found[name].append(shown)
    offered = set(re.findall(r"'(\w+)'", source(PYTHON + '/__init__.py').split('__all__')[1]))
    kept = {name: [each for each in shown if each.split('.')[0] in offered] for name, shown in found.items()}
    # a function that has the call made by a helper of its own
    return {name: shown or [name] * (name in offered) for name, shown in kept.items()}


def rattle_name(name):
    """The call in Rattle, which must be there."""
    crate, *between, function = RATTLE[name].split('::')
    sources = ''.join(source(os.path.relpath(path, ROOT)) for path in glob.glob(os.path.join(ROOT, 'crates', crate, 'src', '**', '*.rt'), recursive=True))
    if not re.search(r'\bpub (?:extern "C" )?fn %s\b' % function, sources):
        raise SystemExit('there is no %s' % RATTLE[name])
    return RATTLE[name]


# The page

def quoted(names):
    return ', '.join('`%s`' % name for name in names)


def filled_lines(text):
    return textwrap.fill(text, COLUMNS, break_long_words=False, break_on_hyphens=False, subsequent_indent='  ' if text.startswith('- ') else '')


def parts_of(parameters):
    """Names of what is given, what is lent to be read and to be written; a length goes with its area."""
    names = [(each, re.split(r'[ *]+', each)[-1]) for each in parameters]
    areas = {name for each, name in names if '*' in each}
    plain = [name for each, name in names if '*' not in each and not (name.endswith('_length') and name[:-len('_length')] in areas)]
    return [name for each, name in names if name in areas or name in plain], [name for each, name in names if '*' in each and 'const' not in each]


def returned(result, fields):
    """What a call returns, told of those that return more than their number."""
    return ['- Returns: `%s`, with %s.' % (result, quoted(fields))] if fields else []


def entry(name, comment, parameters, answer, order, python):
    """What the page has of a call."""
    told = re.fullmatch(r'(.*?) ?Numbers: (.*?)\.(?: (A refusal leaves .*?))?', comment)
    given, written = parts_of(parameters)
    if not told or bool(told[3]) != bool(written):
        raise SystemExit('%s%s: its comment has no line of numbers, or not what a refusal leaves' % (PREFIX, name))
    does, numbers, leaves = told.groups()
    behind = tested(name, spread(numbers), parameters, order)
    conditions = re.findall(r'\d+,? (?:also )?if [^;.]+', numbers)
    lines = ['### ' + PREFIX + name, '', '| C | Rust | Python | Rattle |', '|---|---|---|---|',
             '| `%s%s` | %s | %s | `%s` |' % (PREFIX, name, quoted(rust_names(name)), quoted(["calls.EXPORTED['%s']" % name] + python), rattle_name(name)),
             '', filled_lines(does), '',
             filled_lines('- Parameters: %s.%s' % (quoted(given), ' Written: %s.' % quoted(written) if written else '')),
             *map(filled_lines, returned(*answer)),
             filled_lines('- Numbers, in this order: %s.%s' % (', '.join(filter(None, [reader(spread(numbers), order), *map(str, behind)])) or 'none',
                                                               ''.join(' Number %s.' % each.replace(', also', ' also') for each in conditions))),
             *[filled_lines('- ' + each) for each in (leaves,) if each]]
    return '\n'.join(lines)


def index(page):
    """A table of the sections, each with its calls."""
    rows = []
    for title, body in re.findall(r'^## ([^\n]*)\n(.*?)(?=^## |\Z)', page, flags=re.M | re.S):
        names = re.findall(r'^<!-- (%s\w+) -->$' % PREFIX, body, flags=re.M)
        if names:
            rows.append('| %s | %s |' % (title, ', '.join('[`%s`](#%s)' % (name[len(PREFIX):], name) for name in names)))
    return '<!-- index -->\n\n| section | calls, without their `%s` |\n|---|---|\n%s\n\n<!-- end -->' % (PREFIX, '\n'.join(rows))


def program(found):
    """A program of bindings/c, which fits the page."""
    text = source('bindings/c/' + found[1])
    if max(map(len, text.split('\n'))) > COLUMNS:
        raise SystemExit('%s has lines of more than %d columns' % (found[1], COLUMNS))
    return '<!-- %s -->\n\n```c %s\n%s```\n\n<!-- end -->' % (found[1], found[1], text)


def filled(page, text):
    """The page with its parts made anew from the header."""
    calls, order = declared(text), order_of(text)
    python = python_names(set(calls))
    names = re.findall(r'^<!-- %s(\w+) -->$' % PREFIX, page, flags=re.M)
    if sorted(names) != sorted(calls):
        raise SystemExit('%s has not each call once: %s' % (PAGE, ', '.join(sorted(set(names) ^ set(calls)))))

    def part(found):
        name = found[1]
        return '<!-- %s%s -->\n\n%s\n\n<!-- end -->' % (PREFIX, name, entry(name, *calls[name], order, python[name]))

    made = re.sub(r'<!-- %s(\w+) -->\n.*?<!-- end -->' % PREFIX, part, page, flags=re.S)
    made = re.sub(r'<!-- (\w+\.c) -->\n.*?<!-- end -->', program, made, flags=re.S)
    return re.sub(r'<!-- index -->\n.*?<!-- end -->', lambda _: index(page), made, flags=re.S)


def terms_differ(text):
    """The table of numbers stands in docs/RECIPE.md; the header's, of which the library's texts are made, has the same numbers and terms in its order."""
    ours = re.findall(r'^ \* {2,4}(\d+) (\w[\w ]*?)  +\w', text, flags=re.M)
    theirs = re.findall(r'^\| (\d+) \| ([^|]+) \| [^|]+ \| `[^`]+` \|$', source('docs/RECIPE.md'), flags=re.M)
    return ours != theirs


def planted(page, text):
    """Changes of the header that must be told."""
    for old, new in (('Makes a fresh start:', 'Makes a start:'), ('9 if out has not six words', '9 if out has not five words'),
                     ('  uint32_t minutes;', '  uint32_t hours;'), ('rolwyddac_opening rolwyddac_opens(', 'rolwyddac_viewed rolwyddac_opens('),
                     ('rolwyddac_hop_count rolwyddac_hops(', 'rolwyddac_hop_count rolwyddac_jumps('), ('1 to 13, 16 to 18, 20, 21. A refusal leaves memory,', '1 to 12, 16 to 18. A refusal leaves memory,')):
        if old not in text:
            raise SystemExit('the header has no %r to change' % old)
        try:
            if filled(page, text.replace(old, new)) == page:
                return 'a changed header is not told: %s' % new
        except SystemExit:
            pass
    return '' if terms_differ(text.replace(' 6 tile  ', ' 6 tale  ')) else 'a changed term is not told'


def main(words):
    page, text = source(PAGE), source(HEADER)
    made = filled(page, text)
    if words == ['check']:
        wrong = '%s is not what the sources give: python3 tools/calls_page.py writes it' % PAGE if made != page else planted(page, text)
        wrong = wrong or 'the numbers of docs/RECIPE.md are not those of %s' % HEADER * terms_differ(text)
        print(wrong or '%d calls' % len(declared(text)))
        return int(bool(wrong))
    with open(os.path.join(ROOT, PAGE), 'w', encoding='utf-8') as file:
        file.write(made)
    return 0


if __name__ == '__main__':
    sys.exit(main(sys.argv[1:]))
