"""Holds bindings/c/rolwyddac.h and the crate in bindings/rust to the functions that crates/calls_c exports.

    python3 tools/header.py [ARCHIVE [SHARED]]

Every function marked `#[unsafe(no_mangle)] pub extern "C"` is declared in both, and listed in the Python package, with the same parameters in the same order and
the same result, and nothing else is declared. The progress record and each struct that a function returns have the same fields in the same order, of the same
types; the routes are the same words. Header and crate have the same numbers, with the same terms and reasons, and name the same ones at each call. With an
ARCHIVE its symbols are held to the functions as well, and those of the SHARED object to these and to what the headers beside rolwyddac.h declare.
Then planted faults are tried, each of which must be told. Status 1 where anything is wrong.
"""

import glob
import os
import re
import subprocess
import sys

ROOT = os.path.join(os.path.dirname(os.path.abspath(__file__)), '..')
HEADER = 'bindings/c/rolwyddac.h'
CRATE = 'bindings/rust/src'
REFUSALS = 'bindings/rust/src/refusal.rs'
BESIDE = ['bindings/c/rolwyddac_library.h', 'bindings/c/rolwyddac_run.h']
PACKAGE = 'bindings/python/rolwyddac/calls.py'

# what the crate's route is in the exported functions
ROUTE = 'u32'

# what may be negative, in rolwyddac_write and rolwyddac_fields: the library has its bits in a number without a sign, the others declare it signed
SIGNED = {'slopes': ('u8', 'i8'), 'offsets': ('u16', 'i16')}

# fields that the crate has under longer names
SAID_IN_RUST = {
    'rolwyddac_message_line': {'sender': 'sending_tile', 'taker': 'taking_tile', 'from': 'sending_processor', 'to': 'taking_processor'},
    'rolwyddac_part_lengths': {'cells': 'source', 'kept': 'memory', 'words': 'mail'}}

C_TYPES = {'u8': 'uint8_t', 'u16': 'uint16_t', 'u32': 'uint32_t', 'u64': 'uint64_t', 'usize': 'size_t',
           'i8': 'int8_t', 'i16': 'int16_t', 'i32': 'int32_t', 'i64': 'int64_t', 'Progress': 'rolwyddac_progress'}


class Wrong(Exception):
    pass


# Reading: words and signs, then parameters

def tokens(text):
    """Words, numbers, strings and signs; comments and lines for the preprocessor are left out."""
    text = re.sub(r'/\*.*?\*/|//[^\n]*', ' ', text, flags=re.S)
    text = re.sub(r'^\s*#\s*(ifndef|define|include|ifdef|endif)\b[^\n]*', ' ', text, flags=re.M)
    return re.findall(r'\w+|"[^"]*"|->|[^\s\w]', text)


def places(words, wanted):
    """Where a sequence of words stands."""
    return [at for at in range(len(words)) if words[at:at + len(wanted)] == wanted]


def enclosed(words, at, shut):
    """The words between the sign at a place and the one that shuts it."""
    depth = 0
    for end in range(at, len(words)):
        depth += (words[end] == words[at]) - (words[end] == shut)
        if depth == 0:
            return words[at + 1:end]
    raise Wrong('%s is never shut' % words[at])


def parted(words, sign):
    """Lists of words between the signs; a sign at the end ends nothing."""
    parts = [[]]
    for word in words:
        if word == sign:
            parts.append([])
        else:
            parts[-1].append(word)
    return parts if parts[-1] else parts[:-1]


def rust_parameter(words):
    """Name, element type, and how it is lent: 'read', 'write', or 'value' for a number."""
    name, colon, *kind = words
    if colon == ':' and len(kind) == 1:
        return name, kind[0], 'value'
    if colon == ':' and kind[:2] == ['&', '['] and kind[3:] == [']']:
        return name, kind[2], 'read'
    if colon == ':' and kind[:3] == ['&', 'mut', '['] and kind[4:] == [']']:
        return name, kind[3], 'write'
    raise Wrong('a parameter that C has no form for: %s' % ' '.join(words))


def rust_parameters(words):
    return [rust_parameter(part) for part in parted(words, ',')]


def signed(name, kind):
    """A type as the others declare it."""
    bits, declared_as = SIGNED.get(name, (kind, kind))
    if kind != bits:
        raise Wrong('%s is %s, not %s' % (name, kind, bits))
    return declared_as


def exported(sources):
    """The functions that the library exports: name to parameters and result."""
    words = tokens(sources)
    mark = ['#', '[', 'unsafe', '(', 'no_mangle', ')', ']', 'pub', 'extern', '"C"', 'fn']
    found = {}
    for at in places(words, mark):
        name, start = words[at + len(mark)], at + len(mark) + 1
        inside = enclosed(words, start, ')')
        arrow, result = words[start + len(inside) + 2:start + len(inside) + 4]
        if arrow != '->':
            raise Wrong('%s gives nothing' % name)
        found[name] = [(each, signed(each, kind), lent) for each, kind, lent in rust_parameters(inside)], result
    if not found or len(found) != words.count('no_mangle') or len(found) != words.count('extern'):
        raise Wrong('a function is marked in part: %d of %d' % (len(found), words.count('extern')))
    return found


def c_parameter(words):
    """Type and name of a parameter in C."""
    *kind, name = words
    return ' '.join(kind), name


def declared(header):
    """The functions that the header declares: name to C parameters and result."""
    words = tokens(header)
    found = {}
    for at in places(words, ['(']):
        inside = enclosed(words, at, ')')
        result, name = words[at - 2:at]
        if words[at + len(inside) + 2] != ';' or name in found:
            raise Wrong('no declaration, or the second: %s' % name)
        found[name] = [c_parameter(part) for part in parted(inside, ',')], result
    return found


def called(crate):
    """The functions that the Rust crate declares: name to parameters, and the type that is told behind the number, None where there is none."""
    words = tokens(crate)
    starts = places(words, ['calls', '!', '{'])
    if len(starts) != 1:
        raise Wrong('%s has not one list of calls' % CRATE)
    found = {}
    for entry in parted(enclosed(words, starts[0] + 2, '}'), ';'):
        if entry[1] != 'as' or entry[3] != '(' or entry[0] in found:
            raise Wrong('no call, or the second: %s' % ' '.join(entry[:4]))
        inside = enclosed(entry, 3, ')')
        behind = entry[len(inside) + 5:]
        if behind and (len(behind) != 2 or behind[0] != '->'):
            raise Wrong('no result: %s' % ' '.join(behind))
        found[entry[0]] = rust_parameters([ROUTE if word == 'Route' else word for word in inside]), behind[1] if behind else None
    return found


def listed(package):
    """The functions that the Python package lists: name to parameters, and the structure that is told."""
    found = {}
    for name, inside, told in re.findall(r'^(rolwyddac_\w+)\((.*?)\)(?: -> (\w+))?$', package, flags=re.M | re.S):
        if name in found:
            raise Wrong('%s lists %s twice' % (PACKAGE, name))
        found[name] = rust_parameters(tokens(inside)), told or None
    return found


# Structs: the progress record, and what functions return

def field_type(words, constants):
    """A type in Rattle or Rust: a number's, or a table's `[u16; 4]` as a pair."""
    if len(words) == 1:
        return words[0]
    if [words[0], words[2], words[4:]] == ['[', ';', [']']]:
        return words[1], int(constants.get(words[3], words[3]))
    raise Wrong('a field that C has no form for: %s' % ' '.join(words))


def rust_structs(text):
    """Name to fields of each struct that is laid out as in C."""
    words = tokens(text)
    constants = dict(re.findall(r'\bconst (\w+): usize = (\d+);', text))
    found = {}
    for at in places(words, ['pub', 'struct']):
        name, before = words[at + 2], ' '.join(words[max(at - 60, 0):at])
        if words[at + 3] != '{' or not re.search(r'# \[ repr \( C \) \](?: # \[ \w+ \( [^)]* \) \])*$', before):
            continue
        if name in found:
            raise Wrong('the second struct %s' % name)
        fields = [(field[field.index(':') - 1], field[field.index(':') + 1:]) for field in parted(enclosed(words, at + 3, '}'), ',')]
        found[name] = [(field, field_type(kind, constants)) for field, kind in fields]
    return found


def c_structs(header):
    """Name to fields of each struct of the header; a list of names behind one type is as many fields."""
    words = tokens(header)
    found = {}
    for at in places(words, ['typedef', 'struct', '{']):
        inside = enclosed(words, at + 2, '}')
        fields = []
        for kind, *names in parted(inside, ';'):
            for part in parted(names, ','):
                fields.append((part[0], kind if len(part) == 1 else (kind, int(part[2]))))
        found[words[at + len(inside) + 4]] = fields
    return found


def python_structs(package):
    """Name to fields of each structure that the package lists."""
    found = {}
    for name, inside in re.findall(r'^(\w+) \{ (.*?) \}$', package, flags=re.M | re.S):
        fields = [field.split(': ') for field in re.split(r',\s+', inside)]
        found[name] = [(field, field_type(tokens(kind), {})) for field, kind in fields]
    return found


def of_c(kind):
    """A field's type in C."""
    return (C_TYPES[kind[0]], kind[1]) if isinstance(kind, tuple) else C_TYPES[kind]


def as_declared(fields):
    """Fields as the others declare them, those that may be negative signed."""
    return [(name, (signed(name, kind[0]), kind[1]) if isinstance(kind, tuple) else signed(name, kind)) for name, kind in fields]


def title(name):
    """The package's name of a struct of the header."""
    return name[len('rolwyddac_'):].title().replace('_', '')


def told_differ(functions, structs, in_header, c, in_crate, crate, in_package, package):
    """What is wrong with the structs that functions return; a struct of the sources is one of the header's."""
    found, names = [], {}
    for name, (_, result) in functions.items():
        declared_as, told, listed_as = in_header[name][1], in_crate[name][1], in_package[name][1]
        if result in C_TYPES:
            found += same('what %s returns' % name, (declared_as, told, listed_as), (C_TYPES[result], None, None))
            continue
        if result not in structs:
            found.append('%s returns %s, which is no struct laid out as in C' % (name, result))
            continue
        fields = as_declared(structs[result])
        found += same('the first field of %s' % result, fields[0], ('number', 'u32'))
        found += same('the header\'s name of %s' % result, names.setdefault(result, declared_as), declared_as)
        found += same('%s in the header' % declared_as, c.get(declared_as), [(field, of_c(kind)) for field, kind in fields])
        found += same('what %s returns in the package' % name, listed_as, title(declared_as))
        found += same('%s in the package' % listed_as, package.get(listed_as), fields)
        said = SAID_IN_RUST.get(declared_as, {})
        behind = [(said.get(field, field), kind) for field, kind in fields[1:]]
        # one field may be told by itself
        got = [(behind[0][0], told)] if told in C_TYPES and len(behind) == 1 else crate.get(told)
        found += same('what %s tells in the crate' % name, got, behind)
    kept = {names[result] for result in names} | {'rolwyddac_progress'}
    found += same('the structs of the header', sorted(c), sorted(kept))
    found += same('the structures of the package', sorted(package), sorted(title(name) for name in kept - {'rolwyddac_progress'}))
    return found


# The routes

def rust_routes(crate):
    """Name to word; an enum that is laid out as the exported functions take it."""
    text = re.search(r'#\[repr\((\w+)\)\]\s*(?:#\[[^\]]*\]\s*)*pub enum Route \{(.*?)\}', crate, flags=re.S)
    if not text or text[1] != ROUTE:
        raise Wrong('the route in the crate is not laid out as a word')
    return {name: int(word) for name, word in re.findall(r'^\s*(\w+) = (\d+),$', text[2], flags=re.M)}


def c_routes(header):
    return {name.title(): int(word) for name, word in re.findall(r'ROLWYDDAC_(\w*DIRECT) = (\d+)', header)}


# The numbers

def header_table(header):
    """Number to term and reason, from the comment on top."""
    found = re.findall(r'^ \* +(\d+) (\S.*?)  +(\S.*)$', header, flags=re.M)
    return {int(number): (term, reason) for number, term, reason in found}


def header_names(header):
    return {int(number): name for name, number in re.findall(r'ROLWYDDAC_(\w+) = (\d+)', header.split('typedef')[0])}


def crate_table(refusals):
    """Number to name, term and reason, from the list of refusals."""
    words = tokens(refusals)
    start, = places(words, ['refusals', '!', '{'])
    entries = parted(enclosed(words, start + 2, '}'), ';')
    return {int(number): (name, term[1:-1], reason[1:-1]) for number, name, term, _, reason in entries}


def numbers_in(text):
    """The numbers that a comment names: `1 to 8, 9 if out has not 4 words, 11`."""
    text = re.sub(r'has not \d+', '', text)
    found = set()
    for low, high in re.findall(r'\b(\d+)(?: to (\d+))?', text):
        found |= set(range(int(low), int(high or low) + 1))
    return found


def header_numbers(header):
    comments = re.findall(r'/\*((?:(?!\*/).)*)\*/\s*\w+ (\w+)\(', header, flags=re.S)
    return {name: numbers_in(re.search(r'Numbers: (.*?)\.', text, flags=re.S)[1]) for text, name in comments}


def crate_numbers(crate):
    comments = re.findall(r'/// Refusals: ([^\n]*)\.\n\s*(rolwyddac_\w+) as', crate)
    return {name: numbers_in(text) for text, name in comments}


# Holding them to each other

def in_c(parameters):
    """Parameters as the header has them: a slice is a pointer and its length."""
    found = []
    for name, element, lent in parameters:
        if element not in C_TYPES:
            raise Wrong('a type that C has no name for: %s' % element)
        if lent == 'value':
            found.append((C_TYPES[element], name))
        else:
            found.append((('const ' if lent == 'read' else '') + C_TYPES[element] + ' *', name))
            found.append(('size_t', name + '_length'))
    return found


def same(what, got, wanted):
    return [] if got == wanted else ['%s: %s, not %s' % (what, got, wanted)]


def differences(sources, below, header, crate, refusals, package):
    """What is wrong, one line each."""
    found = []
    functions, in_header, in_crate, in_package = exported(sources), declared(header), called(crate), listed(package)
    for where, names in (('header', in_header), ('crate', in_crate), ('package', in_package)):
        found += same('names in the ' + where, sorted(names), sorted(functions))
    if found:
        return found
    for name, (parameters, _) in functions.items():
        found += same(name + ' in the header', in_header[name][0], in_c(parameters))
        found += same(name + ' in the crate', in_crate[name][0], parameters)
        found += same(name + ' in the package', in_package[name][0], parameters)
    structs, c, of_crate = rust_structs(below + sources), c_structs(header), rust_structs(crate)
    record = structs['Progress']
    found += same('the record in the header', c.get('rolwyddac_progress'), [(name, of_c(kind)) for name, kind in record])
    found += same('the record in the crate', of_crate.get('Progress'), record)
    found += told_differ(functions, structs, in_header, c, in_crate, of_crate, in_package, python_structs(package))
    found += same('the routes in the header', c_routes(header), rust_routes(crate))
    table = crate_table(refusals)
    found += same('the header\'s table', header_table(header), {n: line[1:] for n, line in table.items()})
    found += same('the order of the header\'s table', list(header_table(header)), list(table))
    names = {n: term.upper().replace(' ', '_') for n, (_, term, _) in table.items()}
    found += same('the header\'s names', header_names(header), {0: 'DONE', **names})
    found += same('the crate\'s names', {n: name for n, (name, _, _) in table.items()},
                  {n: term.title().replace(' ', '') for n, (_, term, _) in table.items()})
    found += same('numbers at the crate\'s calls', crate_numbers(crate), header_numbers(header))
    found += same('calls with numbers', sorted(header_numbers(header)), sorted(functions))
    return found


def symbols(archive, *words):
    listed = subprocess.run(['nm', '-g', '--defined-only', *words, archive], capture_output=True, text=True, check=True).stdout
    return sorted(re.findall(r'^\w+ T (\w+)$', listed, flags=re.M))


# Planted faults: which text, what in it, what instead

FAULTS = [
    ('header', 'uint32_t rolwyddac_sweep(', 'uint32_t rolwyddac_swept('),
    ('header', 'uint32_t route, uint32_t message)', 'uint32_t message, uint32_t route)'),
    ('header', 'size_t encoded_length, uint32_t route, uint32_t message)', 'uint32_t route, uint32_t message)'),
    ('header', 'size_t encoded_length, uint32_t route, uint32_t message)', 'size_t encoded_length, uint32_t message)'),
    ('header', 'uint32_t route, const uint32_t *source', 'uint8_t route, const uint32_t *source'),
    ('header', 'ROLWYDDAC_INDIRECT = 1', 'ROLWYDDAC_INDIRECT = 2'),
    ('header', '9 if hours has not its length; 25; 11', '9 if hours has not its length; 25'),
    ('header', 'size_t progress_length, const uint8_t *status', 'size_t progress_length, uint8_t *status'),
    ('header', 'uint32_t *memories, size_t memories_length', 'uint64_t *memories, size_t memories_length'),
    ('header', 'const uint32_t *source', 'const uint32_t *bed'),
    ('header', 'uint32_t rolwyddac_turn(', 'uint8_t rolwyddac_turn('),
    ('header', 'rolwyddac_figures rolwyddac_summary(', 'uint32_t rolwyddac_summary('),
    ('header', 'rolwyddac_hop_count rolwyddac_hops(', 'rolwyddac_driven rolwyddac_hops('),
    ('header', '#ifdef __cplusplus\n}', 'uint32_t rolwyddac_more(uint32_t number);\n#ifdef __cplusplus\n}'),
    ('header', '#ifdef __cplusplus\n}', 'typedef struct {\n  uint32_t number;\n} rolwyddac_more;\n#ifdef __cplusplus\n}'),
    ('header', 'uint32_t stage;\n  uint32_t sent;', 'uint32_t sent;\n  uint32_t stage;'),
    ('header', '  uint32_t tiles;', '  uint32_t tile;'),
    ('header', '  uint32_t minutes;', '  uint16_t minutes;'),
    ('header', '  uint32_t begin;', ''),
    ('header', '  uint16_t lengths[4];', '  uint16_t lengths[5];'),
    ('header', '  int16_t offsets[4];', '  uint16_t offsets[4];'),
    ('header', '  uint8_t sides[4];   /* 0 for lower, 1 for upper */\n  uint8_t bounded[4];', '  uint8_t bounded[4];\n  uint8_t sides[4];'),
    ('header', 'ROLWYDDAC_NO_MAIL = 14', 'ROLWYDDAC_NO_MAIL = 13'),
    ('header', 'more than 16,384 cells', 'more than 16,383 cells'),
    ('header', 'Numbers: 1 to 10, 15', 'Numbers: 1 to 11, 15'),
    ('header', 'Numbers: 1 to 9, 16 to 18, 20, 22', 'Numbers: 1 to 9, 16 to 18, 20'),
    ('header', 'Numbers: 1 to 8, 11, 16 to 18, 20, 21', 'Numbers: 1 to 8, 16 to 18, 20, 21'),
    ('header', ' *   17 last spread    the last dimension is spread\n', ''),
    ('crate', 'rolwyddac_turn as turn(\n        encoded: &[u8], route: Route, source: &[u32], memories: &mut [u32]',
     'rolwyddac_turn as turn(\n        encoded: &[u8], route: Route, source: &[u32], memories: &[u32]'),
    ('crate', 'encoded: &[u8], route: Route, message: u32)', 'encoded: &[u8], message: u32, route: Route)'),
    ('crate', '    Direct = 0,', '    Direct = 1,'),
    ('crate', '#[repr(u32)]', '#[repr(u8)]'),
    ('crate', 'rolwyddac_sweep as', 'rolwyddac_swept as'),
    ('crate', 'encoded: &[u8], message: u32) -> u32', 'encoded: &[u8], message: u32) -> Message'),
    ('crate', 'encoded: &[u8], message: u32) -> u32', 'encoded: &[u8], message: u32)'),
    ('crate', 'pub stage: u32', 'pub stage: u64'),
    ('crate', 'pub weights: [u16; 8]', 'pub weights: [u16; 4]'),
    ('crate', 'pub slopes: [i8; 4]', 'pub slopes: [u8; 4]'),
    ('crate', '    /// The processor of the sending tile.\n    pub sending_processor: u32,', '    pub taker: u32,'),
    ('crate', '#[repr(C)]\n', ''),
    ('header', ' *   18 too wide       all', ' *   99 narrow         all'),
    ('refusals', '14 NoMail', '13 NoMail'),
    ('refusals', '7 Boards "boards"', '7 Boards "board"'),
    ('refusals', '    17 LastSpread "last spread": "the last dimension is spread";\n    7 Boards', '    7 Boards'),
    ('header', 'const rolwyddac_progress *other', 'rolwyddac_progress *other'),
    ('crate', 'engaged: &mut [u32], other: &[Progress]', 'other: &[Progress], engaged: &mut [u32]'),
    ('package', 'rolwyddac_sweep(', 'rolwyddac_swept('),
    ('package', 'status: &mut [u8], processor: u32', 'status: &[u8], processor: u32'),
    ('package', 'weights: &[u16]', 'weights: &[u8]'),
    ('package', 'processor: u32) -> Viewed', 'processor: u32) -> Opening'),
    ('package', 'number: u32, opens: u32, minutes: u32', 'number: u32, minutes: u32, opens: u32'),
    ('package', 'components: [u16; 32]', 'components: [u16; 8]'),
    ('header', 'uint32_t processor, uint32_t message, const uint32_t *words', 'uint32_t message, uint32_t processor, const uint32_t *words'),
    ('crate', 'rolwyddac_part_collect as part_collect(\n        encoded: &[u8], route: Route, memory: &[u32]',
     'rolwyddac_part_collect as part_collect(\n        encoded: &[u8], route: Route, memory: &mut [u32]'),
    ('package', 'marks: &mut [u8], processor: u32', 'processor: u32, marks: &mut [u8]'),
    ('sources', 'message: u32', 'message: u16'),
    ('sources', '#[unsafe(no_mangle)]\npub extern "C" fn rolwyddac_sweep', 'pub extern "C" fn rolwyddac_sweep'),
]


def untold(texts):
    """The planted faults that are not told."""
    found = []
    for name, old, new in FAULTS:
        if old not in texts[name]:
            found.append('nothing to change in the %s: %s' % (name, old))
            continue
        try:
            told = differences(**{**texts, name: texts[name].replace(old, new)})
        except (Wrong, ValueError):
            told = True
        if not told:
            found.append('not told: in the %s %s for %s' % (name, new, old))
    return found


def text_of(*names):
    return '\n'.join(open(os.path.join(ROOT, name), encoding='utf-8').read() for name in names)


def sources_of(root):
    """The files of crates/calls_c, and those below it that have a struct laid out as in C."""
    files = sorted(glob.glob(os.path.join(root, 'crates', '*', 'src', '**', '*.rt'), recursive=True))
    calls = [name for name in files if os.path.relpath(name, root).startswith(os.path.join('crates', 'calls_c', ''))]
    return text_of(*calls), text_of(*(name for name in files if name not in calls and '#[repr(C)]' in text_of(name)))


def main(words):
    sources, below = sources_of(ROOT)
    crate = [name for name in sorted(glob.glob(os.path.join(ROOT, CRATE, '*.rs'))) if not name.endswith(REFUSALS)]
    texts = {'sources': sources, 'below': below, 'header': text_of(HEADER), 'crate': text_of(*crate), 'refusals': text_of(REFUSALS),
             'package': text_of(PACKAGE)}
    try:
        found = differences(**texts)
        if words:
            found += same('symbols of the archive', symbols(words[0]), sorted(exported(sources)))
        if words[1:]:
            beside = re.findall(r'\b(rolwyddac_\w+)\(', re.sub(r'/\*.*?\*/', '', text_of(*BESIDE), flags=re.S))
            found += same('symbols of the shared object', symbols(words[1], '-D'), sorted([*exported(sources), *beside]))
        found = found or untold(texts)
    except (Wrong, ValueError) as wrong:
        found = [str(wrong)]
    for line in found:
        print(line)
    if not found:
        print('%d functions, %d numbers, %d planted faults told'
              % (len(exported(texts['sources'])), len(crate_table(texts['refusals'])), len(FAULTS)))
    sys.exit(1 if found else 0)


if __name__ == '__main__':
    main(sys.argv[1:])
