#!/usr/bin/env python3
"""Writes crates/calls_c, a static library: each offered call of crates/calls once more with C linkage, with its clauses, its body the one call.

    python3 tools/exports.py            writes crates/calls_c/src from crates/calls/src; `rt fmt` lays it out, where rt is
    python3 tools/exports.py check      holds what is there to that, layout aside, and crates.txt to what the crate names

A crate is a library or a static library, and not both: crates above cite crates/calls, and C links crates/calls_c. Planted faults must be told. Status 1
where anything is wrong.
"""

import os
import re
import shutil
import subprocess
import sys

ROOT = os.path.join(os.path.dirname(os.path.abspath(__file__)), '..')
FROM, TO = 'calls', 'calls_c'
HEAD = '// The calls of crates/calls/src/%s with C linkage, each with the clauses that it has there. tools/exports.py writes this file.\n'
OFFERED = re.compile(r'((?:^//[^\n]*\n)*)(?:^#\[[^\n]*\]\n)*^pub (?:extern "C" )?fn (rolwyddac_\w+)(.*?)\n\{\n', flags=re.M | re.S)
USE = re.compile(r'^use ([^;]*);$', flags=re.M)
GHOST_USE = re.compile(r'^ghost use ([^;{]*?)(?:\.\{([^}]*)\})?;$', flags=re.M)
STRUCT = re.compile(r'^pub struct (\w+)', flags=re.M)


def read(path):
    with open(path, encoding='utf-8') as file:
        return file.read()


def sources(crate):
    """The crate's files by their names."""
    folder = os.path.join(ROOT, 'crates', crate, 'src')
    return {name: read(os.path.join(folder, name)) for name in sorted(os.listdir(folder)) if name.endswith('.rt')}


def words(text):
    return set(re.findall(r'[^\s(){}\[\],.;:]+', text))


def parameters(signature):
    """The names in a signature's parentheses."""
    inside = signature[signature.index('(') + 1:signature.index(') ->')]
    return re.findall(r'(\w+): ', inside)


def used(path, inside):
    """The names that `use` brings in."""
    leaf = path.rsplit('::', 1)[-1]
    return [name.strip() for name in leaf.strip('{}').split(',')] if leaf.startswith('{') else [leaf]


def uses(text, named):
    """The file's `use` lines, of each what the signatures name."""
    found = []
    for path in USE.findall(text):
        names = [name for name in used(path, named) if name in named]
        above = path.rsplit('::', 1)[0]
        if names:
            found.append('use %s::%s;' % (above, names[0] if len(names) == 1 else '{%s}' % ', '.join(names)))
    return found


def ghost_uses(text, named):
    """The same of what the clauses cite; an operator stands between its operands there."""
    found = []
    for path, names in GHOST_USE.findall(text):
        kept = [name for name in re.split(r',\s*', names.strip()) if name.strip('◌') in named]
        if kept:
            found.append('ghost use %s.{%s};' % (path, ', '.join(kept)))
    return found


def module(name):
    return '' if name == 'lib.rt' else name[:-len('.rt')] + '::'


def export(name, comment, call, signature):
    return '%s#[unsafe(no_mangle)]\npub extern "C" fn %s%s\n{\n    %s::%s%s(%s)\n}\n' % (
        comment, call, signature, FROM, module(name), call, ', '.join(parameters(signature)))


def exports(name, text):
    """The file of the static library for this file of the library."""
    offered = OFFERED.findall(text)
    named = set().union(*(words(signature) for _, _, signature in offered))
    head = HEAD % name + ('#![tactic(auto)]\n\n' if name == 'lib.rt' else '')
    own = [struct for struct in STRUCT.findall(text) if struct in named]
    lines = sorted(uses(text, named) + ['use %s::%s%s;' % (FROM, module(name), struct) for struct in own], key=lambda line: line[len('use '):])
    mods = sorted(re.findall(r'^pub mod \w+;', text, flags=re.M))
    parts = ['\n'.join(group) + '\n' for group in (ghost_uses(text, named), lines, mods) if group]
    parts += [export(name, *each) for each in offered]
    return head + '\n'.join(parts)


def written(library):
    return {name: exports(name, text) for name, text in library.items()}


def tokens(text):
    """Comments too, word by word; the commas at the end of a list are the layout's."""
    return re.findall(r'\w+|[^\s\w]', re.sub(r',(\s*[)\]}])', r'\1', text))


def cited(library):
    """The crates that the static library names."""
    text = '\n'.join(library.values())
    return set(re.findall(r'^ghost use Rattle\.(\w+)\.', text, flags=re.M)) | set(re.findall(r'^use (\w+)::', text, flags=re.M)) - {'std'} | {FROM}


def listed(crates):
    """What crates.txt has behind the static library's colon, None where it is not there as one."""
    line = re.search(r'^%s staticlib:(.*)$' % TO, crates, flags=re.M)
    return set(line[1].split()) if line else None


def differences(library, static, crates):
    """What is wrong, one line each."""
    wanted, found = written(library), []
    for name in sorted({*wanted, *static}):
        if name not in static or name not in wanted:
            found.append('crates/%s/src/%s is %s' % (TO, name, 'missing' if name in wanted else 'of no file of crates/' + FROM))
        elif tokens(static[name]) != tokens(wanted[name]):
            found.append('crates/%s/src/%s is not what tools/exports.py writes' % (TO, name))
    calls = re.findall(r'\bfn (rolwyddac_\w+)', '\n'.join(library.values()))
    made = re.findall(r'^pub extern "C" fn (rolwyddac_\w+)', '\n'.join(static.values()), flags=re.M)
    if sorted(calls) != sorted(made):
        found.append('calls that are not exported: %s' % ' '.join(sorted(set(calls) ^ set(made))))
    if listed(crates) != cited(static):
        found.append('crates.txt has not `%s staticlib: %s`' % (TO, ' '.join(sorted(cited(static)))))
    return found


# Planted faults: which text, what in it, what instead
FAULTS = (
    ('static', 'lib.rt', '#[unsafe(no_mangle)]\n', ''),
    ('static', 'lib.rt', 'calls::rolwyddac_sweep', 'calls::rolwyddac_swept'),
    ('static', 'board.rt', 'processor: u32', 'processor: u64'),
    ('static', 'hour.rt', 'ensures { OpensGave', 'ensures { OpenedGave'),
    ('library', 'mail.rt', 'fn rolwyddac_send', 'fn rolwyddac_sent'),
    ('library', 'round.rt', 'result (areas_of', 'result (areas_at'),
    ('library', 'chart_text.rt', 'fn rolwyddac_chart(', 'fn rolwyddac_drawn('),
)


def untold(library, static, crates):
    found = []
    for where, name, old, new in FAULTS:
        texts = dict(library if where == 'library' else static)
        if old not in texts[name]:
            found.append('nothing to change in %s of the %s: %s' % (name, where, old))
            continue
        texts[name] = texts[name].replace(old, new)
        if not differences(*((texts, static) if where == 'library' else (library, texts)), crates):
            found.append('not told: %s for %s' % (new, old))
    return found if differences(library, static, crates.replace(TO + ' staticlib', TO)) else found + ['not told: crates.txt has it as a library']


def main(arguments):
    library = sources(FROM)
    if not arguments:
        folder = os.path.join(ROOT, 'crates', TO, 'src')
        os.makedirs(folder, exist_ok=True)
        there, changed = sources(TO), False
        for name, text in written(library).items():
            # a file that has another layout alone is as rt fmt has it
            if tokens(text) != tokens(there.get(name, '')):
                changed = True
                with open(os.path.join(folder, name), 'w', encoding='utf-8') as file:
                    file.write(text)
        return subprocess.run(['rt', 'fmt'], cwd=os.path.dirname(folder)).returncode if changed and shutil.which('rt') else 0
    if arguments != ['check']:
        sys.exit(__doc__)
    static, crates = sources(TO), read(os.path.join(ROOT, 'crates.txt'))
    found = differences(library, static, crates) or untold(library, static, crates)
    print(*found or ['%d calls with C linkage, %d planted faults told' % (len(re.findall('no_mangle', '\n'.join(static.values()))), len(FAULTS) + 1)], sep='\n')
    return int(bool(found))


if __name__ == '__main__':
    sys.exit(main(sys.argv[1:]))
