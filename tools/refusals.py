#!/usr/bin/env python3
"""Holds what the prover says of each must-fail edit to what the edit is there for.

    python3 tools/refusals.py [--root DIR]                 what target/refusals has
    python3 tools/refusals.py --try [NAME..] [--jobs N]    tries the edits first, those of the crates named or all, and keeps what the prover says there

The gate is content with any refusal, and shows the first line of it. A try has the prover look at a copy of the crate with the edit, outside the
repository, over the proofs that it kept of the crate as it stands. One that was tried over the same files is not tried again. Asked is more than
the gate does:

- the log is there, and it is of the edit and the crates as they stand now;
- the first error of the edit is a fact that no longer holds, not a name that is missing or a text that can't be read;
- each function that the edit's line `refused:` names is refused for an error in its own proof, or for a fact that was looked for and not found. A
  caller of a refused function is not proved either, which shows nothing of the caller;
- each law that the edit's line `law: FILE NAME` names is refused for an error of its own, in that file. So an edit that
  changes several definitions is held to one law for each of them.

It prints a line a fault and then a line with the counts. The status is 1 where there is a fault.
"""
import argparse
import concurrent.futures
import hashlib
import os
import re
import shutil
import subprocess
import sys
import tempfile

PARTS = ('src', 'specs', 'proofs')
# the prover's words for a proof that doesn't fit the code's shape: it shows nothing of the promise
MISSING = re.compile(r'that can be named from here|not in scope(?! here, so what is shown)|no such|has no field|has no `|is no name')
# an error that only repeats an earlier one: something that this needs was refused
REPEATED = re.compile(r'was not admitted|which was rejected|were not checked|was not checked')
# a verdict on a function with a fact that the prover looked for and did not find
UNFOUND = re.compile(r'`search` did not prove [^;]*')
# a verdict on a function that the checker can't read: where its proof by hand has no error either, nothing is said of it
UNCOVERED = 'does not cover this function'
ERROR = re.compile(r'^(?:\./)?(\S+?):(\d+):\d+: error: (.*)$')
NOTE = re.compile(r'^note: (?:\./)?(\S+?):(\d+):\d+: (it is not proved .*)$')
VERDICT = re.compile(r'^fn (\S+): (.*)$')
NAMES = re.compile(r'(?:# )?(refused|law): *(.*)$')


class Edit:
    """One .edit file: its pairs, and the functions and the laws that it names."""

    def __init__(self, root, crate, what):
        self.crate, self.what = crate, what
        self.folder = os.path.join(root, 'crates', crate)
        self.log = os.path.join(root, 'target', 'refusals', crate, what + '.log')
        self.text = read(os.path.join(self.folder, 'must-fail', what + '.edit'))
        self.pairs, self.functions, self.laws = [], [], []
        file = old = None
        for line in self.text.split('\n'):
            named = NAMES.match(line)
            if line.startswith('file: '):
                file = line[len('file: '):]
            elif line.startswith('old: '):
                old = line[len('old: '):]
            elif line.startswith('new:'):
                new = line[len('new:'):]
                self.pairs.append((file, old, new[1:] if new.startswith(' ') else new))
            elif named and named.group(1) == 'refused':
                self.functions += named.group(2).split()
            elif named:
                place, *names = named.group(2).split()
                self.laws += [(place, law) for law in names]

    def name(self):
        return self.crate + '/' + self.what

    def edited(self):
        """The text that each changed file has in the copy that is tried."""
        texts = {}
        for file, old, new in self.pairs:
            text = texts[file] if file in texts else read(os.path.join(self.folder, file))
            texts[file] = text.replace(old, new, 1)
        return texts


class Log:
    """What the prover said of one edit."""

    def __init__(self, text):
        self.refused = '\nlogic=not-proved' in '\n' + text
        self.errors, self.notes, self.verdicts = [], [], {}
        for line in text.split('\n'):
            error, note, verdict = ERROR.match(line), NOTE.match(line), VERDICT.match(line)
            if error and not REPEATED.search(error.group(3)):
                self.errors.append(error.groups())
            elif note:
                self.notes.append(note.groups())
            elif verdict:
                self.verdicts[verdict.group(1)] = verdict.group(2)

    def own(self, path):
        """The errors in the proof of the function at this path, `+` before its name where it calls itself."""
        above, _, last = path.replace('::', '/').rpartition('/')
        folders = [os.path.join('proofs', above, mark + last, '') for mark in ('', '+')]
        return [e for e in self.errors if e[0].startswith(tuple(folders))]

    def of_law(self, place, law):
        """The errors of the law of this name in this file."""
        return [e for e in self.errors if e[0] == place and e[2].startswith('`%s`: ' % law)]


def read(path):
    with open(path, encoding='utf-8') as file:
        return file.read()


def write(path, text):
    os.makedirs(os.path.dirname(path), exist_ok=True)
    with open(path, 'w', encoding='utf-8') as file:
        file.write(text)


def is_fact(text):
    """An error is told of a declaration; what can't be read is told of a file."""
    return text.startswith('`') and not MISSING.search(text)


def shown(error):
    return '%s:%s: %s' % (error[0], error[1], error[2][:120])


def function_fault(edit, log, path):
    """What is wrong with the refusal of a function that the edit names, or None."""
    verdict = log.verdicts.get(edit.crate + '::' + path)
    if verdict is None:
        return 'the prover has no verdict on %s' % path
    if not verdict.startswith(('not proved', 'no proof')):
        return '%s is %s' % (path, verdict)
    if UNCOVERED in verdict and not log.own(path):
        return '%s is not looked at: %s' % (path, verdict[:160])
    if UNFOUND.search(verdict):
        return None
    own = log.own(path)
    if not own:
        return '%s is refused for no error of its own (%s)' % (path, verdict)
    if not is_fact(own[0][2]):
        return '%s is refused for its shape: %s' % (path, shown(own[0]))
    return None


def law_fault(log, place, law):
    """What is wrong with the refusal of a law that the edit names, or None."""
    own = log.of_law(place, law)
    if not own:
        return '%s of %s is refused for no error of its own' % (law, place)
    if not is_fact(own[0][2]):
        return '%s is refused for its shape: %s' % (law, shown(own[0]))
    return None


def log_faults(edit, text):
    """What is wrong with an edit's refusal by its log."""
    log = Log(text)
    if not log.refused:
        return ['the prover did not refuse it']
    faults = []
    if log.errors:
        if not is_fact(log.errors[0][2]):
            faults.append('the first error is no fact: ' + shown(log.errors[0]))
    elif not log.notes:
        faults.append('it is refused without an error')
    faults += [function_fault(edit, log, path) for path in edit.functions]
    faults += [law_fault(log, place, law) for place, law in edit.laws]
    return [fault for fault in faults if fault]


def below(root):
    """Each crate of crates.txt with all crates of the repository below it."""
    lines = [line.split(':') for line in re.sub(r'#.*', '', read(os.path.join(root, 'crates.txt'))).splitlines() if ':' in line]
    named = {head.split()[0]: rest.split() for head, rest in lines}
    found = {}

    def reached(crate):
        if crate not in found:
            found[crate] = {crate}.union(*(reached(each) for each in named[crate] if each in named))
        return found[crate]

    return {crate: sorted(reached(crate)) for crate in named}


def files_of(root, crates):
    """The files of these crates that the prover reads."""
    for crate in crates:
        for part in PARTS:
            for folder, folders, names in os.walk(os.path.join(root, 'crates', crate, part)):
                folders.sort()
                for name in sorted(names):
                    if name.endswith(('.rt', '.antt')):
                        yield os.path.relpath(os.path.join(folder, name), root)


def version():
    return subprocess.run(['rt', 'version'], capture_output=True, text=True, check=True).stdout.strip() if shutil.which('rt') else ''


def sum_of(root, edit, crates):
    """What a try of the edit rests on, but for the toolchain."""
    found = hashlib.sha256(edit.text.encode())
    for name in files_of(root, crates):
        found.update(('\n%s\n' % name + read(os.path.join(root, name))).encode())
    return found.hexdigest()


def head(root, edit, crates):
    """The first line of a try's log."""
    return 'tried %s by %s\n' % (sum_of(root, edit, crates), version() or '(.*)')


def tried(root, edit, crates):
    """What the prover said of the edit over the files as they stand now, or None."""
    if os.path.isfile(edit.log):
        first, _, said = read(edit.log).partition('\n')
        wanted = head(root, edit, crates)[:-1]
        if first == wanted or wanted.endswith('(.*)') and first.startswith(wanted[:-len('(.*)')]):
            return said
    return None


def try_crate(root, edits, crates):
    """Tries a crate's edits, one after the other in one copy, each kept in its log."""
    with tempfile.TemporaryDirectory(prefix='refusals-') as room:
        # rt looks for the top of a repository
        os.mkdir(os.path.join(room, '.git'))
        lines = [line for line in read(os.path.join(root, 'crates.txt')).splitlines() if re.split(r'[ :]', line.strip())[0] in crates]
        write(os.path.join(room, 'crates.txt'), '\n'.join(lines) + '\n')
        for name in files_of(root, crates):
            write(os.path.join(room, name), read(os.path.join(root, name)))
        for edit in edits:
            first, at = head(root, edit, crates), os.path.join(room, 'crates', edit.crate)
            for file, text in edit.edited().items():
                write(os.path.join(at, file), text)
            said = subprocess.run(['rt', 'check'], cwd=at, stdin=subprocess.DEVNULL, stdout=subprocess.PIPE, stderr=subprocess.STDOUT, errors='replace')
            write(edit.log, first + said.stdout)
            print('%s tried' % edit.name(), flush=True)
            for file in edit.edited():
                write(os.path.join(at, file), read(os.path.join(edit.folder, file)))


def try_all(root, edits, names, jobs):
    """Tries those that were not tried over these very files."""
    crates, todo = below(root), {}
    for edit in edits:
        if (not names or edit.crate in names) and tried(root, edit, crates[edit.crate]) is None:
            todo.setdefault(edit.crate, []).append(edit)
    with concurrent.futures.ThreadPoolExecutor(jobs) as pool:
        for done in [pool.submit(try_crate, root, some, crates[crate]) for crate, some in todo.items()]:
            done.result()


def edit_faults(root, edit, crates):
    if not os.path.isfile(edit.log):
        return ['no log: tools/refusals.py --try has not tried it']
    said = tried(root, edit, crates[edit.crate])
    return ['the log is of other files: run tools/refusals.py --try again'] if said is None else log_faults(edit, said)


def planted_faults(edit, text):
    """A check that can't fail shows nothing: each fault planted in a log that passes must be told."""
    path = edit.functions[0]
    verdict = 'fn %s::%s: ' % (edit.crate, path)
    lines = text.split('\n')
    missing = '`returns`: record `Args` has no field `values`'
    first = next((k for k, line in enumerate(lines) if ERROR.match(line) and not REPEATED.search(line)), None)
    callers = '\n'.join(line for line in lines if not ERROR.match(line) or REPEATED.search(line))
    planted = {
        'a crate that is proved': text.replace('logic=not-proved', 'logic=proved'),
        'a function that is proved': re.sub('(?m)^' + re.escape(verdict) + '.*$', verdict + 'proved', text),
        'a function without a verdict': text.replace(verdict, 'fn another: '),
        'no error of its own': UNFOUND.sub('it calls `another`, which is not proved', callers),
    }
    if first is not None:
        place = ERROR.sub(r'\1:\2:1: error: ', lines[first])
        planted['a name that is missing'] = '\n'.join(lines[:first] + [place + missing] + lines[first + 1:])
        planted['a text that is not closed'] = '\n'.join(lines[:first] + [place + 'the `(` is never closed'] + lines[first + 1:])
    return untold(edit, planted)


def planted_law_faults(edit, text):
    """The same of a law that is named."""
    place, law = edit.laws[0]
    its = re.compile(r'(?m)^((?:\./)?%s:\d+:\d+: error: `%s`): .*$' % (re.escape(place), re.escape(law)))
    return untold(edit, {
        'a law that is admitted': its.sub('', text),
        'a law that only repeats an error': its.sub(r'\1: `another` was not admitted', text),
        'a name that a law lacks': its.sub(r'\1: `another` is not in scope', text),
    })


def untold(edit, planted):
    """The planted faults that the edit's refusal passes with."""
    return ['planted in its log, not told: ' + what for what, doctored in planted.items() if not log_faults(edit, doctored)]


def edits_of(root):
    crates = os.path.join(root, 'crates')
    for crate in sorted(os.listdir(crates)):
        folder = os.path.join(crates, crate, 'must-fail')
        for file in sorted(os.listdir(folder)) if os.path.isdir(folder) else []:
            if file.endswith('.edit'):
                yield Edit(root, crate, file[:-len('.edit')])


def kinds(edit, text):
    """What is planted in the log of an edit: in one where the prover found errors, one where it only looked in vain, and one of a law."""
    found = Log(text).errors
    if edit.functions:
        yield ('errors' if found else 'search'), planted_faults
    if edit.laws:
        yield 'law', planted_law_faults


def main():
    parser = argparse.ArgumentParser(description=__doc__.split('\n')[0])
    parser.add_argument('--root', default=os.path.join(os.path.dirname(os.path.abspath(__file__)), '..'),
                        help='the repository; that of this file unless given')
    parser.add_argument('--try', dest='names', nargs='*', metavar='NAME', help='try the edits of these crates, or all')
    parser.add_argument('--jobs', type=int, default=max(1, (os.cpu_count() or 1) // 2), help='crates that are tried side by side')
    given = parser.parse_args()
    root = os.path.abspath(given.root)
    edits, crates = list(edits_of(root)), below(root)
    if given.names is not None:
        try_all(root, edits, given.names, given.jobs)
        edits = [edit for edit in edits if not given.names or edit.crate in given.names]
    faults, functions, laws, planted = [], 0, 0, set()
    for edit in edits:
        found = edit_faults(root, edit, crates)
        for kind, plant in () if found else kinds(edit, read(edit.log)):
            if kind not in planted:
                planted.add(kind)
                found = found + plant(edit, read(edit.log))
        functions += 0 if found else len(edit.functions)
        laws += 0 if found else len(edit.laws)
        faults += ['%s: %s' % (edit.name(), fault) for fault in found]
    for fault in faults:
        print(fault)
    print('%d edits, %d functions and %d laws refused, %d faults' % (len(edits), functions, laws, len(faults)))
    return 1 if faults or not edits else 0


if __name__ == '__main__':
    sys.exit(main())
