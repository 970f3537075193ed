"""Holds the two programs to what docs/RECIPE.md says of their faults. Run as

    python3 tools/programs.py

once they are linked: crates/NAME/out/NAME, which `.ci/run` makes, and `rt run` in the crate's folder. Each shortest refused recipe of docs/RECIPE.md gives its number on standard output, and number, term and
meaning as the table there has them on standard error; a recipe that is not refused gives nothing there; what can't be read or written, and
arguments, give their line. The page's lines for scripts have the status that it says. Rows A to H give the model's text, and row D the one that
document 01 prints. The recipe that the gate runs the plan printer on has another plan on the other route. Status 1 where anything is wrong.
"""

import os
import re
import subprocess
import sys
import tempfile

import model
import recipe_page

TEXTS = {'print_plan': model.plan_text, 'compare_sweeps': model.compare_text}
# the programs' limit of 512 bytes is a part of their line 1
RAGGED = 'the recipe is empty, longer than 512 bytes or no multiple of 16 bytes'
# written by hand from document 01, "Recipes to be met"
ROW_D = {'print_plan': 'tiles 2 messages 1 words 1 steps 6\n0 0 1 0 1 1\n', 'compare_sweeps': 'agree\nagree\nagree\nagree\n'}


def linked(name):
    return os.path.join('crates', name, 'out', name)


def page(name):
    with open(os.path.join(recipe_page.ROOT, name), encoding='utf-8') as file:
        return file.read()


def refusals():
    """Line and recipe of each number of the reader: the examples that are a recipe alone."""
    text = page(recipe_page.PAGE)
    meanings = {int(number): meaning for number, meaning in re.findall(r'^\| (\d+) \| [^|]+ \| ([^|]+) \| `[^`]+` \|$', text, flags=re.M)}
    meanings[1] = RAGGED
    known = recipe_page.recipes(text)
    return [('%d, %s: %s' % (number, term, meanings[number]), recipe_page.recipe_of(example, known))
            for number, term, example in recipe_page.numbers(text) if ':' not in example]


def told(command, recipe=b''):
    """What the shell's command writes, standard output and the lines of standard error."""
    ran = subprocess.run(command, shell=True, input=recipe, capture_output=True, timeout=60, check=False)
    return ran.stdout.decode(), ran.stderr.decode().splitlines()


def faults(program, text, recipe):
    """Command, standard input, what is to be told."""
    ragged = '1, ragged: ' + RAGGED
    refused = text(b'')
    plain = text(recipe)
    return [
        (program, recipe, (plain, [])),
        (program + ' recipe', recipe, (plain, ['arguments are not heeded: the recipe is read from standard input'])),
        (program + ' > /dev/full', recipe, ('', ['standard output: No space left on device'])),
        (program + ' >&-', recipe, ('', ['standard output: Bad file descriptor'])),
        (program + ' <&-', b'', (refused, ['standard input: Bad file descriptor', ragged])),
        (program + ' < /', b'', (refused, ['standard input: Is a directory', ragged])),
        (program, recipe * 20, (refused, [ragged])),
    ]


def tells_routes():
    """Is what the gate wants of the plan printer the direct plan's text, and not the indirect plan's?"""
    folder = os.path.join(recipe_page.ROOT, 'crates/print_plan')
    with open(os.path.join(folder, 'stdin'), 'rb') as file:
        recipe = file.read()
    wanted = page(os.path.join(folder, 'stdout'))
    return wanted == model.plan_text(recipe) and wanted != model.plan_text(recipe, model.INDIRECT)


def tests_for_scripts():
    """Line, recipe and status: the page's one line a program, over a recipe that is accepted, two that are refused, and none at all."""
    lines = re.findall(r'^(.*(?:%s) < recipe.*)$' % '|'.join(map(linked, TEXTS)), page(recipe_page.PAGE), flags=re.M)
    row = model.ROWS['D']
    return [(line, recipe, status) for line in lines for recipe, status in ((row, True), (row[16:], False), (b'', False), (None, False))]


def ends_well(line, recipe):
    """Has the line status 0 where the recipe stands in a file?"""
    with tempfile.TemporaryDirectory() as room:
        os.symlink(os.path.abspath(os.path.join(recipe_page.ROOT, 'crates')), os.path.join(room, 'crates'))
        if recipe is not None:
            with open(os.path.join(room, 'recipe'), 'wb') as file:
                file.write(recipe)
        return subprocess.run(line, shell=True, cwd=room, capture_output=True, timeout=60, check=False).returncode == 0


def main():
    wrong, tried = 0, 1
    if not tells_routes():
        wrong += 1
        print('crates/print_plan: the recipe there does not tell the routes apart')
    for line, recipe, well in tests_for_scripts():
        tried += 1
        if ends_well(line, recipe) != well:
            wrong += 1
            print('%s: not as it should be over %r' % (line, recipe))
    for name, text in TEXTS.items():
        program = os.path.join(recipe_page.ROOT, linked(name))
        cases = faults(program, text, model.ROWS['D'])
        cases += [(program, recipe, ('refused %s\n' % line.split(',')[0], [line])) for line, recipe in refusals()]
        cases += [(program, recipe, (text(recipe), [])) for recipe in model.ROWS.values()]
        cases += [(program, model.ROWS['D'], (ROW_D[name], []))]
        for command, recipe, expected in cases:
            tried += 1
            found = told(command, recipe)
            if found != expected:
                wrong += 1
                print('%s: %r, expected %r' % (command, found, expected))
    print('%d tried, %d wrong' % (tried, wrong))
    # for each program seven faults, twelve numbers, eight rows, the paper's text and four tries of a script's line: none may be lost with a page's layout
    return 1 if wrong or tried != 1 + 2 * (7 + 12 + 8 + 1 + 4) else 0


if __name__ == '__main__':
    sys.exit(main())
