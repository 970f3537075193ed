"""Fills docs/COMMAND.md with what the command's parser has: how each subcommand is called, its options, its example.

    python3 tools/command_page.py          # writes the page
    python3 tools/command_page.py check    # compares it; status 1 where it differs

Only what stands between `<!-- NAME -->` and `<!-- end -->` is written. The library is needed: ROLWYDDAC_LIB names its folder, or
bindings/library has made it.
"""

import os
import re
import sys

ROOT = os.path.join(os.path.dirname(os.path.abspath(__file__)), '..')
PAGE = os.path.join(ROOT, 'docs', 'COMMAND.md')


def filled(text):
    """The page with its parts made anew."""
    from rolwyddac.command import pages, parser
    whole = parser.parser_of()
    below = pages.subcommands(whole)

    def part(found):
        made = pages.reference(below[found[1]] if found[1] in below else whole)
        example = parser.SUBCOMMANDS[found[1]].EXAMPLE if found[1] in below else ''
        if example:
            made += '\nFor example:\n\n```sh\n%s\n```\n' % example
        return '<!-- %s -->\n\n%s\n<!-- end -->' % (found[1], made)

    names = re.findall(r'^<!-- (\w+) -->$', text, flags=re.M)
    if [name for name in names if name != 'end'] != ['rolwyddac', *below]:
        raise SystemExit('docs/COMMAND.md has not each subcommand, in the order of the command')
    return re.sub(r'<!-- (\w+) -->\n.*?<!-- end -->', part, text, flags=re.S)


def main(words):
    sys.path.insert(0, os.path.join(ROOT, 'bindings', 'python'))
    with open(PAGE, encoding='utf-8') as page:
        text = page.read()
    made = filled(text)
    if words == ['check']:
        if made != text:
            print('docs/COMMAND.md is not what the parser gives: python3 tools/command_page.py writes it')
        return int(made != text)
    with open(PAGE, 'w', encoding='utf-8') as page:
        page.write(made)
    return 0


if __name__ == '__main__':
    sys.exit(main(sys.argv[1:]))
