"""Pages made from the command's parser: the man page, the completion for bash, the options of docs/COMMAND.md."""

from __future__ import annotations

import argparse
import textwrap
from typing import Dict, Iterator, List, Tuple


def subcommands(parser: argparse.ArgumentParser) -> Dict[str, argparse.ArgumentParser]:
    """The parser of each subcommand."""
    for action in parser._actions:
        if isinstance(action, argparse._SubParsersAction):
            return dict(action.choices)
    return {}


def _values(action: argparse.Action) -> str:
    """What stands behind an option, as it is written."""
    if action.nargs == 0:
        return ''
    if action.choices is not None:
        return '|'.join(map(str, action.choices))
    names = action.metavar if isinstance(action.metavar, tuple) else (action.metavar or action.dest.upper(),)
    return ' '.join(names) + (' ..' if action.nargs == '+' else '')


def options(parser: argparse.ArgumentParser) -> Iterator[Tuple[str, str]]:
    """Each word of a subcommand as it is written, and what it says; that each has --help is told once."""
    for action in parser._actions:
        if isinstance(action, argparse._SubParsersAction) or isinstance(action, argparse._HelpAction) and ' ' in parser.prog:
            continue
        values = _values(action)
        written = ', '.join(action.option_strings) + ' ' + values if action.option_strings else values
        yield written.strip(), action.help or ''


def _usage_word(action: argparse.Action) -> str:
    """An option with its values, in brackets where it may be left out."""
    if isinstance(action, argparse._SubParsersAction):
        return 'SUBCOMMAND ..'
    word = ' '.join([*action.option_strings[:1], _values(action)]).strip()
    return word if action.required and action.nargs != '?' else '[%s]' % word


def usage_words(parser: argparse.ArgumentParser) -> List[str]:
    """How it is called: the command, its files, what one of is needed, its options."""
    chosen = [action for group in parser._mutually_exclusive_groups for action in group._group_actions]
    groups = [('(%s)' if group.required else '[%s]') % ' | '.join(
        ' '.join([action.option_strings[0], _values(action)]).strip() for action in group._group_actions) for group in parser._mutually_exclusive_groups]
    others = [action for action in parser._actions if action not in chosen and not isinstance(action, argparse._HelpAction)]
    named = [_usage_word(action) for action in others if not action.option_strings and action.dest != 'subcommand']
    options_of = [_usage_word(action) for action in others if action.option_strings]
    return [parser.prog, *named, *groups, *options_of, *(_usage_word(action) for action in others if action.dest == 'subcommand')]


def reference(parser: argparse.ArgumentParser, width: int = 100) -> str:
    """How a subcommand is called, what it does and its options, in Markdown."""
    # a word with its values stays in one line
    call = textwrap.fill(' '.join(word.replace(' ', '\0') for word in usage_words(parser)), width, subsequent_indent='    ', break_on_hyphens=False)
    text = '```usage\n' + call + '\n```\n\n' + textwrap.fill(' '.join((parser.description or '').split()), width, break_on_hyphens=False) + '\n\n'
    for written, told in options(parser):
        text += textwrap.fill('- `%s`: %s' % (written.replace(' ', '\0'), told), width, subsequent_indent='  ', break_on_hyphens=False) + '\n'
    return text.replace('\0', ' ')


def _troff(text: str) -> str:
    """Text that troff prints as it is."""
    lines = text.replace('\\', '\\e').replace('-', '\\-').split('\n')
    return '\n'.join('\\&' + line if line.startswith(('.', "'")) else line for line in lines)


def _man_options(parser: argparse.ArgumentParser) -> List[str]:
    return [line for written, told in options(parser) for line in ('.TP', '.B ' + _troff(written), _troff(told))]


def man(parser: argparse.ArgumentParser) -> str:
    """The man page."""
    lines = ['.TH ROLWYDDAC 1', '.SH NAME', 'rolwyddac \\- depth grids by a proved tiled sweep', '.SH SYNOPSIS',
             '.B rolwyddac', '.I SUBCOMMAND', '..', '.SH DESCRIPTION', _troff(parser.description or ''), '.SH OPTIONS', *_man_options(parser)]
    lines[lines.index('..')] = '\\&..'
    for name, sub in subcommands(parser).items():
        lines += ['.SH ' + name.upper(), '.B ' + _troff(' '.join(usage_words(sub))), '.PP', _troff(sub.description or ''), *_man_options(sub)]
        lines += ['.PP', 'Example:', '.PP', '.nf', _troff((sub.epilog or '').partition('\n')[2].strip()), '.fi']
    lines += ['.SH EXIT STATUS', _troff((parser.epilog or '').partition(': ')[2]), '.PP',
              'A signal ends the command as it ends others: Ctrl\\-C gives a shell the status 130.']
    return '\n'.join(lines) + '\n'


_BASH = '''# Completion for bash, made by rolwyddac --completion bash.
_rolwyddac() {
  local word=${COMP_WORDS[COMP_CWORD]} before=${COMP_WORDS[COMP_CWORD - 1]} words
  COMPREPLY=()
  case $before in
%(values)s    *) ;;
  esac
  if [ "$COMP_CWORD" -eq 1 ]; then
    words="%(top)s"
  else
    case ${COMP_WORDS[1]} in
%(cases)s      *) words= ;;
    esac
  fi
  if [ "$COMP_CWORD" -eq 1 ] || [[ $word == -* ]]; then
    mapfile -t COMPREPLY < <(compgen -W "$words" -- "$word")
  fi
}
complete -o default -F _rolwyddac rolwyddac
'''


def bash(parser: argparse.ArgumentParser) -> str:
    """A completion for bash: subcommands, their options, and the values that an option may have; else names of files."""
    below, values, cases = subcommands(parser), {}, ''
    for name, sub in below.items():
        words = [option for action in sub._actions for option in action.option_strings]
        cases += '      %s) words="%s" ;;\n' % (name, ' '.join(words))
    for each in (parser, *below.values()):
        for action in each._actions:
            if action.choices is not None and action.option_strings:
                values[action.option_strings[-1]] = ' '.join(map(str, action.choices))
    told = ''.join('    %s)\n      mapfile -t COMPREPLY < <(compgen -W "%s" -- "$word")\n      return\n      ;;\n' % each
                   for each in values.items())
    top = [*below, *(option for action in parser._actions for option in action.option_strings)]
    return _BASH % {'values': told, 'top': ' '.join(top), 'cases': cases}
